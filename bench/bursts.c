#include "bursts.h"

#include "readings.h"

#include <string.h>

/* What stands in out and answers before they are checked. */
#define PAINT 0xA5

/* A burst without frames yet, under the messages' key. */
static void begin(struct burst *b, uint64_t answer) {
  struct message m;
  make_message(&m, 0);
  memset(b, 0, sizeof *b);
  memset(b->expected, PAINT, sizeof b->expected);
  b->key_first = m.key_first;
  b->key_second = m.key_second;
  b->answer = answer;
}

static void append(struct burst *b, size_t k, const uint8_t *frame, size_t length) {
  memcpy(b->frames + b->frames_length, frame, length);
  b->frames_length += length;
  b->lengths[k] = (uint16_t)length;
}

void make_burst(struct burst *b, size_t length) {
  begin(b, length);
  for (size_t k = 0; k < NWK_MAX_BURST; k++) {
    struct message m;
    make_numbered_message(&m, length, (uint8_t)k);
    append(b, k, m.frame, m.frame_length);
    memcpy(b->expected + NWK_MAX_PAYLOAD * k, m.payload, length);
  }
}

/* 16 frames of so many bytes: a plain header, and zeros behind it. */
static void make_plain_burst(struct burst *b, size_t length, uint64_t answer) {
  struct reading r;
  make_plain_header(&r);
  begin(b, answer);
  for (size_t k = 0; k < NWK_MAX_BURST; k++) {
    append(b, k, r.bytes, length);
  }
}

void make_short_burst(struct burst *b) {
  make_plain_burst(b, HEADER_LENGTH - 1, (uint64_t)NWK_REFUSED_SHORT_HEADER << 32);
}

void make_clear_burst(struct burst *b, size_t length) {
  make_plain_burst(b, HEADER_LENGTH + length, (uint64_t)1 << 40 | length);
}

bool open_burst(void *input) {
  struct burst *b = input;
  return nwk_open_burst(NWK_LEVEL_ENC_MIC_32, b->key_first, b->key_second, b->frames, b->frames_length, b->lengths,
                        NWK_MAX_BURST, b->answers, NWK_MAX_BURST, b->out, sizeof b->out) == NWK_MAX_BURST;
}

bool open_each(void *input) {
  struct burst *b = input;
  const uint8_t *frame = b->frames;
  bool well = true;
  for (size_t k = 0; k < NWK_MAX_BURST; k++) {
    well &= nwk_open(NWK_LEVEL_ENC_MIC_32, b->key_first, b->key_second, frame, b->lengths[k], b->answers[k],
                     NWK_OPENED_RECORD, b->out + NWK_MAX_PAYLOAD * k, NWK_MAX_PAYLOAD) == b->answer;
    frame += b->lengths[k];
  }
  return well;
}

/* Run one way on painted places. */
static void check_way(call *run, struct burst *b, const char *who) {
  memset(b->answers, PAINT, sizeof b->answers);
  memset(b->out, PAINT, sizeof b->out);
  if (!run(b)) {
    fail("the frames of a burst are not answered as they have to be", who);
  }
  if (memcmp(b->out, b->expected, sizeof b->out) != 0) {
    fail("out does not hold the sealed payloads and, behind them, what it held before", who);
  }
}

/* A record that nwk_open leaves as it was where it refuses, as a burst has it: the number, and zeros. */
static void note_refusal(struct burst *b) {
  if (NWK_REFUSAL(b->answer) == NWK_ACCEPTED) {
    return;
  }
  memset(b->answers, 0, sizeof b->answers);
  for (size_t k = 0; k < NWK_MAX_BURST; k++) {
    b->answers[k][NWK_OPENED_REFUSAL] = NWK_REFUSAL(b->answer);
  }
}

void check_burst(struct burst *b) {
  uint8_t answers[NWK_MAX_BURST][NWK_OPENED_RECORD];
  check_way(open_each, b, "nwk_open");
  note_refusal(b);
  memcpy(answers, b->answers, sizeof answers);
  check_way(open_burst, b, "nwk_open_burst");
  if (memcmp(b->answers, answers, sizeof answers) != 0) {
    fail("the opened records differ from nwk_open's", "nwk_open_burst");
  }
}
