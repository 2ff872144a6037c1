/* Calls the seventeen functions of nwk.h that take and give bytes with generated inputs, from a fixed seed, and prints one line for
 * each call:
 *
 *   name [level] [key_first key_second] inputs = answer outputs
 *
 * in hexadecimal, an empty byte string as "-", a list as the bytes of its entries. The outputs were filled with A5 and are
 * printed whole. host/tests/agree.rs repeats each line from Rust. agree_senders.c and agree_journal.c have the other functions.
 *
 *   cc -std=c11 -Wall -Wextra -Iinclude tests/agree.c target/staticlib/libnwk.a -o agree && ./agree */
#include "nwk.h"

#include <inttypes.h>
#include <stdio.h>
#include <string.h>

#define ROUNDS 300
#define SEED UINT64_C(0xA62EE)
#define FILL 0xA5
#define ROOMY 600
/* An answers' list can have 46 records: 17 and 29 more. */
#define PLACES (46 * NWK_OPENED_RECORD)
#define LENGTHS (NWK_MAX_BURST + 2)

#include "generator.h"

enum operation {
  READ_HEADER,
  WRITE_HEADER,
  READ_AUXILIARY,
  WRITE_AUXILIARY,
  READ_FRAME,
  WRITE_FRAME,
  SEAL,
  OPEN,
  OPEN_BURST,
  PAYLOAD_KIND,
  READ_COMMAND,
  WRITE_COMMAND,
  TIMEOUT_SECONDS,
  ENCRYPT_CCM,
  DECRYPT_CCM,
  SPLIT_MIC,
  ENCRYPT_BLOCK,
  OPERATIONS
};

struct shape {
  const char *name;
  int levelled, keyed;
  size_t inputs;
  size_t outputs;
};

static const struct shape shapes[OPERATIONS] = {
    {"nwk_read_header", 0, 0, 1, 1},     {"nwk_write_header", 0, 0, 1, 1}, {"nwk_read_auxiliary", 0, 0, 1, 1},
    {"nwk_write_auxiliary", 0, 0, 1, 1}, {"nwk_read_frame", 0, 0, 1, 2},   {"nwk_write_frame", 0, 0, 2, 1},
    {"nwk_seal", 1, 1, 3, 1},            {"nwk_open", 1, 1, 1, 2},         {"nwk_open_burst", 1, 1, 2, 2},
    {"nwk_payload_kind", 0, 0, 1, 0},    {"nwk_read_command", 0, 0, 1, 1}, {"nwk_write_command", 0, 0, 1, 1},
    {"nwk_timeout_seconds", 0, 0, 1, 0}, {"nwk_encrypt_ccm", 1, 1, 3, 2},  {"nwk_decrypt_ccm", 1, 1, 4, 1},
    {"nwk_split_mic", 1, 0, 1, 2},       {"nwk_encrypt_block", 0, 1, 1, 1},
};

struct buffer {
  uint8_t bytes[PLACES];
  size_t n;
};

struct call {
  enum operation operation;
  uint64_t level, key_first, key_second;
  struct buffer in[4];
  struct buffer out[2];
};

static void fill_random(uint8_t *bytes, size_t n) {
  for (size_t i = 0; i < n; i++) {
    bytes[i] = (uint8_t)number();
  }
}

static void random_bytes(struct buffer *b, size_t n) {
  b->n = n;
  fill_random(b->bytes, n);
}

/* ---- a call */

/* The lengths are two bytes each in their buffer, and the answers as many as their buffer has room for. */
static uint64_t open_burst(struct call *c) {
  const size_t count = c->in[1].n / 2;
  uint16_t lengths[LENGTHS];
  for (size_t i = 0; i < count; i++) {
    lengths[i] = nwk_get16(c->in[1].bytes + 2 * i);
  }
  return nwk_open_burst(c->level, c->key_first, c->key_second, c->in[0].bytes, c->in[0].n, lengths, count,
                        (uint8_t(*)[NWK_OPENED_RECORD])c->out[0].bytes, c->out[0].n / NWK_OPENED_RECORD, c->out[1].bytes,
                        c->out[1].n);
}

/* The length of the ciphertext goes through a number of its own to its buffer of eight bytes. */
static uint64_t split_mic(struct call *c) {
  uint64_t front = nwk_get64(c->out[1].bytes);
  const uint64_t answer = nwk_split_mic(c->level, c->in[0].bytes, c->in[0].n, c->out[0].bytes, &front);
  for (int i = 0; i < 8; i++) {
    c->out[1].bytes[i] = (uint8_t)(front >> 8 * i);
  }
  return answer;
}

static uint64_t perform(struct call *c) {
  const uint64_t level = c->level, k1 = c->key_first, k2 = c->key_second;
  struct buffer *in = c->in, *out = c->out;
#define IN(i) in[i].bytes, in[i].n
#define OUT(i) out[i].bytes, out[i].n
  switch (c->operation) {
  case READ_HEADER:
    return nwk_read_header(IN(0), OUT(0));
  case WRITE_HEADER:
    return nwk_write_header(IN(0), OUT(0));
  case READ_AUXILIARY:
    return nwk_read_auxiliary(IN(0), OUT(0));
  case WRITE_AUXILIARY:
    return nwk_write_auxiliary(IN(0), OUT(0));
  case READ_FRAME:
    return nwk_read_frame(IN(0), OUT(0), OUT(1));
  case WRITE_FRAME:
    return nwk_write_frame(IN(0), IN(1), OUT(0));
  case SEAL:
    return nwk_seal(level, k1, k2, IN(0), IN(1), IN(2), OUT(0));
  case OPEN:
    return nwk_open(level, k1, k2, IN(0), OUT(0), OUT(1));
  case OPEN_BURST:
    return open_burst(c);
  case PAYLOAD_KIND:
    return nwk_payload_kind(in[0].bytes[0]);
  case READ_COMMAND:
    return nwk_read_command(IN(0), OUT(0));
  case WRITE_COMMAND:
    return nwk_write_command(IN(0), OUT(0));
  case TIMEOUT_SECONDS:
    return nwk_timeout_seconds(in[0].bytes[0]);
  case ENCRYPT_CCM:
    return nwk_encrypt_ccm(level, k1, k2, in[0].bytes, IN(1), IN(2), OUT(0), out[1].bytes);
  case DECRYPT_CCM:
    return nwk_decrypt_ccm(level, k1, k2, in[0].bytes, IN(1), IN(2), in[3].bytes, OUT(0));
  case SPLIT_MIC:
    return split_mic(c);
  case ENCRYPT_BLOCK:
    return nwk_encrypt_block(k1, k2, in[0].bytes, out[0].bytes);
  case OPERATIONS:
    break;
  }
#undef IN
#undef OUT
  return 0;
}

static void print_bytes(const struct buffer *b) {
  putchar(' ');
  if (b->n == 0) {
    putchar('-');
  }
  for (size_t i = 0; i < b->n; i++) {
    printf("%02X", b->bytes[i]);
  }
}

static void print_call(const struct call *c, uint64_t answer) {
  const struct shape *s = &shapes[c->operation];
  printf("%s", s->name);
  if (s->levelled) {
    printf(" %016" PRIX64, c->level);
  }
  if (s->keyed) {
    printf(" %016" PRIX64 " %016" PRIX64, c->key_first, c->key_second);
  }
  for (size_t i = 0; i < s->inputs; i++) {
    print_bytes(&c->in[i]);
  }
  printf(" = %016" PRIX64, answer);
  for (size_t i = 0; i < s->outputs; i++) {
    print_bytes(&c->out[i]);
  }
  putchar('\n');
}

/* Lends an output of some room, filled. */
static void lend(struct call *c, size_t output, size_t room) {
  c->out[output].n = room;
  memset(c->out[output].bytes, FILL, sizeof c->out[output].bytes);
}

static uint64_t perform_roomy(struct call *c) {
  for (size_t i = 0; i < 2; i++) {
    lend(c, i, ROOMY);
  }
  return perform(c);
}

/* What a slice needs: a record's size, the number of frames, or the length answered; anything where the call is refused. */
static size_t needed(const struct call *c, size_t output, uint64_t roomy_answer) {
  const size_t length = NWK_REFUSAL(roomy_answer) == 0 ? NWK_LENGTH(roomy_answer) : NWK_MAX_FRAME;
  switch (c->operation) {
  case READ_HEADER:
    return NWK_HEADER_RECORD;
  case READ_AUXILIARY:
    return NWK_AUXILIARY_RECORD;
  case READ_FRAME:
    return output == 0 ? NWK_HEADER_RECORD : NWK_AUXILIARY_RECORD;
  case OPEN:
    return output == 0 ? NWK_OPENED_RECORD : length;
  case OPEN_BURST:
    return c->in[1].n / 2 * (output == 0 ? 1 : NWK_MAX_PAYLOAD);
  case READ_COMMAND:
    return NWK_COMMAND_RECORD;
  default:
    return length;
  }
}

/* The size of an output that is an array and not a slice; 0 for a slice. */
static size_t array(const struct call *c, size_t output) {
  switch (c->operation) {
  case ENCRYPT_CCM:
    return output == 1 ? NWK_MIC_PLACES : 0;
  case SPLIT_MIC:
    return output == 0 ? NWK_MIC_PLACES : 8;
  case ENCRYPT_BLOCK:
    return 16;
  default:
    return 0;
  }
}

/* Exactly enough, a little less or more, or plenty. */
static size_t room(size_t exact) {
  if (percent(30)) {
    return exact;
  }
  if (percent(30)) {
    const size_t around = exact + below(7);
    return around < 3 ? 0 : around - 3;
  }
  return exact + below(30);
}

/* The bytes of what a room is counted in: the records of a list, else bytes. */
static size_t unit(const struct call *c, size_t output) {
  return c->operation == OPEN_BURST && output == 0 ? NWK_OPENED_RECORD : 1;
}

static void call_and_print(struct call *c) {
  const uint64_t roomy_answer = perform_roomy(c);
  for (size_t i = 0; i < shapes[c->operation].outputs; i++) {
    const size_t size = array(c, i);
    lend(c, i, size != 0 ? size : unit(c, i) * room(needed(c, i, roomy_answer)));
  }
  print_call(c, perform(c));
}

/* ---- inputs */

/* A header record whose bits mostly agree with its fields: each of the four presence bits is turned in some. */
static void header_record(struct buffer *b) {
  uint8_t *r = b->bytes;
  random_bytes(b, NWK_HEADER_RECORD);
  r[0] = (uint8_t[]){0, 1, 3}[below(3)];
  r[1] %= 16;
  r[2] %= 3;
  for (size_t i = 3; i < 9; i++) {
    r[i] %= 2;
  }
  r[4] = percent(92) ? 1 : 0;
  r[9] %= 4;
  r[16] = percent(4) ? r[6] ^ 1 : r[6];
  r[25] = percent(4) ? r[7] ^ 1 : r[7];
  r[34] = percent(4) ? r[3] ^ 1 : r[3];
  r[36] = percent(4) ? r[5] ^ 1 : r[5];
  r[37] = (uint8_t)below(percent(80) ? 6 : 60);
}

static void auxiliary_record(struct buffer *b) {
  uint8_t *r = b->bytes;
  random_bytes(b, NWK_AUXILIARY_RECORD);
  r[0] = percent(5) ? 0 : 1;
  r[1] %= 8;
  r[2] %= 4;
  r[3] %= 2;
  r[4] %= 2;
  if (percent(8)) {
    memset(r + NWK_AUXILIARY_COUNTER, 0xFF, 4);
  }
  r[9] = percent(6) ? r[3] ^ 1 : r[3];
}

/* The greatest value of the bytes from 1 on, by identifier; 255 behind them. */
static const uint8_t limits[16][10] = {
    {255, 255, 255, 255, 255, 255, 255, 255, 255, 255},
    {3, 255, 255, 255, 255, 1, 255, 255, 255, 255},
    {255, 255, 255, 255, 255, 255, 1, 255, 255, 255},
    {20, 255, 255, 255, 255, 255, 255, 255, 255, 255},
    {1, 1, 1, 255, 255, 255, 255, 255, 255, 255},
    {255, 255, 255, 255, 255, 255, 255, 255, 255, 255},
    {1, 1, 1, 1, 1, 1, 1, 1, 255, 255},
    {255, 255, 3, 255, 255, 255, 255, 255, 255, 255},
    {1, 1, 255, 255, 255, 255, 255, 255, 255, 255},
    {0, 255, 255, 255, 255, 255, 255, 255, 255, 255},
    {31, 0, 255, 255, 255, 255, 255, 255, 255, 255},
    {14, 255, 255, 255, 255, 255, 255, 255, 255, 255},
    {2, 1, 1, 1, 255, 255, 255, 255, 255, 255},
    {2, 255, 255, 255, 255, 255, 255, 255, 255, 255},
    {1, 1, 1, 1, 1, 1, 1, 1, 1, 255},
    {255, 255, 3, 255, 255, 255, 255, 255, 255, 255},
};

static void command_record(struct buffer *b) {
  uint8_t *r = b->bytes;
  random_bytes(b, NWK_COMMAND_RECORD);
  r[0] = (uint8_t)below(16);
  for (size_t i = 0; i < 10; i++) {
    r[1 + i] = (uint8_t)(r[1 + i] % (limits[r[0]][i] + 1u));
  }
  r[16] %= 2;
  r[25] = (uint8_t)below(54);
  r[132] = (uint8_t)below(32);
  r[257] = (uint8_t)below(32);
  r[320] = (uint8_t)below(36);
  r[426] = (uint8_t)below(112);
  for (size_t i = 0; i < 31; i++) {
    r[133 + 4 * i + 2] %= 8;
    r[133 + 4 * i + 3] %= 8;
  }
}

/* One byte of a record's front changed, or the record of another length. */
static void damage_record(struct buffer *b, size_t front) {
  if (percent(15)) {
    b->bytes[below(front)] = (uint8_t)(percent(50) ? number() : below(20));
  }
  if (percent(4)) {
    b->n = b->n - 1 + 2 * below(2);
  }
}

/* A bit flipped, another first byte, bytes cut, or any number of bytes behind. */
static void damage_bytes(struct buffer *b) {
  if (percent(8)) {
    b->bytes[0] = (uint8_t)number();
  }
  if (percent(15) && b->n != 0) {
    b->bytes[below(b->n)] ^= (uint8_t)(1u << below(8));
  }
  if (percent(15)) {
    b->n = below(b->n + 1);
  }
  if (percent(10)) {
    const size_t more = below(130);
    fill_random(b->bytes + b->n, more);
    b->n += more;
  }
}

/* The result of a call with roomy outputs, empty where it is refused. */
static void result(struct call *c, struct buffer *to) {
  const uint64_t answer = perform_roomy(c);
  memcpy(to->bytes, c->out[0].bytes, sizeof to->bytes);
  to->n = NWK_REFUSAL(answer) == 0 ? NWK_LENGTH(answer) : 0;
}

/* The bytes of a level's MIC; none where it is no level. */
static size_t mic_length(uint64_t level) {
  return level < NWK_LEVEL_ENC_MIC_32 || level > NWK_LEVEL_ENC_MIC_128 ? 0 : (size_t)4 << (level - NWK_LEVEL_ENC_MIC_32);
}

/* A frame sealed under the call's key, at its level, or at 5 where that is none; or one without an auxiliary header, which is clear
 * where its security bit is off. */
static void frame(const struct call *c, struct buffer *to) {
  static struct call writing;
  writing.level = mic_length(c->level) != 0 ? c->level : NWK_LEVEL_ENC_MIC_32;
  writing.key_first = c->key_first;
  writing.key_second = c->key_second;
  writing.operation = percent(70) ? SEAL : WRITE_FRAME;
  do {
    header_record(&writing.in[0]);
    if (writing.operation == SEAL) {
      auxiliary_record(&writing.in[1]);
    } else {
      writing.in[0].bytes[4] = percent(50) ? 1 : 0;
    }
    random_bytes(&writing.in[writing.operation == SEAL ? 2 : 1], below(percent(90) ? 50 : 112));
    result(&writing, to);
  } while (to->n == 0);
}

/* Frames end to end with their lengths, good ones and others; sometimes a length is one more or less. */
static void burst(struct call *c) {
  static struct buffer one;
  struct buffer *frames = &c->in[0], *lengths = &c->in[1];
  const size_t count = below(LENGTHS);
  frames->n = 0;
  lengths->n = 2 * count;
  for (size_t i = 0; i < count; i++) {
    frame(c, &one);
    damage_bytes(&one);
    if (percent(8)) {
      one.n = 0;
    }
    memcpy(frames->bytes + frames->n, one.bytes, one.n);
    nwk_put16(lengths->bytes + 2 * i, (uint16_t)one.n);
    frames->n += one.n;
  }
  if (percent(10) && count != 0) {
    uint8_t *length = lengths->bytes + 2 * below(count);
    nwk_put16(length, (uint16_t)(nwk_get16(length) + (percent(50) ? 1 : 0xFFFF)));
  }
}

static void written(enum operation operation, void (*record)(struct buffer *), struct buffer *to) {
  static struct call writing;
  writing.operation = operation;
  record(&writing.in[0]);
  result(&writing, to);
}

static void ccm_inputs(struct call *c) {
  random_bytes(&c->in[0], 13);
  random_bytes(&c->in[1], below(percent(90) ? 60 : 131));
  random_bytes(&c->in[2], below(percent(90) ? 60 : 131));
}

/* Replaces the payload by its ciphertext, and gives the MIC, mostly undamaged, with any bytes in the places past its length. */
static void seal_ccm(struct call *c) {
  static struct call sealing;
  sealing = *c;
  sealing.operation = ENCRYPT_CCM;
  random_bytes(&c->in[3], NWK_MIC_PLACES);
  if (NWK_REFUSAL(perform_roomy(&sealing)) == 0) {
    memcpy(c->in[2].bytes, sealing.out[0].bytes, c->in[2].n);
    memcpy(c->in[3].bytes, sealing.out[1].bytes, mic_length(c->level));
  }
  if (percent(20)) {
    c->in[below(4)].bytes[0] ^= 1;
  }
}

/* A code, mostly below the bound. */
static void code(struct buffer *b, unsigned bound) {
  random_bytes(b, 1);
  b->bytes[0] = (uint8_t)(b->bytes[0] % (percent(70) ? bound : 256));
}

/* A level of a network, and sometimes a number that is none. */
static uint64_t network_level(void) {
  static const uint64_t others[] = {0, 4, 8, 261, UINT64_C(0x100000005), UINT64_MAX};
  return percent(90) ? NWK_LEVEL_ENC_MIC_32 + below(3) : others[below(sizeof others / sizeof others[0])];
}

static void generate(struct call *c) {
  switch (c->operation) {
  case READ_HEADER:
    written(WRITE_HEADER, header_record, &c->in[0]);
    damage_bytes(&c->in[0]);
    return;
  case READ_AUXILIARY:
    written(WRITE_AUXILIARY, auxiliary_record, &c->in[0]);
    damage_bytes(&c->in[0]);
    return;
  case READ_COMMAND:
    written(WRITE_COMMAND, command_record, &c->in[0]);
    damage_bytes(&c->in[0]);
    return;
  case READ_FRAME:
  case OPEN:
    frame(c, &c->in[0]);
    damage_bytes(&c->in[0]);
    return;
  case OPEN_BURST:
    burst(c);
    return;
  case SEAL:
    auxiliary_record(&c->in[1]);
    damage_record(&c->in[1], 10);
    random_bytes(&c->in[2], below(percent(80) ? 60 : 131));
    header_record(&c->in[0]);
    damage_record(&c->in[0], 38);
    return;
  case WRITE_FRAME:
    random_bytes(&c->in[1], below(percent(80) ? 60 : 131));
    header_record(&c->in[0]);
    damage_record(&c->in[0], 38);
    return;
  case WRITE_HEADER:
    header_record(&c->in[0]);
    damage_record(&c->in[0], 38);
    return;
  case WRITE_AUXILIARY:
    auxiliary_record(&c->in[0]);
    damage_record(&c->in[0], 10);
    return;
  case WRITE_COMMAND:
    command_record(&c->in[0]);
    damage_record(&c->in[0], 12);
    return;
  case PAYLOAD_KIND:
    code(&c->in[0], 5);
    return;
  case TIMEOUT_SECONDS:
    code(&c->in[0], 17);
    return;
  case ENCRYPT_CCM:
    ccm_inputs(c);
    return;
  case DECRYPT_CCM:
    ccm_inputs(c);
    seal_ccm(c);
    return;
  case SPLIT_MIC:
    random_bytes(&c->in[0], below(percent(30) ? 20 : 131));
    return;
  case ENCRYPT_BLOCK:
    random_bytes(&c->in[0], 16);
    return;
  case OPERATIONS:
    return;
  }
}

int main(void) {
  static struct call c;
  for (int round = 0; round < ROUNDS; round++) {
    for (int operation = 0; operation < OPERATIONS; operation++) {
      c.operation = (enum operation)operation;
      c.level = network_level();
      c.key_first = number();
      c.key_second = number();
      generate(&c);
      call_and_print(&c);
    }
  }
  return 0;
}
