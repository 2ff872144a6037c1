/* Opens frames as they arrive, and refuses one that arrives again: a replay.
 *
 *   make archive
 *   cc -Wall -Wextra -Iinclude examples/replay.c target/staticlib/libnwk.a -o replay && ./replay
 *
 * Ends with status 0 if every answer was the expected one. The frames are records 3 and 16 of samples/store.pcap without their MAC
 * headers, made with another implementation of AES-CCM (samples/capture.py). */
#include "nwk.h"

#include <inttypes.h>
#include <stdio.h>

static const uint8_t key_bytes[16] = {
    0xC0, 0xC1, 0xC2, 0xC3, 0xC4, 0xC5, 0xC6, 0xC7, 0xC8, 0xC9, 0xCA, 0xCB, 0xCC, 0xCD, 0xCE, 0xCF,
};

/* The number of the key above. */
#define ACTIVE_KEY_SEQUENCE_NUMBER 0

/* Two data frames of one probe, with the counters 74565 and 74571. */
static const uint8_t first_frame[] = {
    0x08, 0x02, 0x00, 0x00, 0x10, 0x7A, 0x1E, 0x07, 0x28, 0x45, 0x23, 0x01, 0x00, 0xC3, 0xB2, 0xA1, 0x1C, 0x00, 0x4B,
    0x12, 0x00, 0x00, 0x4A, 0x79, 0x5E, 0x1A, 0x8A, 0x46, 0x67, 0xBB, 0xD5, 0xBA, 0x56, 0xCF, 0x42, 0x2A, 0xFA, 0x67,
    0x9E, 0xC3, 0xDF, 0xE1,
};
static const uint8_t second_frame[] = {
    0x08, 0x02, 0x00, 0x00, 0x10, 0x7A, 0x1E, 0x0D, 0x28, 0x4B, 0x23, 0x01, 0x00, 0xC3, 0xB2, 0xA1, 0x1C, 0x00, 0x4B,
    0x12, 0x00, 0x00, 0x89, 0x41, 0x3A, 0x1A, 0xB7, 0xE3, 0x49, 0xF6, 0x95, 0xD6, 0xD8, 0x9B, 0x0A, 0xC7, 0xA3, 0x85,
    0x05, 0x67, 0x31, 0x1A,
};

/* The senders met so far: 64 free places at first. */
static struct nwk_sender senders[NWK_MAX_SENDERS];

/* Opens a frame, asks for its key and notes its counter. The refusal, or NWK_ACCEPTED where its payload may be taken. */
static uint8_t take(const uint8_t *frame, size_t n) {
  const struct nwk_key key = nwk_key_of(key_bytes);
  uint8_t record[NWK_OPENED_RECORD];
  uint8_t out[NWK_MAX_PAYLOAD];
  uint64_t answer = nwk_open(NWK_LEVEL_ENC_MIC_32, key.first, key.second, frame, n, record, sizeof record, out, sizeof out);
  if (NWK_REFUSAL(answer) != NWK_ACCEPTED || NWK_CLEAR(answer)) {
    return NWK_REFUSAL(answer);
  }
  const uint64_t sender = nwk_get64(record + NWK_OPENED_NONCE_IEEE);
  const uint8_t *auxiliary = record + NWK_OPENED_AUXILIARY;
  const uint32_t counter = nwk_get32(auxiliary + NWK_AUXILIARY_COUNTER);
  uint8_t active[16];
  answer = nwk_inbound_network_key(key.first, key.second, ACTIVE_KEY_SEQUENCE_NUMBER, senders, NWK_MAX_SENDERS, sender,
                                   auxiliary[NWK_AUXILIARY_KEY_SEQUENCE], counter, active);
  if (NWK_REFUSAL(answer) == NWK_ACCEPTED) {
    answer = nwk_note_inbound_frame_counter(senders, NWK_MAX_SENDERS, sender, counter);
  }
  printf("%016" PRIX64 ", counter %" PRIu32 ": ", sender, counter);
  if (NWK_REFUSAL(answer) != NWK_ACCEPTED) {
    printf("refused by %u: %s\n", NWK_REFUSAL(answer), nwk_refusal_text(NWK_REFUSAL(answer)));
  } else if (NWK_KNOWN(answer)) {
    printf("taken, after %" PRIu32 "\n", NWK_LENGTH(answer));
  } else {
    printf("taken, of a new sender\n");
  }
  return NWK_REFUSAL(answer);
}

int main(void) {
  if (take(first_frame, sizeof first_frame) != NWK_ACCEPTED) {
    return 1;
  }
  /* The same again: it opens, but its counter is not above the one noted. */
  if (take(first_frame, sizeof first_frame) != NWK_REFUSED_FRAME_COUNTER) {
    return 1;
  }
  if (take(second_frame, sizeof second_frame) != NWK_ACCEPTED) {
    return 1;
  }
  /* A probe that left the store: its place is free for the next sender. */
  nwk_forget_sender(senders, NWK_MAX_SENDERS, senders[0].address);
  return take(second_frame, sizeof second_frame) != NWK_ACCEPTED;
}
