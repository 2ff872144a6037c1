/* Opens a clear frame, whose security bit is off, and a sealed one, and tells them apart by the mark.
 *
 *   make archive
 *   cc -Wall -Wextra -Iinclude examples/clear.c target/staticlib/libnwk.a -o clear && ./clear
 *
 * Ends with status 0 if every answer was the expected one. The frames are records 10, 16 and 8 of samples/store.pcap without
 * their MAC headers; the sealed ones were made with another implementation of AES-CCM (samples/capture.py). */
#include "nwk.h"

#include <stdio.h>

static const uint8_t key_bytes[16] = {
    0xC0, 0xC1, 0xC2, 0xC3, 0xC4, 0xC5, 0xC6, 0xC7, 0xC8, 0xC9, 0xCA, 0xCB, 0xCC, 0xCD, 0xCE, 0xCF,
};

/* A data frame from 0x9C44 without security: a header of 8 bytes and a payload of 16. */
static const uint8_t clear_frame[] = {
    0x08, 0x00, 0x00, 0x00, 0x44, 0x9C, 0x1E, 0x02, 0x00, 0x01, 0x02, 0x04, 0x04, 0x01, 0x01, 0x02, 0x18, 0x02, 0x0A,
    0x00, 0x00, 0x29, 0xC6, 0x07,
};

/* A data frame from 0x7A10: 8 bytes of header, 14 of auxiliary header, 16 of ciphertext and a MIC of 4. */
static const uint8_t sealed_frame[] = {
    0x08, 0x02, 0x00, 0x00, 0x10, 0x7A, 0x1E, 0x0D, 0x28, 0x4B, 0x23, 0x01, 0x00, 0xC3, 0xB2, 0xA1, 0x1C, 0x00, 0x4B,
    0x12, 0x00, 0x00, 0x89, 0x41, 0x3A, 0x1A, 0xB7, 0xE3, 0x49, 0xF6, 0x95, 0xD6, 0xD8, 0x9B, 0x0A, 0xC7, 0xA3, 0x85,
    0x05, 0x67, 0x31, 0x1A,
};

/* Another, damaged on its way. */
static const uint8_t damaged_frame[] = {
    0x08, 0x02, 0x00, 0x00, 0x10, 0x7A, 0x1E, 0x08, 0x28, 0x46, 0x23, 0x01, 0x00, 0xC3, 0xB2, 0xA1, 0x1C, 0x00, 0x4B,
    0x12, 0x00, 0x00, 0xE5, 0x8E, 0xB3, 0xC5, 0xCE, 0xE3, 0xF5, 0xD7, 0x35, 0x3D, 0xBD, 0x6B, 0x6D, 0x9D, 0x76, 0xDE,
    0xD5, 0xEC, 0xA1, 0x8C,
};

/* Opens a frame and says what it found: by the mark first, then by the payload, which nwk_payload finds in the frame or in the
 * output. */
static uint64_t open_and_show(const uint8_t *frame, size_t n, uint8_t *out, size_t room) {
  const struct nwk_key key = nwk_key_of(key_bytes);
  uint8_t record[NWK_OPENED_RECORD];
  const uint64_t answer = nwk_open(NWK_LEVEL_ENC_MIC_32, key.first, key.second, frame, n, record, sizeof record, out, room);
  if (NWK_REFUSAL(answer) != NWK_ACCEPTED) {
    printf("refused by %u: %s\n", NWK_REFUSAL(answer), nwk_refusal_text(NWK_REFUSAL(answer)));
    return answer;
  }
  printf("%s, from 0x%04X, %u bytes:", NWK_CLEAR(answer) ? "clear" : "sealed",
         nwk_get16(record + NWK_OPENED_HEADER + NWK_HEADER_SOURCE), NWK_LENGTH(answer));
  const uint8_t *payload = nwk_payload(answer, frame, n, out);
  for (size_t i = 0; i < NWK_LENGTH(answer); i++) {
    printf(" %02X", payload[i]);
  }
  printf("\n");
  return answer;
}

int main(void) {
  /* A clear frame writes nothing, so that it needs no output. A sealed one does. */
  uint64_t answer = open_and_show(clear_frame, sizeof clear_frame, NULL, 0);
  if (NWK_REFUSAL(answer) != NWK_ACCEPTED || !NWK_CLEAR(answer)) {
    return 1;
  }
  uint8_t out[NWK_MAX_PAYLOAD];
  answer = open_and_show(sealed_frame, sizeof sealed_frame, out, sizeof out);
  if (NWK_REFUSAL(answer) != NWK_ACCEPTED || NWK_CLEAR(answer)) {
    return 1;
  }
  answer = open_and_show(sealed_frame, sizeof sealed_frame, NULL, 0);
  if (NWK_REFUSAL(answer) != NWK_REFUSED_NO_ROOM) {
    return 1;
  }
  answer = open_and_show(damaged_frame, sizeof damaged_frame, out, sizeof out);
  return NWK_REFUSAL(answer) != NWK_REFUSED_WRONG_MIC;
}
