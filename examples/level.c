/* Seals a reading at each security level that a network can have, and opens each frame at each of them: at its own it opens, at
 * another it is refused by 19, or by 16 where it is shorter than that level's MIC.
 *
 *   make archive
 *   cc -Wall -Wextra -Iinclude examples/level.c target/staticlib/libnwk.a -o level && ./level
 *
 * Ends with status 0 if every frame opened at its own level and at no other. */
#include "nwk.h"

#include <stdio.h>

static const uint8_t key_bytes[16] = {
    0xC0, 0xC1, 0xC2, 0xC3, 0xC4, 0xC5, 0xC6, 0xC7, 0xC8, 0xC9, 0xCA, 0xCB, 0xCC, 0xCD, 0xCE, 0xCF,
};

static const uint64_t levels[] = {NWK_LEVEL_ENC_MIC_32, NWK_LEVEL_ENC_MIC_64, NWK_LEVEL_ENC_MIC_128};

/* Seals a reading of 6 bytes at a level under a frame counter. */
static uint64_t seal(uint64_t level, struct nwk_key key, uint32_t counter, uint8_t *frame, size_t room) {
  uint8_t header[NWK_HEADER_RECORD] = {0}, auxiliary[NWK_AUXILIARY_RECORD] = {0};
  header[NWK_HEADER_VERSION] = 2;
  nwk_put16(header + NWK_HEADER_SOURCE, 0x1234);
  header[NWK_HEADER_RADIUS] = 30;
  header[NWK_HEADER_SECURITY_BIT] = 1;
  auxiliary[NWK_AUXILIARY_PRESENT] = 1;
  auxiliary[NWK_AUXILIARY_KEY_ID] = 1;
  nwk_put32(auxiliary + NWK_AUXILIARY_COUNTER, counter);
  auxiliary[NWK_AUXILIARY_HAS_IEEE] = 1;
  auxiliary[NWK_AUXILIARY_EXTENDED_NONCE_BIT] = 1;
  return nwk_seal(level, key.first, key.second, header, sizeof header, auxiliary, sizeof auxiliary, (const uint8_t *)"21.5 C", 6,
                  frame, room);
}

/* Opens a frame at each level, and says how often one did that should not, or the other way round. */
static int open_at_each(uint64_t own, struct nwk_key key, const uint8_t *frame, size_t n) {
  int wrong = 0;
  for (size_t i = 0; i < sizeof levels / sizeof levels[0]; i++) {
    uint8_t record[NWK_OPENED_RECORD], out[NWK_MAX_PAYLOAD];
    const uint64_t answer = nwk_open(levels[i], key.first, key.second, frame, n, record, sizeof record, out, sizeof out);
    if (NWK_REFUSAL(answer) == NWK_ACCEPTED) {
      printf(", opens at %d", (int)levels[i]);
    } else {
      printf(", at %d refused by %u", (int)levels[i], NWK_REFUSAL(answer));
    }
    wrong += (NWK_REFUSAL(answer) == NWK_ACCEPTED) != (levels[i] == own);
  }
  printf("\n");
  return wrong;
}

int main(void) {
  const struct nwk_key key = nwk_key_of(key_bytes);
  uint8_t frame[NWK_MAX_FRAME];
  int wrong = 0;
  uint32_t counter = 0;
  for (size_t i = 0; i < sizeof levels / sizeof levels[0]; i++) {
    const size_t n = NWK_LENGTH(seal(levels[i], key, ++counter, frame, sizeof frame));
    printf("level %d: %zu bytes", (int)levels[i], n);
    wrong += open_at_each(levels[i], key, frame, n);
  }
  const uint64_t none = seal(4, key, ++counter, frame, sizeof frame);
  printf("level 4: refused by %u: %s\n", NWK_REFUSAL(none), nwk_refusal_text(NWK_REFUSAL(none)));
  return wrong != 0 || NWK_REFUSAL(none) != NWK_REFUSED_LEVEL;
}
