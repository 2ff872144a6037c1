/* Opens a burst: frames that the radio handed over at once, one of them damaged, one empty and one clear.
 *
 *   make archive
 *   cc -Wall -Wextra -Iinclude examples/burst.c target/staticlib/libnwk.a -o burst && ./burst
 *
 * Ends with status 0 if the burst was opened. */
#include "nwk.h"

#include <stdio.h>
#include <string.h>

static const uint8_t key_bytes[16] = {
    0xC0, 0xC1, 0xC2, 0xC3, 0xC4, 0xC5, 0xC6, 0xC7, 0xC8, 0xC9, 0xCA, 0xCB, 0xCC, 0xCD, 0xCE, 0xCF,
};

/* Fills in a header from 0x1234, with its presence bits. */
static void fill_header(uint8_t *header) {
  memset(header, 0, NWK_HEADER_RECORD);
  header[NWK_HEADER_VERSION] = 2;
  nwk_put16(header + NWK_HEADER_SOURCE, 0x1234);
  header[NWK_HEADER_RADIUS] = 30;
  nwk_set_presence_bits(header);
}

/* Seals a reading of 6 bytes under a frame counter, and gives the frame's length, 0 where that is refused. */
static uint16_t seal(struct nwk_key key, uint32_t counter, const char *reading, uint8_t *frame, size_t room) {
  uint8_t header[NWK_HEADER_RECORD];
  fill_header(header);
  header[NWK_HEADER_SECURITY_BIT] = 1;
  uint8_t auxiliary[NWK_AUXILIARY_RECORD] = {0};
  auxiliary[NWK_AUXILIARY_PRESENT] = 1;
  auxiliary[NWK_AUXILIARY_KEY_ID] = 1;
  nwk_put32(auxiliary + NWK_AUXILIARY_COUNTER, counter);
  auxiliary[NWK_AUXILIARY_HAS_IEEE] = 1;
  auxiliary[NWK_AUXILIARY_EXTENDED_NONCE_BIT] = auxiliary[NWK_AUXILIARY_HAS_IEEE];
  return (uint16_t)NWK_LENGTH(nwk_seal(NWK_LEVEL_ENC_MIC_32, key.first, key.second, header, sizeof header, auxiliary,
                                       sizeof auxiliary, (const uint8_t *)reading, 6, frame, room));
}

/* Writes a clear reading of 6 bytes, and gives the frame's length, 0 where that is refused. */
static uint16_t leave_clear(const char *reading, uint8_t *frame, size_t room) {
  uint8_t header[NWK_HEADER_RECORD];
  fill_header(header);
  return (uint16_t)NWK_LENGTH(nwk_write_frame(header, sizeof header, (const uint8_t *)reading, 6, frame, room));
}

/* One line for a frame: its record, its part of the output, and where its own bytes end. The mark says which of the two has the
 * payload, and whether it is authenticated. */
static void show(size_t k, const uint8_t *record, const uint8_t *part, const uint8_t *frame_end) {
  const unsigned length = nwk_get16(record + NWK_OPENED_LENGTH);
  const unsigned source = nwk_get16(record + NWK_OPENED_HEADER + NWK_HEADER_SOURCE);
  switch (record[NWK_OPENED_MARK]) {
  case NWK_MARK_SEALED:
    printf("frame %zu: %u bytes from 0x%04X, counter %lu: %.*s\n", k, length, source,
           (unsigned long)nwk_get32(record + NWK_OPENED_AUXILIARY + NWK_AUXILIARY_COUNTER), (int)length, (const char *)part);
    break;
  case NWK_MARK_CLEAR:
    printf("frame %zu: %u bytes, clear, said to be from 0x%04X: %.*s\n", k, length, source, (int)length,
           (const char *)(frame_end - length));
    break;
  default:
    printf("frame %zu: refused by %u: %s\n", k, record[NWK_OPENED_REFUSAL], nwk_refusal_text(record[NWK_OPENED_REFUSAL]));
  }
}

int main(void) {
  const struct nwk_key key = nwk_key_of(key_bytes);
  const char *const readings[] = {"21.5 C", "21.7 C", "", "21.9 C"};
  uint8_t frames[5 * NWK_MAX_FRAME];
  uint16_t lengths[5] = {0};
  size_t end = 0;
  uint32_t counter = 0;
  for (size_t k = 0; k < 4; k++) {
    if (readings[k][0] != '\0') {
      lengths[k] = seal(key, ++counter, readings[k], frames + end, sizeof frames - end);
    }
    end += lengths[k];
  }
  lengths[4] = leave_clear("22.0 C", frames + end, sizeof frames - end);
  end += lengths[4];
  /* The last bit of the second frame. */
  frames[lengths[0] + lengths[1] - 1] ^= 1;

  uint8_t answers[NWK_MAX_BURST][NWK_OPENED_RECORD];
  uint8_t out[NWK_MAX_BURST * NWK_MAX_PAYLOAD];
  uint64_t answer = nwk_open_burst(NWK_LEVEL_ENC_MIC_32, key.first, key.second, frames, end, lengths, 5, answers, NWK_MAX_BURST,
                                   out, sizeof out);
  if (NWK_REFUSAL(answer) != NWK_ACCEPTED) {
    printf("refused: %s\n", nwk_refusal_text(NWK_REFUSAL(answer)));
    return 1;
  }
  printf("%u frames in one call\n", NWK_LENGTH(answer));
  const uint8_t *frame_end = frames;
  for (size_t k = 0; k < NWK_LENGTH(answer); k++) {
    frame_end += lengths[k];
    show(k, answers[k], out + k * NWK_MAX_PAYLOAD, frame_end);
  }
  return 0;
}
