/* Seals a frame, opens it again, and shows that a damaged one, one to be sealed with the last counter, and one whose header has an
 * address without its bit are refused with nothing changed.
 *
 *   make archive
 *   cc -Wall -Wextra -Iinclude examples/seal_open.c target/staticlib/libnwk.a -o seal_open && ./seal_open
 *
 * Ends with status 0 if every answer was the expected one. The expected frame was computed with another implementation of
 * AES-CCM (the Python package cryptography, AESCCM with tag_length=4). */
#include "nwk.h"

#include <stdio.h>
#include <string.h>

#define FILLER 0xA5

/* The network's level: a MIC of 4 bytes. level.c has the others. */
#define LEVEL NWK_LEVEL_ENC_MIC_32

static const uint8_t key_bytes[16] = {
    0xC0, 0xC1, 0xC2, 0xC3, 0xC4, 0xC5, 0xC6, 0xC7, 0xC8, 0xC9, 0xCA, 0xCB, 0xCC, 0xCD, 0xCE, 0xCF,
};

static const uint8_t expected[] = {
    0x48, 0x02, 0x00, 0x00, 0x34, 0x12, 0x1E, 0x07, 0x28, 0x45, 0x23, 0x01, 0x00, 0x01, 0x02, 0x03, 0x04, 0x05, 0x06,
    0x07, 0x08, 0x00, 0x34, 0xC7, 0x63, 0x92, 0xC2, 0x74, 0x6D, 0x94, 0x1C, 0x17, 0x9C, 0xD0, 0x17, 0x98, 0xE0, 0x3A,
};

static void show(const char *name, const uint8_t *bytes, size_t n) {
  printf("%s, %zu bytes:", name, n);
  for (size_t i = 0; i < n; i++) {
    printf(" %02X", bytes[i]);
  }
  printf("\n");
}

/* Whether every byte is still the filler. */
static int untouched(const uint8_t *bytes, size_t n) {
  for (size_t i = 0; i < n; i++) {
    if (bytes[i] != FILLER) {
      return 0;
    }
  }
  return 1;
}

int main(void) {
  /* A data frame of version 2 from 0x1234 to 0x0000, radius 30, sequence number 7, discovery on. */
  uint8_t header[NWK_HEADER_RECORD] = {0};
  header[NWK_HEADER_VERSION] = 2;
  header[NWK_HEADER_DISCOVERY] = 1;
  nwk_put16(header + NWK_HEADER_SOURCE, 0x1234);
  header[NWK_HEADER_RADIUS] = 30;
  header[NWK_HEADER_SEQUENCE] = 7;
  /* The network key, frame counter 0x00012345, IEEE 01 02 .. 08 in wire order. */
  uint8_t auxiliary[NWK_AUXILIARY_RECORD] = {0};
  auxiliary[NWK_AUXILIARY_PRESENT] = 1;
  auxiliary[NWK_AUXILIARY_KEY_ID] = 1;
  nwk_put32(auxiliary + NWK_AUXILIARY_COUNTER, 0x00012345);
  auxiliary[NWK_AUXILIARY_HAS_IEEE] = 1;
  for (uint8_t i = 0; i < 8; i++) {
    auxiliary[NWK_AUXILIARY_IEEE + i] = i + 1;
  }
  /* The bits: each presence bit as its field is, and that the frame is sealed. */
  nwk_set_presence_bits(header);
  header[NWK_HEADER_SECURITY_BIT] = 1;
  auxiliary[NWK_AUXILIARY_EXTENDED_NONCE_BIT] = auxiliary[NWK_AUXILIARY_HAS_IEEE];
  const uint8_t payload[] = {'s', 't', 'o', 'r', 'e', ' ', 'r', 'e', 'a', 'd', 'e', 'r'};
  const struct nwk_key key = nwk_key_of(key_bytes);

  uint8_t frame[NWK_MAX_FRAME];
  uint64_t sealed = nwk_seal(LEVEL, key.first, key.second, header, sizeof header, auxiliary, sizeof auxiliary, payload,
                             sizeof payload, frame, sizeof frame);
  if (NWK_REFUSAL(sealed) != NWK_ACCEPTED) {
    printf("sealing refused: %s\n", nwk_refusal_text(NWK_REFUSAL(sealed)));
    return 1;
  }
  size_t n = NWK_LENGTH(sealed);
  show("sealed", frame, n);
  if (n != sizeof expected || memcmp(frame, expected, n) != 0) {
    printf("not the expected frame\n");
    return 1;
  }

  uint8_t record[NWK_OPENED_RECORD];
  uint8_t plain[NWK_MAX_PAYLOAD];
  uint64_t opened = nwk_open(LEVEL, key.first, key.second, frame, n, record, sizeof record, plain, sizeof plain);
  if (NWK_REFUSAL(opened) != NWK_ACCEPTED) {
    printf("opening refused: %s\n", nwk_refusal_text(NWK_REFUSAL(opened)));
    return 1;
  }
  /* A clear frame is accepted too, with nothing in the output, and is not authenticated. */
  if (NWK_CLEAR(opened)) {
    printf("not a sealed frame\n");
    return 1;
  }
  size_t m = NWK_LENGTH(opened);
  const uint8_t *header_read = record + NWK_OPENED_HEADER;
  const uint8_t *auxiliary_read = record + NWK_OPENED_AUXILIARY;
  printf("opened, %zu bytes: %.*s\n", m, (int)m, (const char *)plain);
  printf("source 0x%04X, radius %u, sequence %u, counter %lu\n", nwk_get16(header_read + NWK_HEADER_SOURCE),
         header_read[NWK_HEADER_RADIUS], header_read[NWK_HEADER_SEQUENCE],
         (unsigned long)nwk_get32(auxiliary_read + NWK_AUXILIARY_COUNTER));
  if (m != sizeof payload || m != nwk_get16(record + NWK_OPENED_LENGTH) || memcmp(plain, payload, m) != 0 ||
      memcmp(header_read, header, sizeof header) != 0 || memcmp(auxiliary_read, auxiliary, sizeof auxiliary) != 0) {
    printf("not what was sealed\n");
    return 1;
  }

  /* One bit of the ciphertext changed: refused by 19, and every lent byte is as it was. */
  frame[n - 5] ^= 1;
  memset(plain, FILLER, sizeof plain);
  memset(record, FILLER, sizeof record);
  uint64_t damaged = nwk_open(LEVEL, key.first, key.second, frame, n, record, sizeof record, plain, sizeof plain);
  printf("damaged: refusal %u, length %u\n", NWK_REFUSAL(damaged), NWK_LENGTH(damaged));
  if (NWK_REFUSAL(damaged) != NWK_REFUSED_WRONG_MIC || NWK_LENGTH(damaged) != 0 || !untouched(plain, sizeof plain) ||
      !untouched(record, sizeof record)) {
    return 1;
  }

  /* The last counter, whose frames receivers throw away: sealing refuses it by 21, and nothing is written. */
  nwk_put32(auxiliary + NWK_AUXILIARY_COUNTER, 0xFFFFFFFF);
  memset(frame, FILLER, sizeof frame);
  uint64_t last = nwk_seal(LEVEL, key.first, key.second, header, sizeof header, auxiliary, sizeof auxiliary, payload,
                           sizeof payload, frame, sizeof frame);
  printf("last counter: refusal %u, length %u\n", NWK_REFUSAL(last), NWK_LENGTH(last));
  if (NWK_REFUSAL(last) != NWK_REFUSED_LAST_COUNTER || NWK_LENGTH(last) != 0 || !untouched(frame, sizeof frame)) {
    return 1;
  }

  /* A long source address without its bit, which a receiver would take for payload: refused by 28. */
  header[NWK_HEADER_HAS_SOURCE_IEEE] = 1;
  uint64_t disagreeing = nwk_write_frame(header, sizeof header, payload, sizeof payload, frame, sizeof frame);
  printf("address without its bit: refusal %u, length %u\n", NWK_REFUSAL(disagreeing), NWK_LENGTH(disagreeing));
  if (NWK_REFUSAL(disagreeing) != NWK_REFUSED_PRESENCE_BITS || NWK_LENGTH(disagreeing) != 0 ||
      !untouched(frame, sizeof frame)) {
    return 1;
  }
  return 0;
}
