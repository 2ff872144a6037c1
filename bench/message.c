#include "message.h"

#include <stdio.h>
#include <stdlib.h>
#include <string.h>

void fail(const char *what, const char *who) {
  fflush(stdout);
  fprintf(stderr, "bench: %s: %s\n", who, what);
  exit(1);
}

static size_t accepted(uint64_t answer, const char *who) {
  if (NWK_REFUSAL(answer) != 0) {
    fail("refused", who);
  }
  return NWK_LENGTH(answer);
}

static uint64_t number_of(const uint8_t *bytes) {
  uint64_t x = 0;
  for (size_t i = 0; i < 8; i++) {
    x |= (uint64_t)bytes[i] << 8 * i;
  }
  return x;
}

static void make_key(struct message *m) {
  for (size_t i = 0; i < KEY_LENGTH; i++) {
    m->key[i] = (uint8_t)(0xC0 + i);
  }
  m->key_first = number_of(m->key);
  m->key_second = number_of(m->key + 8);
}

/* A data frame of version 2 with the security bit, the network key and an extended nonce. */
static void make_records(struct message *m, uint8_t number) {
  static const uint8_t header[16] = {0, 2, 1, 0, 1, 0, 0, 0, 0, 0, 0x00, 0x00, 0x34, 0x12, 30, 7};
  static const uint8_t auxiliary[NWK_AUXILIARY_RECORD] = {1, 0, 1, 1, 0, 0x45, 0x23, 0x01, 0x00, 1,
                                                          1, 2, 3, 4, 5, 6,    7,    8,    0};
  memset(m->header, 0, sizeof m->header);
  memcpy(m->header, header, sizeof header);
  memcpy(m->auxiliary, auxiliary, sizeof auxiliary);
  m->header[NWK_HEADER_SEQUENCE] += number;
  m->auxiliary[NWK_AUXILIARY_COUNTER] += number;
}

/* The nonce is IEEE, frame counter and security control; the level is authenticated (Zigbee 4.3.1, 4.5.2.2). */
static void make_nonce_and_auth(struct message *m) {
  size_t h = accepted(nwk_write_header(m->header, sizeof m->header, m->auth, sizeof m->auth), "nwk_write_header");
  uint8_t *control = m->auth + h;
  size_t a = accepted(nwk_write_auxiliary(m->auxiliary, sizeof m->auxiliary, control, sizeof m->auth - h),
                      "nwk_write_auxiliary");
  if (h + a != AUTH_LENGTH) {
    fail("not 22 bytes of headers", "nwk_write_header");
  }
  control[0] |= (uint8_t)m->level;
  memcpy(m->nonce, control + 5, 8);
  memcpy(m->nonce + 8, control + 1, 4);
  m->nonce[12] = control[0];
}

static void make(struct message *m, uint64_t level, size_t mic_length, size_t length, uint8_t number) {
  memset(m, 0, sizeof *m);
  m->level = level;
  m->mic_length = mic_length;
  make_key(m);
  make_records(m, number);
  make_nonce_and_auth(m);
  m->length = length;
  for (size_t i = 0; i < length; i++) {
    m->payload[i] = (uint8_t)(7 * i + 3 + number);
  }
  m->frame_length = accepted(nwk_seal(m->level, m->key_first, m->key_second, m->header, sizeof m->header, m->auxiliary,
                                      sizeof m->auxiliary, m->payload, m->length, m->frame, sizeof m->frame),
                             "nwk_seal");
  if (m->frame_length != AUTH_LENGTH + length + mic_length) {
    fail("another length than headers, payload and MIC", "nwk_seal");
  }
  memcpy(m->sealed, m->frame + AUTH_LENGTH, length + mic_length);
}

void make_numbered_message(struct message *m, size_t length, uint8_t number) {
  make(m, NWK_LEVEL_ENC_MIC_32, 4, length, number);
}

void make_message_at_level_7(struct message *m, size_t length) {
  make(m, NWK_LEVEL_ENC_MIC_128, 16, length, 0);
}

void make_message(struct message *m, size_t length) {
  make_numbered_message(m, length, 0);
}
