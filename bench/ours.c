/* The codec's own calls. */
#include "codecs.h"

static bool seal(void *input) {
  struct message *m = input;
  uint64_t answer = nwk_encrypt_ccm(m->level, m->key_first, m->key_second, m->nonce, m->auth, AUTH_LENGTH, m->payload,
                                    m->length, m->out, m->length, m->out + m->length);
  return answer == m->length;
}

static bool open(void *input) {
  struct message *m = input;
  uint64_t answer = nwk_decrypt_ccm(m->level, m->key_first, m->key_second, m->nonce, m->auth, AUTH_LENGTH, m->sealed,
                                    m->length, m->sealed + m->length, m->out, m->length);
  return answer == m->length;
}

static bool block(void *input) {
  struct message *m = input;
  return nwk_encrypt_block(m->key_first, m->key_second, m->payload, m->out) == BLOCK_LENGTH;
}

bool seal_frame(void *input) {
  struct message *m = input;
  uint64_t answer = nwk_seal(m->level, m->key_first, m->key_second, m->header, sizeof m->header, m->auxiliary,
                             sizeof m->auxiliary, m->payload, m->length, m->out, sizeof m->out);
  return answer == m->frame_length;
}

bool open_frame(void *input) {
  struct message *m = input;
  uint64_t answer = nwk_open(m->level, m->key_first, m->key_second, m->frame, m->frame_length, m->opened,
                             sizeof m->opened, m->out, sizeof m->out);
  return answer == m->length;
}

const struct codec ours = {.name = "nwk", .version = "", .seal = seal, .open = open, .block = block};
