/* nettle's calls. With NETTLE_FAT_OVERRIDE in the environment it uses only the instructions named there. */
#include "codecs.h"

#ifdef HAVE_NETTLE
#include <nettle/aes.h>
#include <nettle/ccm.h>
#include <nettle/version.h>

#define TEXT_OF(x) #x
#define TEXT(x) TEXT_OF(x)
#define VERSION TEXT(NETTLE_VERSION_MAJOR) "." TEXT(NETTLE_VERSION_MINOR)

static struct ccm_aes128_ctx kept;
static struct aes128_ctx kept_block;

static bool seal_with(struct ccm_aes128_ctx *ctx, struct message *m) {
  ccm_aes128_encrypt_message(ctx, NONCE_LENGTH, m->nonce, AUTH_LENGTH, m->auth, m->mic_length, m->length + m->mic_length,
                             m->out, m->payload);
  return true;
}

static bool open_with(struct ccm_aes128_ctx *ctx, struct message *m) {
  return ccm_aes128_decrypt_message(ctx, NONCE_LENGTH, m->nonce, AUTH_LENGTH, m->auth, m->mic_length, m->length, m->out,
                                    m->sealed) == 1;
}

static bool seal(void *input) {
  struct message *m = input;
  struct ccm_aes128_ctx ctx;
  ccm_aes128_set_key(&ctx, m->key);
  return seal_with(&ctx, m);
}

static bool open(void *input) {
  struct message *m = input;
  struct ccm_aes128_ctx ctx;
  ccm_aes128_set_key(&ctx, m->key);
  return open_with(&ctx, m);
}

static bool block(void *input) {
  struct message *m = input;
  struct aes128_ctx ctx;
  aes128_set_encrypt_key(&ctx, m->key);
  aes128_encrypt(&ctx, BLOCK_LENGTH, m->out, m->payload);
  return true;
}

static bool set_key(void *input) {
  struct message *m = input;
  ccm_aes128_set_key(&kept, m->key);
  aes128_set_encrypt_key(&kept_block, m->key);
  return true;
}

static bool seal_kept(void *input) {
  return seal_with(&kept, input);
}

static bool open_kept(void *input) {
  return open_with(&kept, input);
}

static bool block_kept(void *input) {
  struct message *m = input;
  aes128_encrypt(&kept_block, BLOCK_LENGTH, m->out, m->payload);
  return true;
}

const struct codec nettle = {"nettle", VERSION, seal, open, block, set_key, seal_kept, open_kept, block_kept};
#else
const struct codec nettle = {.name = "nettle", .version = "not installed"};
#endif
