/* mbedtls's calls. It asks mbedtls_aesni_has_support before each use of the AES instructions. The linker's --wrap sends
 * the question here, so that they can be switched off while the program runs. */
#include "codecs.h"

bool mbedtls_hardware;

#ifdef HAVE_MBEDTLS
#include <mbedtls/aes.h>
#include <mbedtls/ccm.h>
#include <mbedtls/version.h>

#define KEY_BITS 128
/* The bit by which mbedtls asks for the AES instructions. */
#define AESNI_AES 0x02000000u

int __real_mbedtls_aesni_has_support(unsigned int what);
int __wrap_mbedtls_aesni_has_support(unsigned int what);

static unsigned long asked;

int __wrap_mbedtls_aesni_has_support(unsigned int what) {
  asked++;
  return mbedtls_hardware && __real_mbedtls_aesni_has_support(what);
}

static mbedtls_ccm_context kept;
static mbedtls_aes_context kept_block;

static bool seal_with(mbedtls_ccm_context *ctx, struct message *m) {
  return mbedtls_ccm_encrypt_and_tag(ctx, m->length, m->nonce, NONCE_LENGTH, m->auth, AUTH_LENGTH, m->payload, m->out,
                                     m->out + m->length, m->mic_length) == 0;
}

static bool open_with(mbedtls_ccm_context *ctx, struct message *m) {
  return mbedtls_ccm_auth_decrypt(ctx, m->length, m->nonce, NONCE_LENGTH, m->auth, AUTH_LENGTH, m->sealed, m->out,
                                  m->sealed + m->length, m->mic_length) == 0;
}

static bool seal(void *input) {
  struct message *m = input;
  mbedtls_ccm_context ctx;
  mbedtls_ccm_init(&ctx);
  bool well = mbedtls_ccm_setkey(&ctx, MBEDTLS_CIPHER_ID_AES, m->key, KEY_BITS) == 0 && seal_with(&ctx, m);
  mbedtls_ccm_free(&ctx);
  return well;
}

static bool open(void *input) {
  struct message *m = input;
  mbedtls_ccm_context ctx;
  mbedtls_ccm_init(&ctx);
  bool well = mbedtls_ccm_setkey(&ctx, MBEDTLS_CIPHER_ID_AES, m->key, KEY_BITS) == 0 && open_with(&ctx, m);
  mbedtls_ccm_free(&ctx);
  return well;
}

static bool block(void *input) {
  struct message *m = input;
  mbedtls_aes_context ctx;
  mbedtls_aes_init(&ctx);
  bool well = mbedtls_aes_setkey_enc(&ctx, m->key, KEY_BITS) == 0 &&
              mbedtls_aes_crypt_ecb(&ctx, MBEDTLS_AES_ENCRYPT, m->payload, m->out) == 0;
  mbedtls_aes_free(&ctx);
  return well;
}

static bool set_key(void *input) {
  struct message *m = input;
  mbedtls_ccm_free(&kept);
  mbedtls_ccm_init(&kept);
  mbedtls_aes_init(&kept_block);
  return mbedtls_ccm_setkey(&kept, MBEDTLS_CIPHER_ID_AES, m->key, KEY_BITS) == 0 &&
         mbedtls_aes_setkey_enc(&kept_block, m->key, KEY_BITS) == 0;
}

static bool seal_kept(void *input) {
  return seal_with(&kept, input);
}

static bool open_kept(void *input) {
  return open_with(&kept, input);
}

static bool block_kept(void *input) {
  struct message *m = input;
  return mbedtls_aes_crypt_ecb(&kept_block, MBEDTLS_AES_ENCRYPT, m->payload, m->out) == 0;
}

/* Whether a block asked the wrapped function, and what that answers. */
bool mbedtls_uses_hardware(void) {
  struct message m;
  make_message(&m, BLOCK_LENGTH);
  unsigned long before = asked;
  if (!block(&m) || asked == before) {
    fail("does not ask before it uses the AES instructions", "mbedtls");
  }
  return __wrap_mbedtls_aesni_has_support(AESNI_AES);
}

const struct codec mbedtls = {"mbedtls", MBEDTLS_VERSION_STRING, seal, open, block, set_key, seal_kept, open_kept,
                              block_kept};
#else
const struct codec mbedtls = {.name = "mbedtls", .version = "not installed"};

bool mbedtls_uses_hardware(void) {
  return false;
}
#endif
