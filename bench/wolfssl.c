/* wolfSSL's calls. Debian builds it without the AES instructions, so that its AES is software in every table. */
#include "codecs.h"

#ifdef HAVE_WOLFSSL
#include <wolfssl/options.h>
#include <wolfssl/version.h>
#include <wolfssl/wolfcrypt/aes.h>

#ifdef WOLFSSL_AESNI
#error "this wolfSSL may use AES instructions: leave it out of the tables with software AES"
#endif

static Aes kept, kept_block;

static bool start(Aes *aes) {
  return wc_AesInit(aes, NULL, INVALID_DEVID) == 0;
}

static bool seal_with(Aes *aes, struct message *m) {
  return wc_AesCcmEncrypt(aes, m->out, m->payload, m->length, m->nonce, NONCE_LENGTH, m->out + m->length, m->mic_length,
                          m->auth, AUTH_LENGTH) == 0;
}

static bool open_with(Aes *aes, struct message *m) {
  return wc_AesCcmDecrypt(aes, m->out, m->sealed, m->length, m->nonce, NONCE_LENGTH, m->sealed + m->length, m->mic_length,
                          m->auth, AUTH_LENGTH) == 0;
}

static bool seal(void *input) {
  struct message *m = input;
  Aes aes;
  bool well = start(&aes) && wc_AesCcmSetKey(&aes, m->key, KEY_LENGTH) == 0 && seal_with(&aes, m);
  wc_AesFree(&aes);
  return well;
}

static bool open(void *input) {
  struct message *m = input;
  Aes aes;
  bool well = start(&aes) && wc_AesCcmSetKey(&aes, m->key, KEY_LENGTH) == 0 && open_with(&aes, m);
  wc_AesFree(&aes);
  return well;
}

static bool block(void *input) {
  struct message *m = input;
  Aes aes;
  bool well = start(&aes) && wc_AesSetKeyDirect(&aes, m->key, KEY_LENGTH, NULL, AES_ENCRYPTION) == 0 &&
              wc_AesEncryptDirect(&aes, m->out, m->payload) == 0;
  wc_AesFree(&aes);
  return well;
}

static bool set_key(void *input) {
  struct message *m = input;
  wc_AesFree(&kept);
  wc_AesFree(&kept_block);
  return start(&kept) && start(&kept_block) && wc_AesCcmSetKey(&kept, m->key, KEY_LENGTH) == 0 &&
         wc_AesSetKeyDirect(&kept_block, m->key, KEY_LENGTH, NULL, AES_ENCRYPTION) == 0;
}

static bool seal_kept(void *input) {
  return seal_with(&kept, input);
}

static bool open_kept(void *input) {
  return open_with(&kept, input);
}

static bool block_kept(void *input) {
  struct message *m = input;
  return wc_AesEncryptDirect(&kept_block, m->out, m->payload) == 0;
}

const struct codec wolfssl = {"wolfSSL", LIBWOLFSSL_VERSION_STRING, seal, open, block, set_key, seal_kept, open_kept,
                              block_kept};
#else
const struct codec wolfssl = {.name = "wolfSSL", .version = "not installed"};
#endif
