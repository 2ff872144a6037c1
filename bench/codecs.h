/* codecs.h: the implementations that are measured. All calls take a struct message and put what they give in its out.
 */
#ifndef BENCH_CODECS_H
#define BENCH_CODECS_H

#include "message.h"

struct codec {
  const char *name, *version;
  /* NULL where the implementation is not installed. In seal, open and block the key is set up in each call. */
  call *seal, *open, *block;
  /* The same with the key that set_key has set up; NULL for the codec, which keeps no key. */
  call *set_key, *seal_kept, *open_kept, *block_kept;
};

/* The codec, and its peers. */
extern const struct codec ours, nettle, mbedtls, wolfssl;

/* The codec on whole frames. */
call seal_frame, open_frame;

/* Whether mbedtls may use the processor's AES instructions; at first it may not. */
extern bool mbedtls_hardware;

/* Whether mbedtls, asked by its own function, would use them. */
bool mbedtls_uses_hardware(void);

#endif
