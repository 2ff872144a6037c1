/* message.h: the messages of the benchmark. One message serves every implementation, so that all seal and open the
 * same. */
#ifndef BENCH_MESSAGE_H
#define BENCH_MESSAGE_H

#include "nwk.h"

#include <stdbool.h>

#define KEY_LENGTH 16
#define BLOCK_LENGTH 16
#define NONCE_LENGTH 13
#define AUTH_LENGTH 22
#define MAX_MESSAGE 83

struct message {
  /* The level, and how many bytes its MIC has. */
  uint64_t level;
  size_t mic_length;
  uint8_t key[KEY_LENGTH];
  uint64_t key_first, key_second;
  uint8_t header[NWK_HEADER_RECORD];
  uint8_t auxiliary[NWK_AUXILIARY_RECORD];
  uint8_t payload[MAX_MESSAGE];
  size_t length;
  /* The 13 bytes of nonce and the 22 authenticated ones (header of 8, auxiliary header of 14) of this frame. */
  uint8_t nonce[NONCE_LENGTH];
  uint8_t auth[AUTH_LENGTH];
  /* What sealing gives: the frame, and the ciphertext with the MIC behind it. */
  uint8_t frame[NWK_MAX_FRAME];
  size_t frame_length;
  uint8_t sealed[MAX_MESSAGE + NWK_MIC_PLACES];
  /* Where the measured calls put what they give. */
  uint8_t out[NWK_MAX_FRAME];
  uint8_t header_out[NWK_HEADER_RECORD];
  uint8_t auxiliary_out[NWK_AUXILIARY_RECORD];
  uint8_t opened[NWK_OPENED_RECORD];
};

/* A call to be measured; whether it went well. */
typedef bool call(void *input);

/* The message with a payload of so many bytes, sealed by the codec at level 5. Ends the program if the codec refuses it. */
void make_message(struct message *m, size_t length);

/* The same at level 7, with a MIC of 16 bytes. */
void make_message_at_level_7(struct message *m, size_t length);

/* The same with sequence number and frame counter so much higher, and another payload; 0 gives the message itself. */
void make_numbered_message(struct message *m, size_t length, uint8_t number);

/* End the program: what did not come out as it has to. */
_Noreturn void fail(const char *what, const char *who);

#endif
