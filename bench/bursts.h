/* bursts.h: 16 frames under one key, to be opened as one burst or call by call. Both ways put a frame's record and
 * payload in the same places. */
#ifndef BENCH_BURSTS_H
#define BENCH_BURSTS_H

#include "message.h"

struct burst {
  uint64_t key_first, key_second;
  /* The frames end to end, and how many bytes each has. */
  uint8_t frames[NWK_MAX_BURST * NWK_MAX_FRAME];
  size_t frames_length;
  uint16_t lengths[NWK_MAX_BURST];
  /* What nwk_open answers for each frame, and what then stands in out if it was painted before. */
  uint64_t answer;
  uint8_t expected[NWK_MAX_BURST * NWK_MAX_PAYLOAD];
  /* Where the measured calls put what they give. */
  uint8_t answers[NWK_MAX_BURST][NWK_OPENED_RECORD];
  uint8_t out[NWK_MAX_BURST * NWK_MAX_PAYLOAD];
};

/* 16 messages with payloads of so many bytes, no two alike. */
void make_burst(struct burst *b, size_t length);

/* 16 clear frames with payloads of so many bytes. */
void make_clear_burst(struct burst *b, size_t length);

/* 16 frames that opening refuses by 2: they are too short for a header. */
void make_short_burst(struct burst *b);

/* One call of nwk_open_burst, and a call of nwk_open for each frame. */
call open_burst, open_each;

/* Open the burst both ways. Ends the program unless both answer as they have to, give the payloads that were sealed and
 * the same opened records, and leave the rest of out. */
void check_burst(struct burst *b);

#endif
