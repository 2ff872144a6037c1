/* times.h: the tables of times, each call's answer checked before it is timed. */
#ifndef BENCH_TIMES_H
#define BENCH_TIMES_H

/* Codec and peers, for the peers' way that this process was started with: its name goes into the titles. */
void compare_with_peers(const char *way);

/* Codec and peers, the peers' keys set up once beforehand. */
void compare_with_kept_keys(const char *way);

/* Whole frames, headers and commands, by the codec alone. */
void times_alone(void);

/* Asking, noting and forgetting in a list of 64 senders. */
void times_of_senders(void);

/* Recovery, writing, the next counter and shrinking over journals of two lengths. */
void times_of_journals(void);

/* Bursts of 16 frames beside 16 calls of opening. */
void compare_bursts_with_calls(void);

#endif
