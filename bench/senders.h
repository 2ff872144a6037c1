/* senders.h: a list of 64 senders, and the calls that ask it for a key, note a counter and forget a sender. */
#ifndef BENCH_SENDERS_H
#define BENCH_SENDERS_H

#include "message.h"

struct senders {
  struct nwk_sender list[NWK_MAX_SENDERS];
  /* The sender that the calls are about, and its counter. */
  uint64_t sender;
  uint32_t counter;
  uint8_t key[KEY_LENGTH];
};

/* 64 senders, of which the last is asked for, with the counter behind its stored one. */
void make_senders(struct senders *s);

/* The same, and another sender is asked for. */
void make_unknown_sender(struct senders *s);

/* The same with the last place free, and another sender is asked for. */
void make_new_sender(struct senders *s);

/* Ask for the key, which is to be given. */
call ask_key;

/* Note a counter for a sender that the list names. */
call note_known;

/* Note a counter for a new sender and forget it again, so that each call finds the list as it was. */
call note_and_forget;

/* Forget the sender; a list that does not name it stays as it is. */
call forget_sender;

/* Make each call once on its own list. Ends the program unless it answers as it has to and leaves the list as it has to. */
void check_senders(void);

#endif
