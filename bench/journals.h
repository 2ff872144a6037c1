/* journals.h: journals that name 64 senders, and the calls that recover them, write a record, hand out a counter and shrink them. */
#ifndef BENCH_JOURNALS_H
#define BENCH_JOURNALS_H

#include "message.h"

/* So many records. */
#define SHORT_JOURNAL 10000
#define LONG_JOURNAL 100000

struct journal {
  uint8_t bytes[LONG_JOURNAL * NWK_JOURNAL_RECORD];
  size_t length, records;
  /* The largest ceiling, which the last ceiling record has. */
  uint32_t ceiling;
  /* Where the calls put what they give. */
  struct nwk_sender list[NWK_MAX_SENDERS];
  uint64_t complete;
  uint8_t record[NWK_JOURNAL_RECORD];
  uint8_t shrunk[NWK_SHRUNK_JOURNAL];
};

/* A journal of so many records: those of 64 senders in turn, which do not appear in the order of their addresses, with a rising ceiling
 * before every eighth. */
void make_journal(struct journal *j, size_t records);

/* Recover it into a list of 64 places. */
call recover_journal;

/* Write one more record of the last sender. */
call write_journal_record;

/* Hand out the counter that only the last ceiling covers. */
call next_counter;

/* Shrink it. */
call shrink_journal;

/* Make each call once. Ends the program unless it gives what the journal was made of. */
void check_journal(struct journal *j);

#endif
