/* Hands out counters that survive a power cut: begins a journal file, reserves three counters at a time in it, recovers from a cut in
 * the middle of an append, and goes on in a new file.
 *
 *   make archive
 *   cc -Wall -Wextra -Iinclude examples/journal.c target/staticlib/libnwk.a -o journal && ./journal
 *
 * Ends with status 0 if every answer was the expected one. A gateway also sees to it that no other process has the file (flock), also
 * while it is replaced, and that the file keeps its name, as host/src/journal_file/store.rs does. */
#define _XOPEN_SOURCE 700
#include "nwk.h"

#include <fcntl.h>
#include <inttypes.h>
#include <stdio.h>
#include <stdlib.h>
#include <string.h>
#include <unistd.h>

#define STEP 3

/* The journal's name in its folder, and that of the file in which a shrunk one is made ready. */
#define NAME "journal"
#define BESIDE "journal.shrunk"

/* The folder, the journal's file, and what is on disk of it. */
static int folder;
static int file;
static uint8_t journal[1024];
static size_t length;

/* The counter that was handed out last, or after a start the recovered ceiling. */
static uint32_t last;

static struct nwk_sender senders[NWK_MAX_SENDERS];

static void must(int holds, const char *what) {
  if (!holds) {
    fprintf(stderr, "%s\n", what);
    exit(1);
  }
}

/* Puts a shorter journal that recovers to the same in the place of this one. It is on disk before it has the journal's name, so a cut
 * leaves the one or the other, and its name is on disk before anything is appended to it: else a cut could bring the old one back. */
static void shrink(void) {
  uint8_t shrunk[NWK_SHRUNK_JOURNAL];
  const uint64_t answer = nwk_shrink_journal(journal, length, shrunk, sizeof shrunk);
  const size_t n = NWK_LENGTH(answer);
  must(NWK_REFUSAL(answer) == NWK_ACCEPTED, nwk_refusal_text(NWK_REFUSAL(answer)));
  /* What a cut left of an earlier one counts for nothing. */
  unlinkat(folder, BESIDE, 0);
  const int beside = openat(folder, BESIDE, O_RDWR | O_CREAT | O_EXCL, 0600);
  must(beside >= 0 && pwrite(beside, shrunk, n, 0) == (ssize_t)n && fsync(beside) == 0, "no shrunk journal can be written");
  must(renameat(folder, BESIDE, folder, NAME) == 0 && fsync(folder) == 0, "the journal cannot be replaced");
  printf("shrunk from %zu to %zu bytes\n", length, n);
  close(file);
  file = beside;
  memcpy(journal, shrunk, n);
  length = n;
}

/* At each start: recover, and put a new file in the place of the one that was there, which may show more than the disk has. Where there is
 * no file this program ends: an empty journal is begun once, and not here. */
static void start(void) {
  file = openat(folder, NAME, O_RDWR);
  must(file >= 0, "there is no journal");
  const ssize_t n = pread(file, journal, sizeof journal, 0);
  must(n >= 0 && (size_t)n < sizeof journal, "the journal cannot be read");
  const size_t finished = nwk_finished_journal(journal, (size_t)n);
  uint64_t complete = 0;
  const uint64_t answer = nwk_recover_journal(journal, finished, senders, NWK_MAX_SENDERS, &complete);
  must(NWK_REFUSAL(answer) == NWK_ACCEPTED, nwk_refusal_text(NWK_REFUSAL(answer)));
  length = (size_t)complete;
  last = NWK_LENGTH(answer);
  printf("start: ceiling %" PRIu32 ", %zu of %zd bytes are complete records\n", last, length, n);
  for (size_t i = 0; i < NWK_MAX_SENDERS && senders[i].used; i++) {
    printf("%016" PRIX64 " had counter %" PRIu32 "\n", senders[i].address, senders[i].counter);
  }
  shrink();
}

/* Writes bytes behind the complete records, and waits for the disk. A program that cannot be sure of that ends. */
static void put(const uint8_t *bytes, size_t n) {
  must(pwrite(file, bytes, n, (off_t)length) == (ssize_t)n && fdatasync(file) == 0, "the journal cannot be written");
}

/* Appends a record in two steps. Until the kind is on disk it counts for nothing, whatever the disk has of it. */
static void append(uint8_t kind, uint64_t sender, uint32_t counter) {
  uint8_t record[NWK_JOURNAL_RECORD];
  const uint64_t answer = nwk_write_journal_record(journal, length, kind, sender, counter, 0, record, sizeof record);
  const size_t n = NWK_LENGTH(answer);
  must(NWK_REFUSAL(answer) == NWK_ACCEPTED, nwk_refusal_text(NWK_REFUSAL(answer)));
  must(length + n <= sizeof journal, "the journal is full");
  memcpy(journal + length, record, n);
  record[0] = 0;
  put(record, n);
  put(&kind, 1);
  length += n;
}

/* The next counter. Where no ceiling covers it, one is written first, never above the last counter that is handed out. */
static uint32_t next(void) {
  uint64_t answer = nwk_next_counter(journal, length, last);
  if (NWK_REFUSAL(answer) == NWK_REFUSED_NO_CEILING) {
    append(NWK_JOURNAL_CEILING, 0, last < 0xFFFFFFFEu - STEP ? last + STEP : 0xFFFFFFFEu);
    answer = nwk_next_counter(journal, length, last);
  }
  must(NWK_REFUSAL(answer) == NWK_ACCEPTED, nwk_refusal_text(NWK_REFUSAL(answer)));
  last = NWK_LENGTH(answer);
  printf("counter %" PRIu32 "\n", last);
  return last;
}

int main(void) {
  char path[] = P_tmpdir "/journal-XXXXXX";
  must(mkdtemp(path) != NULL, "no folder for the journal");
  folder = open(path, O_RDONLY | O_DIRECTORY);

  /* Once in a gateway's life: an empty journal, on disk with its name. */
  file = openat(folder, NAME, O_RDWR | O_CREAT | O_EXCL, 0600);
  must(file >= 0 && fsync(file) == 0 && fsync(folder) == 0, "no file for the journal");
  close(file);

  start();
  for (uint32_t expected = 1; expected <= 4; expected++) {
    must(next() == expected, "another counter");
  }
  append(NWK_JOURNAL_SENDER, UINT64_C(0x00124B001CA1B2C3), 74565);

  /* The power fails in the first step of the next ceiling: the disk has its length and three of its five bytes. */
  const uint8_t ceiling[] = {0, 9, 0, 0, 0};
  put(ceiling, sizeof ceiling);
  printf("power cut\n");
  close(file);

  /* Counters 5 and 6 were covered and may have been handed out: the next one is 7. */
  start();
  must(next() == 7, "another counter");
  must(next() == 8, "another counter");

  /* A byte that is no kind: this is no journal, or one that somebody else has written to. */
  journal[length] = 4;
  const uint64_t answer = nwk_next_counter(journal, length + 1, last);
  printf("refused by %u: %s\n", NWK_REFUSAL(answer), nwk_refusal_text(NWK_REFUSAL(answer)));
  unlinkat(folder, NAME, 0);
  rmdir(path);
  return NWK_REFUSAL(answer) != NWK_REFUSED_JOURNAL_KIND;
}
