#include "journals.h"

#include <string.h>

#define FIRST_SENDER UINT64_C(0x00124B001CA10000)
#define LAST_SENDER sender(NWK_MAX_SENDERS - 1)
#define CEILING_RECORD 5

/* A ceiling and 64 senders. */
#define SHRUNK_LENGTH (CEILING_RECORD + NWK_MAX_SENDERS * NWK_JOURNAL_RECORD)

/* The sender that appears in this place: 37 has no divisor in common with 64, so no two are the same. */
static uint64_t sender(size_t place) {
  return FIRST_SENDER + place * 37 % NWK_MAX_SENDERS;
}

static void put_ceiling(struct journal *j) {
  j->ceiling += 1000;
  j->bytes[j->length] = NWK_JOURNAL_CEILING;
  nwk_put32(j->bytes + j->length + 1, j->ceiling);
  j->length += CEILING_RECORD;
}

static void put_sender(struct journal *j, uint64_t address, uint32_t counter) {
  uint8_t *at = j->bytes + j->length;
  at[0] = NWK_JOURNAL_SENDER;
  nwk_put32(at + 1, (uint32_t)(address & 0xFFFFFFFFu));
  nwk_put32(at + 5, (uint32_t)(address >> 32));
  nwk_put32(at + 9, counter);
  j->length += NWK_JOURNAL_RECORD;
}

void make_journal(struct journal *j, size_t records) {
  memset(j, 0, sizeof *j);
  for (uint32_t counter = 0; j->records < records; j->records++) {
    if (j->records % 9 == 0) {
      put_ceiling(j);
    } else {
      put_sender(j, sender(counter % NWK_MAX_SENDERS), counter);
      counter++;
    }
  }
}

bool recover_journal(void *input) {
  struct journal *j = input;
  return nwk_recover_journal(j->bytes, j->length, j->list, NWK_MAX_SENDERS, &j->complete) == j->ceiling;
}

bool write_journal_record(void *input) {
  struct journal *j = input;
  return nwk_write_journal_record(j->bytes, j->length, NWK_JOURNAL_SENDER, LAST_SENDER, 7, 0, j->record, sizeof j->record) ==
         NWK_JOURNAL_RECORD;
}

bool next_counter(void *input) {
  const struct journal *j = input;
  return nwk_next_counter(j->bytes, j->length, j->ceiling - 1) == j->ceiling;
}

bool shrink_journal(void *input) {
  struct journal *j = input;
  return nwk_shrink_journal(j->bytes, j->length, j->shrunk, sizeof j->shrunk) == SHRUNK_LENGTH;
}

/* The last ceiling, and what recovery gave of the senders, by rising addresses: these differ in the first byte on the wire alone. */
static bool is_shrunk(const struct journal *j) {
  bool well = j->shrunk[0] == NWK_JOURNAL_CEILING && nwk_get32(j->shrunk + 1) == j->ceiling;
  for (size_t i = 0; i < NWK_MAX_SENDERS; i++) {
    const struct nwk_sender *s = &j->list[i];
    const uint8_t *at = j->shrunk + CEILING_RECORD + (s->address - FIRST_SENDER) * NWK_JOURNAL_RECORD;
    well &= at[0] == NWK_JOURNAL_SENDER && nwk_get64(at + 1) == s->address && nwk_get32(at + 9) == s->counter;
  }
  return well;
}

void check_journal(struct journal *j) {
  if (!recover_journal(j) || j->complete != j->length) {
    fail("another ceiling, or not every record is complete", "nwk_recover_journal");
  }
  for (size_t i = 0; i < NWK_MAX_SENDERS; i++) {
    /* The last of the records that name the sender. */
    if (!j->list[i].used || j->list[i].address != sender(i) || j->list[i].counter % NWK_MAX_SENDERS != i ||
        j->list[i].counter < NWK_MAX_SENDERS) {
      fail("another sender or counter", "nwk_recover_journal");
    }
  }
  if (!write_journal_record(j) || j->record[0] != NWK_JOURNAL_SENDER || nwk_get64(j->record + 1) != LAST_SENDER) {
    fail("another record", "nwk_write_journal_record");
  }
  if (!next_counter(j) || NWK_REFUSAL(nwk_next_counter(j->bytes, j->length, j->ceiling)) != NWK_REFUSED_NO_CEILING) {
    fail("another counter", "nwk_next_counter");
  }
  if (!shrink_journal(j) || !is_shrunk(j)) {
    fail("another journal", "nwk_shrink_journal");
  }
}
