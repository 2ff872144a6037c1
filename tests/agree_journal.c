/* Calls the four functions of nwk.h over journals with generated inputs, from a fixed seed, and prints one line for each call:
 *
 *   nwk_recover_journal journal list = answer list complete
 *   nwk_write_journal_record journal kind sender counter key_number room = answer record
 *   nwk_next_counter journal last = answer
 *   nwk_shrink_journal journal room = answer shrunk
 *
 * in hexadecimal, numbers with the most significant digit first, bytes as they stand, "-" for none. A list is the 13 bytes of each
 * record, address and counter lowest byte first and then used. complete was all ones. host/tests/journal_cases.rs repeats each line
 * from Rust.
 *
 *   cc -std=c11 -Wall -Wextra -Iinclude tests/agree_journal.c target/staticlib/libnwk.a -o agree_journal && ./agree_journal */
#include "nwk.h"

#include <inttypes.h>
#include <stdio.h>
#include <string.h>

#define JOURNALS 600
#define SEED UINT64_C(0x10C2)
#define SENDERS 68
#define RECORDS 100

#include "generator.h"
#include "list.h"

/* ---- a journal, a list, and what is asked of them */

static uint8_t journal[RECORDS * NWK_JOURNAL_RECORD + 1];
static size_t length;

/* Low ones and the last ones, so that ceilings and last counters meet. */
static uint32_t counter(void) { return percent(15) ? 0xFFFFFFFFu - (uint32_t)below(4) : (uint32_t)below(8); }

/* The address of each of the senders, whose order on the wire is another than that of their numbers. */
static uint64_t address(size_t sender) { return sender * UINT64_C(0x9E3779B97F4A7C15); }

static void add(uint8_t kind, uint64_t sender) {
  const size_t body = kind == NWK_JOURNAL_CEILING ? 4 : kind == NWK_JOURNAL_SENDER ? 12 : 1;
  const uint64_t second = counter();
  journal[length++] = kind;
  for (size_t i = 0; i < body; i++) {
    journal[length++] = (uint8_t)(kind == NWK_JOURNAL_SENDER && i < 8 ? sender >> 8 * i : second >> 8 * (i % 8));
  }
}

/* Few records, or one of each of about 64 senders and some more; whole, cut, or with a last byte that may be no kind. */
static void make_journal(void) {
  const size_t senders = percent(50) ? below(4) : 62 + below(SENDERS - 61), more = below(12);
  length = 0;
  for (size_t sender = 0; sender < senders; sender++) {
    add(NWK_JOURNAL_SENDER, address(sender));
  }
  for (size_t i = 0; i < more; i++) {
    add((uint8_t)(1 + below(3)), address(below(senders + 1)));
  }
  if (percent(30)) {
    length -= length > 13 ? below(14) : below(length + 1);
  } else if (percent(25)) {
    journal[length++] = (uint8_t)below(6);
  }
}

static void make_list(void) {
  places = percent(50) ? 62 + below(PLACES - 61) : below(PLACES + 1);
  for (size_t i = 0; i < places; i++) {
    list[i] = (struct nwk_sender){number(), counter(), (uint8_t)number()};
  }
}

/* ---- the lines */

static void print_bytes(const uint8_t *bytes, size_t n) {
  printf(n == 0 ? " -" : " ");
  for (size_t i = 0; i < n; i++) {
    printf("%02X", bytes[i]);
  }
}

static void recover(void) {
  uint64_t complete = UINT64_MAX;
  printf("nwk_recover_journal");
  print_bytes(journal, length);
  print_list();
  printf(" = %016" PRIX64, nwk_recover_journal(journal, length, list, places, &complete));
  print_list();
  printf(" %016" PRIX64 "\n", complete);
}

static void write_record(void) {
  const uint8_t kind = (uint8_t)(percent(80) ? 1 + below(3) : below(6)), key_number = (uint8_t)number();
  const uint64_t sender = address(below(SENDERS));
  const uint32_t its = counter();
  uint8_t out[NWK_JOURNAL_RECORD + 1];
  const size_t room = percent(60) ? sizeof out : below(sizeof out);
  printf("nwk_write_journal_record");
  print_bytes(journal, length);
  printf(" %02X %016" PRIX64 " %08" PRIX32 " %02X %zX", kind, sender, its, key_number, room);
  const uint64_t answer = nwk_write_journal_record(journal, length, kind, sender, its, key_number, out, room);
  printf(" = %016" PRIX64, answer);
  print_bytes(out, NWK_LENGTH(answer));
  printf("\n");
}

static void next(void) {
  const uint32_t last = counter();
  printf("nwk_next_counter");
  print_bytes(journal, length);
  printf(" %08" PRIX32 " = %016" PRIX64 "\n", last, nwk_next_counter(journal, length, last));
}

/* With room for the longest, or with as much as is needed, or one byte less. */
static void shrink(void) {
  uint8_t out[NWK_SHRUNK_JOURNAL + 1];
  const size_t needed = NWK_LENGTH(nwk_shrink_journal(journal, length, out, sizeof out));
  const size_t room = percent(40) ? sizeof out : needed > 0 && percent(50) ? needed - 1 : needed;
  printf("nwk_shrink_journal");
  print_bytes(journal, length);
  const uint64_t answer = nwk_shrink_journal(journal, length, out, room);
  printf(" %zX = %016" PRIX64, room, answer);
  print_bytes(out, NWK_LENGTH(answer));
  printf("\n");
}

int main(void) {
  for (int journals = 0; journals < JOURNALS; journals++) {
    make_journal();
    make_list();
    recover();
    write_record();
    next();
    shrink();
  }
  return 0;
}
