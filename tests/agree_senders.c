/* Calls the three functions of nwk.h over lists of senders with generated inputs, from a fixed seed, and prints one line for each
 * call:
 *
 *   nwk_inbound_network_key key_first key_second active sender number counter list = answer list key
 *   nwk_note_inbound_frame_counter sender counter list = answer list
 *   nwk_forget_sender sender list = answer list
 *
 * in hexadecimal, numbers with the most significant digit first. A list is the 13 bytes of each record, address and counter lowest
 * byte first and then used, or "-" where it has no places. The key was filled with A5. host/tests/inbound.rs repeats each line from
 * Rust.
 *
 *   cc -std=c11 -Wall -Wextra -Iinclude tests/agree_senders.c target/staticlib/libnwk.a -o agree_senders && ./agree_senders */
#include "nwk.h"

#include <inttypes.h>
#include <stdio.h>
#include <string.h>

#define LISTS 150
#define CALLS 8
#define SEED UINT64_C(0x5E4DE2)
#define FILL 0xA5
#define ADDRESSES 80

#include "generator.h"
#include "list.h"

/* ---- a list, and what is asked of it */

static uint64_t addresses[ADDRESSES];

/* Full, or with some free places, in which something may be left; few senders, so that some are named twice, or many. */
static void make_list(void) {
  const size_t used = percent(40) ? 100 : below(100), named = percent(50) ? 5 : ADDRESSES;
  places = percent(40) ? 60 + below(PLACES - 59) : below(PLACES + 1);
  for (size_t i = 0; i < ADDRESSES; i++) {
    addresses[i] = i == 0 ? 0 : number();
  }
  for (size_t i = 0; i < places; i++) {
    list[i].address = addresses[below(named)];
    list[i].counter = (uint32_t)below(4);
    list[i].used = percent(used) ? (uint8_t)(1 + below(255)) : 0;
  }
}

/* A counter beside the stored ones, which are small at first, or the last one. */
static uint32_t counter(void) { return percent(10) ? 0xFFFFFFFFu : (uint32_t)below(6); }

static void print_answer(uint64_t answer) {
  printf(" = %016" PRIX64, answer);
  print_list();
}

static void ask(uint64_t sender) {
  const uint64_t first = number(), second = number();
  const uint8_t active = (uint8_t)number(), given = percent(80) ? active : (uint8_t)number();
  const uint32_t its = counter();
  uint8_t key[16];
  memset(key, FILL, sizeof key);
  printf("nwk_inbound_network_key %016" PRIX64 " %016" PRIX64 " %02X %016" PRIX64 " %02X %08" PRIX32, first, second, active, sender,
         given, its);
  print_list();
  print_answer(nwk_inbound_network_key(first, second, active, list, places, sender, given, its, key));
  putchar(' ');
  for (size_t i = 0; i < sizeof key; i++) {
    printf("%02X", key[i]);
  }
}

static void note(uint64_t sender) {
  const uint32_t its = counter();
  printf("nwk_note_inbound_frame_counter %016" PRIX64 " %08" PRIX32, sender, its);
  print_list();
  print_answer(nwk_note_inbound_frame_counter(list, places, sender, its));
}

static void forget(uint64_t sender) {
  printf("nwk_forget_sender %016" PRIX64, sender);
  print_list();
  print_answer(nwk_forget_sender(list, places, sender));
}

int main(void) {
  for (int lists = 0; lists < LISTS; lists++) {
    make_list();
    for (int calls = 0; calls < CALLS; calls++) {
      const uint64_t sender = places > 0 && percent(60) ? list[below(places)].address : addresses[below(ADDRESSES)];
      const size_t which = below(10);
      if (which < 5) {
        ask(sender);
      } else if (which < 9) {
        note(sender);
      } else {
        forget(sender);
      }
      putchar('\n');
    }
  }
  return 0;
}
