/* The list of senders that a program beside this file lends, and how it is printed: the 13 bytes of each record, address and counter
 * lowest byte first and then used, or "-" where it has no places. */
#ifndef LIST_H
#define LIST_H

#include "nwk.h"

#include <stdio.h>

#define PLACES 70

static struct nwk_sender list[PLACES];
static size_t places;

static void print_list(void) {
  printf(places == 0 ? " -" : " ");
  for (size_t i = 0; i < places; i++) {
    for (int byte = 0; byte < 8; byte++) {
      printf("%02X", (unsigned)(list[i].address >> 8 * byte & 0xFF));
    }
    for (int byte = 0; byte < 4; byte++) {
      printf("%02X", (unsigned)(list[i].counter >> 8 * byte & 0xFF));
    }
    printf("%02X", list[i].used);
  }
}

#endif
