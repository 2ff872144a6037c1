/* readings.h: bytes for the codec to read as a header or as a command. */
#ifndef BENCH_READINGS_H
#define BENCH_READINGS_H

#include "message.h"

struct reading {
  uint8_t bytes[NWK_MAX_FRAME];
  size_t length;
  uint8_t record[NWK_COMMAND_RECORD];
  uint8_t out[NWK_MAX_FRAME];
};

/* A header of 8 bytes. */
#define HEADER_LENGTH 8
void make_plain_header(struct reading *r);

/* A header with both IEEE addresses and a source route of so many relays. */
void make_routed_header(struct reading *r, uint8_t relays);

/* A link status command of so many entries. */
void make_link_status(struct reading *r, uint8_t entries);

call read_header, write_header, read_command, write_command;

#endif
