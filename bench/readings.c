#include "readings.h"

#include <string.h>

#define LINK_STATUS 8
#define FIRST_AND_LAST_FRAME 0x60

void make_plain_header(struct reading *r) {
  static const uint8_t header[HEADER_LENGTH] = {0x48, 0x00, 0x00, 0x00, 0x34, 0x12, 30, 7};
  memset(r, 0, sizeof *r);
  memcpy(r->bytes, header, sizeof header);
  r->length = sizeof header;
}

void make_routed_header(struct reading *r, uint8_t relays) {
  make_plain_header(r);
  r->bytes[1] = 0x1C; /* source route, destination IEEE, source IEEE */
  uint8_t *at = r->bytes + HEADER_LENGTH;
  for (uint8_t i = 0; i < 16; i++) {
    *at++ = (uint8_t)(i + 1);
  }
  *at++ = relays;
  *at++ = 0;
  for (uint8_t i = 0; i < relays; i++) {
    *at++ = i;
    *at++ = 0x10;
  }
  r->length = (size_t)(at - r->bytes);
}

void make_link_status(struct reading *r, uint8_t entries) {
  memset(r, 0, sizeof *r);
  uint8_t *at = r->bytes;
  *at++ = LINK_STATUS;
  *at++ = FIRST_AND_LAST_FRAME | entries;
  for (uint8_t i = 0; i < entries; i++) {
    *at++ = i;
    *at++ = 0x20;
    *at++ = 0x31;
  }
  r->length = (size_t)(at - r->bytes);
}

bool read_header(void *input) {
  struct reading *r = input;
  return nwk_read_header(r->bytes, r->length, r->record, NWK_HEADER_RECORD) == r->length;
}

bool read_command(void *input) {
  struct reading *r = input;
  return nwk_read_command(r->bytes, r->length, r->record, NWK_COMMAND_RECORD) == NWK_COMMAND_RECORD &&
         r->record[0] == r->bytes[0];
}

/* Writing goes well where it gives the bytes again that were read. */
bool write_header(void *input) {
  struct reading *r = input;
  return nwk_write_header(r->record, NWK_HEADER_RECORD, r->out, sizeof r->out) == r->length &&
         memcmp(r->out, r->bytes, r->length) == 0;
}

bool write_command(void *input) {
  struct reading *r = input;
  return nwk_write_command(r->record, NWK_COMMAND_RECORD, r->out, sizeof r->out) == r->length &&
         memcmp(r->out, r->bytes, r->length) == 0;
}
