/* nwk.h: the Zigbee NWK frame codec in C.
 *
 * A slice is a pointer and a length, a list a pointer and the number of its entries, an array of fixed size a pointer alone. The
 * caller sees to two things: each has that many bytes or entries (an empty slice or list may be NULL), and what a call writes overlaps
 * nothing else that it is lent. No function works in place: nwk_encrypt_ccm with out at payload gives a wrong MIC. A key is two
 * numbers, its first eight bytes in the first, the first byte lowest (nwk_key_of).
 *
 * A function answers one number: the length in bits 0 to 31, the refusal in bits 32 to 39 (0: accepted), marks above them, each
 * read by a macro below. A refusal has length 0 and leaves every lent byte as it was. Else each result stands at the front of its
 * buffer, and the rest of the buffer stays. Refusals are looked for in the order in which a function's comment lists them.
 *
 * The README has a short program, examples/ has longer ones. Build: cc -Iinclude FILE.c target/staticlib/libnwk.a
 *
 * The archive is compiled for x86-64 Linux.
 */
#ifndef NWK_H
#define NWK_H

#include <stddef.h>
#include <stdint.h>

#ifdef __cplusplus
extern "C" {
#endif

#define NWK_VERSION "0.11.0"
#define NWK_VERSION_NUMBER 0x000B00

#ifdef __cplusplus
#define NWK_CAST(type, value) static_cast<type>(value)
#else
#define NWK_CAST(type, value) ((type)(value))
#endif

#define NWK_LENGTH(answer) NWK_CAST(uint32_t, (answer) & 0xFFFFFFFFu)
#define NWK_REFUSAL(answer) NWK_CAST(uint8_t, (answer) >> 32 & 0xFFu)

/* nwk_open: 1 if the frame was clear, 0 if it was sealed. */
#define NWK_CLEAR(answer) NWK_CAST(uint8_t, (answer) >> 40 & 1u)

/* nwk_payload_place: the place of the payload's first byte. */
#define NWK_FIRST(answer) NWK_CAST(uint8_t, (answer) >> 48 & 0xFFu)

/* nwk_note_inbound_frame_counter: 1 if there is an earlier counter. nwk_recover_journal: 1 if there is a key number, then the key
 * number, which may be 0. */
#define NWK_KNOWN(answer) NWK_CAST(uint8_t, (answer) >> 41 & 1u)
#define NWK_KEY_NUMBER(answer) NWK_CAST(uint8_t, (answer) >> 48 & 0xFFu)

/* The longest frame; the longest payload or command; the most frames of a burst; the most senders whose counters are kept. */
#define NWK_MAX_FRAME 118
#define NWK_MAX_PAYLOAD 108
#define NWK_MAX_BURST 16
#define NWK_MAX_SENDERS 64

/* The network's level; any other number is 29. It is authenticated and not sent, and its MIC has 4, 8 or 16 bytes: at another level a
 * frame is refused by 19 or 16. A MIC lent alone has 16 places, those past its bytes given as 0 and not read. */
#define NWK_LEVEL_ENC_MIC_32 5
#define NWK_LEVEL_ENC_MIC_64 6
#define NWK_LEVEL_ENC_MIC_128 7
#define NWK_MIC_PLACES 16

/* ---- refusals; nwk_refusal_text gives their conditions in words */

enum nwk_refusal {
  NWK_ACCEPTED = 0,
  NWK_REFUSED_TOO_LONG = 1,
  NWK_REFUSED_SHORT_HEADER = 2,
  NWK_REFUSED_FRAME_TYPE = 3,
  NWK_REFUSED_DISCOVERY = 4,
  NWK_REFUSED_DESTINATION_IEEE = 5,
  NWK_REFUSED_SOURCE_IEEE = 6,
  NWK_REFUSED_MULTICAST = 7,
  NWK_REFUSED_SOURCE_ROUTE = 8,
  NWK_REFUSED_SHORT_AUXILIARY = 9,
  NWK_REFUSED_SHORT_EXTENDED = 10,
  NWK_REFUSED_NO_KEY_SEQUENCE = 11,
  NWK_REFUSED_PAYLOAD = 12,
  NWK_REFUSED_FIELD = 13,
  NWK_REFUSED_NO_AUXILIARY = 14,
  NWK_REFUSED_NO_IEEE = 15,
  NWK_REFUSED_NO_MIC = 16,
  NWK_REFUSED_LENGTH = 17,
  NWK_REFUSED_NO_ROOM = 18,
  NWK_REFUSED_WRONG_MIC = 19,
  NWK_REFUSED_BURST = 20,
  NWK_REFUSED_LAST_COUNTER = 21,
  NWK_REFUSED_KEY_SEQUENCE = 22,
  NWK_REFUSED_FRAME_COUNTER = 23,
  NWK_REFUSED_NO_PLACE = 24,
  NWK_REFUSED_JOURNAL_KIND = 25,
  NWK_REFUSED_COUNTERS_USED_UP = 26,
  NWK_REFUSED_NO_CEILING = 27,
  NWK_REFUSED_PRESENCE_BITS = 28,
  NWK_REFUSED_LEVEL = 29
};

/* ---- records
 *
 * A record holds a header or a command by value, for both directions: each field at a fixed offset, least significant byte first, a
 * presence byte (0 or 1) before each optional field. Absent fields are 0 when a record is filled and ignored when it is written. An
 * input record has exactly its size and no byte that its field cannot take, else 13; an output record has at least its size, else 18.
 *
 * A field's offset is a macro, with its bytes beside it. Writing goes by the fields present (HAS_), and the multicast, source route and
 * IEEE bits must agree with them, else 28: nwk_set_presence_bits sets them. */

/* What reading a header gives */
#define NWK_HEADER_RECORD 147
#define NWK_HEADER_FRAME_TYPE 0            /* 1 byte: 0 data, 1 command, 3 inter-PAN */
#define NWK_HEADER_VERSION 1               /* 1 byte: protocol version, 0 to 15 */
#define NWK_HEADER_DISCOVERY 2             /* 1 byte: 0 suppress, 1 enable, 2 with multicast */
#define NWK_HEADER_MULTICAST_BIT 3         /* 1 byte: bit 8 of frame control */
#define NWK_HEADER_SECURITY_BIT 4          /* 1 byte: bit 9 of frame control */
#define NWK_HEADER_SOURCE_ROUTE_BIT 5      /* 1 byte: bit 10 of frame control */
#define NWK_HEADER_DESTINATION_IEEE_BIT 6  /* 1 byte: bit 11 of frame control */
#define NWK_HEADER_SOURCE_IEEE_BIT 7       /* 1 byte: bit 12 of frame control */
#define NWK_HEADER_END_DEVICE_BIT 8        /* 1 byte: end device initiator */
#define NWK_HEADER_BITS_14_15 9            /* 1 byte: of frame control, 0 to 3 */
#define NWK_HEADER_DESTINATION 10          /* 2 bytes */
#define NWK_HEADER_SOURCE 12               /* 2 bytes */
#define NWK_HEADER_RADIUS 14               /* 1 byte */
#define NWK_HEADER_SEQUENCE 15             /* 1 byte: sequence number */
#define NWK_HEADER_HAS_DESTINATION_IEEE 16 /* 1 byte */
#define NWK_HEADER_DESTINATION_IEEE 17     /* 8 bytes: in wire order */
#define NWK_HEADER_HAS_SOURCE_IEEE 25      /* 1 byte */
#define NWK_HEADER_SOURCE_IEEE 26          /* 8 bytes: in wire order */
#define NWK_HEADER_HAS_MULTICAST 34        /* 1 byte */
#define NWK_HEADER_MULTICAST 35            /* 1 byte: multicast control */
#define NWK_HEADER_HAS_SOURCE_ROUTE 36     /* 1 byte */
#define NWK_HEADER_RELAY_COUNT 37          /* 1 byte: 0 to 54 */
#define NWK_HEADER_RELAY_INDEX 38          /* 1 byte */
#define NWK_HEADER_RELAYS 39               /* 108 bytes: 54 of 2 bytes; past the count 0 on reading and ignored on writing */

/* What reading an auxiliary header gives */
#define NWK_AUXILIARY_RECORD 19
#define NWK_AUXILIARY_PRESENT 0            /* 1 byte: where it is 0 there is no auxiliary header, and the rest is 0 or ignored */
#define NWK_AUXILIARY_LEVEL 1              /* 1 byte: security level, 0 to 7 */
#define NWK_AUXILIARY_KEY_ID 2             /* 1 byte: key identifier, 0 to 3 */
#define NWK_AUXILIARY_EXTENDED_NONCE_BIT 3 /* 1 byte */
#define NWK_AUXILIARY_VERIFIED_BIT 4       /* 1 byte: verified frame counter */
#define NWK_AUXILIARY_COUNTER 5            /* 4 bytes: FFFFFFFF is read, written and opened, and not sealed */
#define NWK_AUXILIARY_HAS_IEEE 9           /* 1 byte */
#define NWK_AUXILIARY_IEEE 10              /* 8 bytes: in wire order */
#define NWK_AUXILIARY_KEY_SEQUENCE 18      /* 1 byte: key sequence number */

/* What opening a frame gives */
#define NWK_OPENED_RECORD 182
#define NWK_OPENED_REFUSAL 0        /* 1 byte: 0, or in a burst a refused frame's number with zeros in the rest */
#define NWK_OPENED_MARK 1           /* 1 byte: one of the marks below */
#define NWK_OPENED_LENGTH 2         /* 2 bytes: of the payload, wherever it stands (nwk_open) */
#define NWK_OPENED_BLOCKS 4         /* 1 byte: 0, for a count of cipher blocks */
#define NWK_OPENED_HAS_NONCE_IEEE 5 /* 1 byte: 1 exactly if the frame was sealed */
#define NWK_OPENED_NONCE_IEEE 6     /* 8 bytes: the auxiliary IEEE, else the header's source; 2 more bytes are 0 */
#define NWK_OPENED_HEADER 16        /* 147 bytes: a header record */
#define NWK_OPENED_AUXILIARY 163    /* 19 bytes: an auxiliary record, with the level as received; absent where the frame was clear */

/* The mark of an opened record. A record of zeros bears none. */
#define NWK_MARK_NONE 0
#define NWK_MARK_CLEAR 1
#define NWK_MARK_SEALED 2

/* What reading a command gives. Only the command's own list counts: relays for 5, link statuses for 8, PAN ids for 9, power list for 13,
 * bytes for 0. Places past a count are 0 on reading and ignored on writing. A bit and a presence byte are 0 or 1.
 *
 * Fields by identifier, each with its offset, and its bytes where they are more than 1:
 *
 *    1 route request: 1: many-to-one, 0 to 3; 2: route request identifier; 3: destination address (2); 5: path cost; 6: presence of the
 *      destination IEEE; 7: it (8)
 *    2 route reply: 1: route request identifier; 2: originator (2); 4: responder (2); 6: path cost; 7: presence of the originator IEEE;
 *      8: it (8); 16: presence of the responder IEEE; 17: it (8)
 *    3 network status: 1: status code, 0 to 0x14; 2: network address (2)
 *    4 leave: 1: rejoin bit; 2: request bit; 3: remove children bit
 *    5 route record: no field
 *    6 rejoin request: 1 to 8: capability bits, alternate PAN coordinator, device type, power source, receiver on when idle, two
 *      reserved, security capability, allocate address
 *    7 rejoin response: 1: network address (2); 3: association status, 0 to 3, 0x80 or 0xF0
 *    8 link status: 1: first frame bit; 2: last frame bit
 *    9 network report: 1: report identifier, 0; 2: extended PAN id (8)
 *   10 network update: 1: stored count, 0 to 31; 2: update identifier, 0; 3: extended PAN id (8); 11: update id; 12: new PAN id (2)
 *   11 end device timeout request: 1: timeout code, 0 to 14; 2: end device configuration
 *   12 end device timeout response: 1: status, 0 to 2; 2: MAC data poll keepalive bit; 3: timeout request keepalive bit; 4: power
 *      negotiation bit
 *   13 link power delta: 1: power type, 0 to 2
 *   14 network commissioning request: 1: commissioning type, 0 or 1; 2 to 9: capability bits, as in 6
 *   15 network commissioning response: 1: network address (2); 3: association status, 0 to 3, 0x80 or 0xF0
 */
#define NWK_COMMAND_RECORD 535
#define NWK_COMMAND_IDENTIFIER 0        /* 1 byte: 1 to 15, or 0 for an unparsed command, which keeps all its bytes */
#define NWK_COMMAND_FIELDS 1            /* 24 bytes: by the identifier as above; the places behind them are 0 and ignored */
#define NWK_COMMAND_RELAY_COUNT 25      /* 1 byte */
#define NWK_COMMAND_RELAYS 26           /* 106 bytes: 53 of 2 bytes */
#define NWK_COMMAND_LINK_COUNT 132      /* 1 byte */
#define NWK_COMMAND_LINKS 133           /* 124 bytes: 31 entries: address 2, incoming cost 1 (0 to 7), outgoing cost 1 (0 to 7) */
#define NWK_COMMAND_PAN_COUNT 257       /* 1 byte */
#define NWK_COMMAND_PANS 258            /* 62 bytes: 31 PAN ids of 2 bytes */
#define NWK_COMMAND_POWER_COUNT 320     /* 1 byte */
#define NWK_COMMAND_POWERS 321          /* 105 bytes: 35 entries: address 2, power delta 1 */
#define NWK_COMMAND_UNPARSED_LENGTH 426 /* 1 byte */
#define NWK_COMMAND_UNPARSED 427        /* 108 bytes: an unparsed command's bytes */

/* ---- headers */

/* Read a header from the front of bytes into a header record. Length: the header's bytes; what is behind them is not looked at.
 * Refusals: 1 bytes over 118; 2 fewer than 8; 3 frame type 2; 4 discovery 3; 5, 6, 7, 8 too few bytes for destination IEEE,
 * source IEEE, multicast control, source route; 18 header shorter than 147. */
uint64_t nwk_read_header(const uint8_t *bytes, size_t bytes_len, uint8_t *header, size_t header_len);

/* Write the header of a record to out. Length: the bytes written. Refusals: 13 the record; 28 a presence bit that disagrees with its
 * field (nwk_set_presence_bits); 17 more than 118 bytes; 18 out shorter. */
uint64_t nwk_write_header(const uint8_t *header, size_t header_len, uint8_t *out, size_t out_len);

/* Read an auxiliary header from the front of bytes into an auxiliary record, its presence byte 1. Length: its bytes. Refusals: 1 bytes
 * over 118; 9 fewer than 6; 10 and 11 too few bytes with extended nonce, below 13 and exactly 13; 18 auxiliary shorter than 19. */
uint64_t nwk_read_auxiliary(const uint8_t *bytes, size_t bytes_len, uint8_t *auxiliary, size_t auxiliary_len);

/* Write the auxiliary header of a record to out, its extended nonce bit as it is. Length: the bytes written. Refusals: 13 the record, also
 * where its presence byte is 0; 18 out shorter. */
uint64_t nwk_write_auxiliary(const uint8_t *auxiliary, size_t auxiliary_len, uint8_t *out, size_t out_len);

/* ---- frames */

/* Read a frame into a header record and an auxiliary record, which is absent, all zeros, where the security bit is off. Length: the bytes
 * of both headers; the payload, or ciphertext with MIC, is the rest of bytes. Refusals: 1 to 8 as nwk_read_header; 9 to 11 as
 * nwk_read_auxiliary where the security bit is set; 12 an unsecured payload over 108; 18 header shorter than 147 or auxiliary
 * shorter than 19. */
uint64_t nwk_read_frame(const uint8_t *bytes, size_t bytes_len, uint8_t *header, size_t header_len, uint8_t *auxiliary,
    size_t auxiliary_len);

/* Write a frame without a key to out: the header of a record, then the payload; no auxiliary header. Length: the frame's bytes.
 * The security bit is written as it is. Refusals: 13 the record; 28 as nwk_write_header; 17 a payload over 108 or a frame over 118; 18
 * out shorter. */
uint64_t nwk_write_frame(const uint8_t *header, size_t header_len, const uint8_t *payload, size_t payload_len, uint8_t *out,
    size_t out_len);

/* Seal a frame to out. Length: the frame's bytes. level is authenticated and 0 is sent; the auxiliary record's own does not matter. When
 * the fields are filled in, three lines set the bits:
 *
 *   nwk_set_presence_bits(header);
 *   header[NWK_HEADER_SECURITY_BIT] = 1;
 *   auxiliary[NWK_AUXILIARY_EXTENDED_NONCE_BIT] = auxiliary[NWK_AUXILIARY_HAS_IEEE];
 *
 * Refusals: 29 level; 13 a record; 28 as nwk_write_header, or the security bit is off; 14 the auxiliary record's presence byte is 0; 28
 * the extended nonce bit disagrees with the auxiliary IEEE; 15 neither record has an IEEE for the nonce (the auxiliary one, else the
 * header's source); 21 the counter is FFFFFFFF, which receivers throw away; 17 a payload over 108 or a frame over 118; 18 out
 * shorter. */
uint64_t nwk_seal(uint64_t level, uint64_t key_first, uint64_t key_second, const uint8_t *header, size_t header_len,
    const uint8_t *auxiliary, size_t auxiliary_len, const uint8_t *payload, size_t payload_len, uint8_t *out, size_t out_len);

/* Open a frame into an opened record and out. Length: the payload's bytes. Look at NWK_CLEAR(answer) before you take the payload:
 *
 *   0  the frame was sealed: its payload is authenticated and stands in the first bytes of out.
 *   1  the frame was clear, its security bit off: anyone may have sent it. Its payload stands in the last bytes of bytes; out is not
 *      touched, and may be shorter than the length, or empty.
 *
 * nwk_payload gives the address in either case. A payload of type 1 is a command, sealed or clear (nwk_payload_kind). Refusals: 29
 * level, also of a clear frame; 1 to 12 as nwk_read_frame; of a sealed frame 15 no IEEE for the nonce, 16 fewer bytes than the
 * MIC's behind the headers, 18 out shorter than the payload; of any frame 18 opened shorter than 182; of a sealed frame 19 the MIC is
 * not the one computed. */
uint64_t nwk_open(uint64_t level, uint64_t key_first, uint64_t key_second, const uint8_t *bytes, size_t bytes_len,
    uint8_t *opened, size_t opened_len, uint8_t *out, size_t out_len);

/* Open a burst: up to 16 frames under one key and level, frames being their bytes end to end and lengths the bytes of each. Length: the
 * number of frames, which may be 0. Refusals: 20 more than 16 lengths, lengths whose sum is not frames_len, out shorter than 108 times
 * lengths_count, or fewer answers than lengths. A refused frame does not stop the next one; at any other level each is refused by 29.
 * Afterwards answers[k] is the opened record of frame k (from 0), and the 108 bytes of out from 108 * k are its part: both as nwk_open
 * leaves them for that frame and part alone, but that a refused frame's record is its number and zeros. Other records and bytes stay. */
uint64_t nwk_open_burst(uint64_t level, uint64_t key_first, uint64_t key_second, const uint8_t *frames, size_t frames_len,
    const uint16_t *lengths, size_t lengths_count, uint8_t (*answers)[NWK_OPENED_RECORD], size_t answers_count, uint8_t *out,
    size_t out_len);

/* Where the payload is that nwk_open, or nwk_open_burst, spoke of: by the mark in the opened record, the payload's length and the
 * frame's. Length: the payload's bytes, 0 for NWK_MARK_NONE. NWK_CLEAR(answer) is 1 if they are in the frame, from
 * NWK_FIRST(answer) on, and 0 if they are at the front of out. Refusals: 1 a payload or a frame over 118; 13 a mark above 2. */
uint64_t nwk_payload_place(uint8_t mark, uint64_t length, uint64_t frame_length);

#define NWK_PAYLOAD_OPAQUE 0
#define NWK_PAYLOAD_COMMAND 1

/* What the payload of a frame of this type is, in place of the length: NWK_PAYLOAD_COMMAND for type 1, else NWK_PAYLOAD_OPAQUE.
 * Refusals: 13 a code that is no frame type: 2 or above 3. */
uint64_t nwk_payload_kind(uint8_t frame_type);

/* ---- senders: the frame counters of those whose frames arrive, so that none is taken twice
 *
 * The caller keeps a list of sender records, all zeros at first, and lends it to one call at a time. Its first NWK_MAX_SENDERS places
 * count: others are neither looked at nor changed. Where a list names a sender twice, the first record counts.
 *
 * For each frame that nwk_open marks as sealed: ask for the key, with NWK_OPENED_NONCE_IEEE, key sequence number and counter; if nothing
 * is refused, note the counter and take the payload. Never note before opening: anyone could shut the sender out. */

/* A sender record, 16 bytes: 3 bytes of padding at its end, ignored. */
struct nwk_sender {
  uint64_t address; /* the sender's IEEE, its first byte on the wire lowest (nwk_get64); 0 is an address like others */
  uint32_t counter; /* the counter that was noted last */
  uint8_t used;     /* 0: the place is free and names nobody, whatever is left in it. Any other value: it is used */
};

/* Does not compile where a record has another layout than the functions were compiled for. */
typedef char nwk_sender_has_16_bytes
    [sizeof(struct nwk_sender) == 16 && offsetof(struct nwk_sender, counter) == 8 && offsetof(struct nwk_sender, used) == 12 ? 1 : -1];

/* Ask for the key of a frame that arrived: key is then the active key's 16 bytes. Length: 16. Refusals: 22 key_sequence_number is not
 * active_key_sequence_number; 23 frame_counter is FFFFFFFF, or the list names the sender and it is not above the stored counter. The
 * list is as it was. */
uint64_t nwk_inbound_network_key(uint64_t key_first, uint64_t key_second, uint8_t active_key_sequence_number,
    struct nwk_sender *senders, size_t senders_count, uint64_t sender, uint8_t key_sequence_number, uint32_t frame_counter,
    uint8_t key[16]);

/* Note the counter of a frame that was opened, also a lower one. Where NWK_KNOWN(answer) is 1 the sender was known, and in place of
 * the length stands the counter that was stored, which may be 0; else the sender is new and took the first free place. After
 * FFFFFFFF no counter of that sender is above the stored one. Refusals: 24 the sender is new and no place that counts is free.
 * Afterwards the sender's record has used 1, its address and this counter. No other record has changed. */
uint64_t nwk_note_inbound_frame_counter(struct nwk_sender *senders, size_t senders_count, uint64_t sender, uint32_t frame_counter);

/* Forget a sender: every place that counts and names it becomes free, all zeros. Length: 0. Nothing is refused, and nothing else
 * changes. */
uint64_t nwk_forget_sender(struct nwk_sender *senders, size_t senders_count, uint64_t sender);

/* ---- journal: counters that survive a power cut
 *
 * A journal is a row of records end to end, each a kind byte and a body of the length that the kind fixes, numbers least significant
 * byte first:
 *
 *   kind                          body                                                    bytes in all
 *   1  NWK_JOURNAL_CEILING        a ceiling (4): counters up to it may be handed out                 5
 *   2  NWK_JOURNAL_SENDER         a sender's IEEE (8), in wire order, and its counter (4)           13
 *   3  NWK_JOURNAL_KEY_NUMBER     the active key number (1)                                          2
 *
 * A power cut may leave the last record incomplete: it counts for nothing, but its kind is looked at. The host keeps the journal where
 * it survives a cut and lends it whole to each call. The store is to keep what it said that it has, and of an append that a cut hits
 * nothing or its first bytes. A disk may show a file's length before its bytes, which read as 0 then, and lose, reorder or tear what
 * was not flushed. On a disk, therefore:
 *
 *   begin     an empty journal once, on purpose. Where there is none at a start that is an error: counters would come again
 *   start     1. lend the first nwk_finished_journal(..) bytes to nwk_recover_journal
 *             2. put a shrunk journal in the place of the file (nwk_shrink_journal). Never append to the file that was there, nor
 *                after an error in writing or flushing: the system may show bytes of it that are not on disk
 *   append    1. see that the name still leads to the file, and stop for good where it does not
 *             2. write what nwk_write_journal_record wrote behind the complete records, with 0 in place of its kind, and wait
 *                until the disk has it
 *             3. write the kind, and wait again: only then does the record count
 *             Those of a burst may go together, NWK_JOURNAL_APPEND bytes at most, with 0 in place of the first kind alone
 *   a frame   1. open it  2. ask nwk_inbound_network_key  3. note its counter in the list  4. append the sender's record  5. hand it
 *             on. A cut before 4 is done costs the frame, unless it is sent again; one behind it costs it for good. Handing on
 *             before 4 loses none, and may take a recorded one twice
 *
 * The last counter is the recovered ceiling after each nwk_recover_journal, and from then on the one handed out last. A host that
 * reserves 1,000 counters at a time writes a ceiling of the last counter + 1,000, hands out those up to it, and writes the next. Where
 * no other writer extended the journal from empty, no counter is handed out twice, whatever byte the power failed at; those between
 * the last one and the ceiling are lost. No record says that a sender was forgotten: a host that forgets one writes the records of the
 * others to a new journal, which takes the place of the old one. What the sender sent before is then taken once more. */
#define NWK_JOURNAL_CEILING 1
#define NWK_JOURNAL_SENDER 2
#define NWK_JOURNAL_KEY_NUMBER 3

/* The length of the longest record; of the longest journal that nwk_shrink_journal writes, a key number, a ceiling and 64 senders; and
 * the most bytes that are appended at once, the senders of a burst. */
#define NWK_JOURNAL_RECORD 13
#define NWK_SHRUNK_JOURNAL 839
#define NWK_JOURNAL_APPEND 208

/* Recover what a journal says, after each start. In place of the length: the largest ceiling, 0 if there is none. NWK_KNOWN(answer)
 * tells whether there is a key number, NWK_KEY_NUMBER(answer) the last one. Refusals: 25 a record's kind is not 1 to 3, also that of
 * an incomplete last one; 24 a 65th sender, or one past the places of the list.
 * Afterwards the list names each sender once, by first appearance, with its last counter; places left over that count are all zeros.
 * *complete is the length of the complete records: nothing is appended while there is anything behind them. */
uint64_t nwk_recover_journal(const uint8_t *journal, size_t journal_len, struct nwk_sender *senders, size_t senders_count,
    uint64_t *complete);

/* Write the record that is to be appended next to out, alone. kind is NWK_JOURNAL_CEILING with its ceiling in counter, which may be
 * lower than others, NWK_JOURNAL_SENDER with sender and counter, or NWK_JOURNAL_KEY_NUMBER with key_number; other arguments mean nothing.
 * Length: 5, 13 or 2. Refusals: 25 a record of the journal, or kind, is not of kind 1 to 3; 24 the journal with the new record names more
 * than 64 senders, whatever kind is to be written; 18 out shorter. */
uint64_t nwk_write_journal_record(const uint8_t *journal, size_t journal_len, uint8_t kind, uint64_t sender, uint32_t counter,
    uint8_t key_number, uint8_t *out, size_t out_len);

/* Hand out the next counter. In place of the length: last + 1, which is last of the next call. Refusals: 25 as nwk_recover_journal; 26
 * last is FFFFFFFE or above; 27 no complete ceiling record of the journal is at least last + 1: write one, and ask again. */
uint64_t nwk_next_counter(const uint8_t *journal, size_t journal_len, uint32_t last);

/* Shrink a journal: write to out the shortest one that recovers to the same ceiling, senders with their counters, and key number or
 * none: the key number, if there is one; the ceiling, if it is above 0; then the senders by rising address bytes, the first on the wire
 * compared first. Length: at most NWK_SHRUNK_JOURNAL. Refusals: 25 as nwk_recover_journal; 24 the journal names more than 64 senders; 18
 * out shorter.
 * The shrunk journal may take the journal's place if nothing was appended meanwhile:
 *
 *   1. write it beside the journal, and wait until the store has it whole; never use one that was left over
 *   2. put it in the journal's place in one step, such as renaming a file
 *   3. wait until the store has it so (flush the folder): only then append to it
 *
 * A cut before step 2 leaves the old journal. The last counter stays what it was. */
uint64_t nwk_shrink_journal(const uint8_t *journal, size_t journal_len, uint8_t *out, size_t out_len);

/* ---- commands */

/* Read a command from the whole of bytes into a command record. Bytes that are no typed command are not refused: the command is then
 * unparsed, identifier 0, with all its bytes. Bytes behind a typed command are dropped. Length: 535. Refusals: 12 bytes over 108; 18
 * command shorter than 535. */
uint64_t nwk_read_command(const uint8_t *bytes, size_t bytes_len, uint8_t *command, size_t command_len);

/* Write the command of a record to out. Length: the command's bytes. Refusals: 13 the record; 17 more than 108 bytes, which for an
 * unparsed command is a length over 108; 18 out shorter. */
uint64_t nwk_write_command(const uint8_t *command, size_t command_len, uint8_t *out, size_t out_len);

/* The seconds of an end device timeout code, in place of the length: 10 for code 0, 60 times 2 to the power n for n of 1 to 14.
 * Refusals: 13 a code above 14. */
uint64_t nwk_timeout_seconds(uint8_t code);

/* ---- CCM and AES alone */

/* Seal a payload with CCM (SP 800-38C, AES-128): out is then the ciphertext and mic level's MIC. Length: the payload's. Refusals: 29
 * level; 1 auth or payload over 127; 18 out shorter than the payload. */
uint64_t nwk_encrypt_ccm(uint64_t level, uint64_t key_first, uint64_t key_second, const uint8_t nonce[13], const uint8_t *auth,
    size_t auth_len, const uint8_t *payload, size_t payload_len, uint8_t *out, size_t out_len, uint8_t mic[16]);

/* Open a ciphertext with level's MIC: out is then the payload. Length: the payload's. Refusals: 29 level; 1 auth or ciphertext over 127;
 * 18 out shorter than the ciphertext; 19 the MIC is not the one computed. */
uint64_t nwk_decrypt_ccm(uint64_t level, uint64_t key_first, uint64_t key_second, const uint8_t nonce[13], const uint8_t *auth,
    size_t auth_len, const uint8_t *ciphertext, size_t ciphertext_len, const uint8_t mic[16], uint8_t *out, size_t out_len);

/* Take the MIC, the last bytes, off ciphertext with MIC: front is then the length of the ciphertext before it, whatever that is. Length:
 * the MIC's, 4, 8 or 16 by level. Refusals: 29 level; 16 fewer bytes. */
uint64_t nwk_split_mic(uint64_t level, const uint8_t *bytes, size_t bytes_len, uint8_t mic[16], uint64_t *front);

/* One block of AES-128 (FIPS 197). Length: 16. Nothing is refused. */
uint64_t nwk_encrypt_block(uint64_t key_first, uint64_t key_second, const uint8_t block[16], uint8_t out[16]);

/* ---- helpers */

/* A refusal's condition in words; "accepted" for 0. */
static inline const char *nwk_refusal_text(uint8_t refusal) {
  static const char *const texts[] = {
      "accepted",
      "a frame, or the bytes given to read a header or an auxiliary header, are more than 118; or "
      "authenticated data or a payload handed to CCM alone is more than 127",
      "a header has fewer than 8 bytes",
      "the frame type is 2",
      "discovery is 3",
      "fewer than 8 bytes remain for a destination IEEE",
      "fewer than 8 bytes remain for a source IEEE",
      "no byte remains for multicast control",
      "a source route has fewer than 2 + 2n bytes for its n relays, or fewer than 2",
      "an auxiliary header has fewer than 6 bytes",
      "an auxiliary header with extended nonce has 6 to 12 bytes",
      "an auxiliary header with extended nonce has exactly 13 bytes",
      "an unsecured payload, or a command to read, has more than 108 bytes",
      "a field to write exceeds its bits or has an undeclared code, or a list exceeds its places",
      "sealing has no auxiliary header",
      "sealing or opening has neither an auxiliary nor a header source IEEE",
      "ciphertext with MIC has fewer bytes than the tag",
      "the bytes to write exceed 118 for a header or frame, or 108 for a payload, alone or in a frame",
      "the lent output is shorter than what is to be written",
      "the MIC is not the one computed",
      "a burst has more than 16 lengths, they do not add up to the bytes lent, the output is shorter than 108 times "
      "their number, or the list for the answers is shorter than their number",
      "the counter to be sealed is FFFFFFFF",
      "the key sequence number is not the active one",
      "the frame counter is FFFFFFFF or not above the sender's stored one",
      "the sender is new and no place is free, or a journal names more senders than 64 or than the list has places",
      "a record of a journal, or the one to be written, has a kind that is not 1 to 3",
      "the last counter is FFFFFFFE or above",
      "no complete ceiling record of the journal covers the next counter",
      "one of bits 8, 10, 11 and 12 of frame control disagrees with its field, or in sealing bit 9 is off or the "
      "extended nonce bit disagrees with the auxiliary IEEE",
      "the network's level is not 5, 6 or 7",
  };
  return refusal < sizeof texts / sizeof texts[0] ? texts[refusal] : "a number that the list does not have";
}

/* The two numbers of a key. */
struct nwk_key {
  uint64_t first, second;
};

static inline struct nwk_key nwk_key_of(const uint8_t bytes[16]) {
  struct nwk_key key = {0, 0};
  for (int i = 7; i >= 0; i--) {
    key.first = key.first << 8 | bytes[i];
    key.second = key.second << 8 | bytes[8 + i];
  }
  return key;
}

/* Set the multicast, source route and IEEE bits of a header record, each exactly where its field is present (28). */
static inline void nwk_set_presence_bits(uint8_t *header) {
  header[NWK_HEADER_MULTICAST_BIT] = header[NWK_HEADER_HAS_MULTICAST];
  header[NWK_HEADER_SOURCE_ROUTE_BIT] = header[NWK_HEADER_HAS_SOURCE_ROUTE];
  header[NWK_HEADER_DESTINATION_IEEE_BIT] = header[NWK_HEADER_HAS_DESTINATION_IEEE];
  header[NWK_HEADER_SOURCE_IEEE_BIT] = header[NWK_HEADER_HAS_SOURCE_IEEE];
}

/* Where the payload is that an answer of nwk_open speaks of, NWK_LENGTH(answer) bytes: in bytes if the frame was clear, in out if it
 * was sealed, NULL beside a refusal. bytes, bytes_len and out are those of that call. */
static inline const uint8_t *nwk_payload(uint64_t answer, const uint8_t *bytes, size_t bytes_len, const uint8_t *out) {
  if (NWK_REFUSAL(answer) != NWK_ACCEPTED) {
    return NULL;
  }
  const uint64_t place = nwk_payload_place(NWK_CLEAR(answer) ? NWK_MARK_CLEAR : NWK_MARK_SEALED, NWK_LENGTH(answer), bytes_len);
  return NWK_CLEAR(place) ? bytes + NWK_FIRST(place) : out;
}

/* The length of a journal without an append that a power cut left unfinished: a tail that begins with 0 and has at most
 * NWK_JOURNAL_APPEND bytes. A longer one is no append: the whole length is given, and the journal is refused by 25. */
static inline size_t nwk_finished_journal(const uint8_t *journal, size_t journal_len) {
  static const uint8_t lengths[] = {0, 5, NWK_JOURNAL_RECORD, 2};
  size_t end = 0;
  while (end < journal_len && journal[end] >= NWK_JOURNAL_CEILING && journal[end] <= NWK_JOURNAL_KEY_NUMBER &&
         lengths[journal[end]] <= journal_len - end) {
    end += lengths[journal[end]];
  }
  const int unfinished = end < journal_len && journal[end] == 0 && journal_len - end <= NWK_JOURNAL_APPEND;
  return unfinished ? end : journal_len;
}

/* A number of two, four or eight bytes in a record, which has the least significant byte first. */
static inline uint16_t nwk_get16(const uint8_t *at) { return NWK_CAST(uint16_t, at[0] | at[1] << 8); }

static inline uint32_t nwk_get32(const uint8_t *at) {
  return nwk_get16(at) | NWK_CAST(uint32_t, nwk_get16(at + 2)) << 16;
}

static inline uint64_t nwk_get64(const uint8_t *at) {
  return nwk_get32(at) | NWK_CAST(uint64_t, nwk_get32(at + 4)) << 32;
}

static inline void nwk_put16(uint8_t *at, uint16_t number) {
  at[0] = NWK_CAST(uint8_t, number & 0xFF);
  at[1] = NWK_CAST(uint8_t, number >> 8);
}

static inline void nwk_put32(uint8_t *at, uint32_t number) {
  nwk_put16(at, NWK_CAST(uint16_t, number & 0xFFFF));
  nwk_put16(at + 2, NWK_CAST(uint16_t, number >> 16));
}

#ifdef __cplusplus
}
#endif

#include "nwk_null.h"

#endif
