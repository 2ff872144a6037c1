/* What nwk.h adds to the functions: names, texts, the key's two numbers, where a payload is, presence bits, a list of senders, a
 * journal, and NULL for an empty slice. It is C and C++, and host/tests/c_header.rs compares what it prints.
 *
 *   cc -std=c11 -Wall -Wextra -Iinclude tests/header.c target/staticlib/libnwk.a -o header && ./header
 *   g++ -x c++ -Wall -Wextra -Wold-style-cast -Iinclude tests/header.c -x none target/staticlib/libnwk.a -o header && ./header
 */
#include "nwk.h"

#include <inttypes.h>
#include <stdio.h>
#include <string.h>

static void print_texts(void) {
  for (unsigned number = 0; number <= 30; number++) {
    printf("%u %s\n", number, nwk_refusal_text(NWK_CAST(uint8_t, number)));
  }
}

static void print_key(void) {
  uint8_t bytes[16];
  for (unsigned i = 0; i < sizeof bytes; i++) {
    bytes[i] = NWK_CAST(uint8_t, 0xC0 + i);
  }
  const struct nwk_key key = nwk_key_of(bytes);
  printf("key %016" PRIX64 " %016" PRIX64 "\n", key.first, key.second);
}

static void print_numbers(void) {
  uint8_t bytes[8];
  nwk_put32(bytes, 0xA1B2C3D4u);
  nwk_put32(bytes + 4, 0xE5F60718u);
  printf("put %02X%02X%02X%02X get %" PRIX32 " %X %" PRIX64 "\n", bytes[0], bytes[1], bytes[2], bytes[3], nwk_get32(bytes),
         nwk_get16(bytes + 2), nwk_get64(bytes));
}

static const char *kind_of(uint8_t frame_type) {
  const uint64_t answer = nwk_payload_kind(frame_type);
  if (NWK_REFUSAL(answer) != NWK_ACCEPTED) {
    return "refused";
  }
  switch (NWK_LENGTH(answer)) {
  case NWK_PAYLOAD_OPAQUE:
    return "opaque";
  case NWK_PAYLOAD_COMMAND:
    return "command";
  default:
    return "unknown";
  }
}

/* The payloads of the frame types 0 to 4, by the names of their kinds. */
static void print_kinds(void) {
  printf("payloads");
  for (unsigned type = 0; type <= 4; type++) {
    printf(" %s", kind_of(NWK_CAST(uint8_t, type)));
  }
  printf("\n");
}

/* The mark in an answer, and the marks of a record. */
static void print_marks(void) {
  const uint64_t clear = NWK_CAST(uint64_t, 1) << 40;
  printf("marks %u %u %u clear %u %u %u %u\n", NWK_MARK_NONE, NWK_MARK_CLEAR, NWK_MARK_SEALED, NWK_CLEAR(clear | 16),
         NWK_LENGTH(clear | 16), NWK_REFUSAL(clear | 16), NWK_CLEAR(~clear));
}

/* Opens a frame that has so many bytes, and says where nwk_payload finds the payload: so far into the frame, in the output, or
 * nowhere. */
static void print_place(const char *name, const uint8_t *frame, size_t n, uint8_t *out, size_t room) {
  uint8_t record[NWK_OPENED_RECORD] = {0};
  const uint64_t answer = nwk_open(NWK_LEVEL_ENC_MIC_32, 0, 0, frame, n, record, sizeof record, out, room);
  const uint8_t *payload = nwk_payload(answer, frame, n, out);
  printf("%s %u clear %u mark %u length %u %u payload", name, NWK_REFUSAL(answer), NWK_CLEAR(answer), record[NWK_OPENED_MARK],
         NWK_LENGTH(answer), nwk_get16(record + NWK_OPENED_LENGTH));
  if (payload == NULL) {
    printf(" nowhere\n");
  } else if (payload == out) {
    printf(" in out\n");
  } else {
    printf(" from %u\n", NWK_CAST(unsigned, payload - frame));
  }
}

/* A clear frame with a payload and one without, each without an output, a sealed frame, and the same one damaged. */
static void print_payloads(void) {
  uint8_t header[NWK_HEADER_RECORD] = {0};
  uint8_t auxiliary[NWK_AUXILIARY_RECORD] = {0};
  const uint8_t payload[3] = {1, 2, 3};
  uint8_t frame[NWK_MAX_FRAME] = {0};
  uint8_t out[NWK_MAX_PAYLOAD] = {0};
  uint32_t n = NWK_LENGTH(nwk_write_frame(header, sizeof header, payload, sizeof payload, frame, sizeof frame));
  print_place("clear", frame, n, NULL, 0);
  print_place("clear_with_room", frame, n, out, sizeof out);
  print_place("clear_empty", frame, n - 3, NULL, 0);
  header[NWK_HEADER_SECURITY_BIT] = 1;
  auxiliary[NWK_AUXILIARY_PRESENT] = 1;
  auxiliary[NWK_AUXILIARY_EXTENDED_NONCE_BIT] = 1;
  auxiliary[NWK_AUXILIARY_HAS_IEEE] = 1;
  n = NWK_LENGTH(nwk_seal(NWK_LEVEL_ENC_MIC_32, 0, 0, header, sizeof header, auxiliary, sizeof auxiliary, payload, sizeof payload,
                          frame, sizeof frame));
  print_place("sealed", frame, n, out, sizeof out);
  print_place("sealed_no_room", frame, n, NULL, 0);
  frame[n - 1] ^= 1;
  print_place("damaged", frame, n, out, sizeof out);
}

static void print_answer(const char *name, uint64_t answer) {
  printf("%s %u %u\n", name, NWK_REFUSAL(answer), NWK_LENGTH(answer));
}

/* The four bits that nwk_set_presence_bits sets for each choice of fields, whatever they were before. */
static void print_bits(void) {
  printf("bits");
  for (unsigned fields = 0; fields < 16; fields++) {
    uint8_t header[NWK_HEADER_RECORD];
    memset(header, fields % 2 == 0 ? 1 : 0, sizeof header);
    header[NWK_HEADER_HAS_MULTICAST] = fields & 1;
    header[NWK_HEADER_HAS_SOURCE_ROUTE] = fields >> 1 & 1;
    header[NWK_HEADER_HAS_DESTINATION_IEEE] = fields >> 2 & 1;
    header[NWK_HEADER_HAS_SOURCE_IEEE] = fields >> 3 & 1;
    nwk_set_presence_bits(header);
    printf(" %u%u%u%u", header[NWK_HEADER_MULTICAST_BIT], header[NWK_HEADER_SOURCE_ROUTE_BIT],
           header[NWK_HEADER_DESTINATION_IEEE_BIT], header[NWK_HEADER_SOURCE_IEEE_BIT]);
  }
  printf("\n");
}

/* Seals one byte and opens it again: the answer, the mark, and how the opened header compares with the one handed over. */
static void print_sealed(const char *name, const uint8_t *header, const uint8_t *auxiliary) {
  const uint8_t payload[1] = {0xAA};
  uint8_t frame[NWK_MAX_FRAME] = {0};
  uint8_t record[NWK_OPENED_RECORD] = {0};
  uint8_t out[NWK_MAX_PAYLOAD] = {0};
  const uint64_t answer = nwk_seal(NWK_LEVEL_ENC_MIC_32, 0, 0, header, NWK_HEADER_RECORD, auxiliary, NWK_AUXILIARY_RECORD, payload,
                                   sizeof payload, frame, sizeof frame);
  if (NWK_REFUSAL(answer) != NWK_ACCEPTED) {
    print_answer(name, answer);
    return;
  }
  nwk_open(NWK_LEVEL_ENC_MIC_32, 0, 0, frame, NWK_LENGTH(answer), record, sizeof record, out, sizeof out);
  printf("%s %u %u mark %u header %d\n", name, NWK_REFUSAL(answer), NWK_LENGTH(answer), record[NWK_OPENED_MARK],
         memcmp(record + NWK_OPENED_HEADER, header, NWK_HEADER_RECORD));
}

/* Records of zeros with an address and an auxiliary header marked as present, then with the bits of nwk_seal's comment one by one. */
static void print_presence_bits(void) {
  print_bits();
  uint8_t header[NWK_HEADER_RECORD] = {0};
  uint8_t auxiliary[NWK_AUXILIARY_RECORD] = {0};
  uint8_t out[NWK_MAX_FRAME] = {0};
  header[NWK_HEADER_HAS_SOURCE_IEEE] = 1;
  nwk_put32(header + NWK_HEADER_SOURCE_IEEE, 0x1CA1B2C3u);
  auxiliary[NWK_AUXILIARY_PRESENT] = 1;
  print_answer("write_without_bit", nwk_write_header(header, sizeof header, out, sizeof out));
  print_sealed("seal_without_bit", header, auxiliary);
  nwk_set_presence_bits(header);
  print_sealed("seal_unsecured", header, auxiliary);
  header[NWK_HEADER_SECURITY_BIT] = 1;
  print_sealed("seal_with_bits", header, auxiliary);
  auxiliary[NWK_AUXILIARY_HAS_IEEE] = 1;
  print_sealed("seal_without_extended_nonce", header, auxiliary);
  auxiliary[NWK_AUXILIARY_EXTENDED_NONCE_BIT] = auxiliary[NWK_AUXILIARY_HAS_IEEE];
  print_sealed("seal_with_extended_nonce", header, auxiliary);
}

/* An answer about a sender, and the two places of the list afterwards. */
static void print_senders(const char *name, uint64_t answer, const struct nwk_sender *list) {
  printf("%s %u %" PRIu32 " known %u:", name, NWK_REFUSAL(answer), NWK_LENGTH(answer), NWK_KNOWN(answer));
  for (size_t i = 0; i < 2; i++) {
    printf(" %u %" PRIX64 " %" PRIX32, list[i].used, list[i].address, list[i].counter);
  }
  printf("\n");
}

/* The record's layout, the mark of a known sender, and the three functions over a list of two places. */
static void print_inbound(void) {
  const uint64_t known = NWK_CAST(uint64_t, 1) << 41;
  printf("sender %zu %zu %zu %zu of %d known %u %" PRIu32 " %u %u\n", sizeof(struct nwk_sender),
         offsetof(struct nwk_sender, address), offsetof(struct nwk_sender, counter), offsetof(struct nwk_sender, used),
         NWK_MAX_SENDERS, NWK_KNOWN(known | 16), NWK_LENGTH(known | 16), NWK_CLEAR(known), NWK_KNOWN(~known));
  const uint64_t probe = UINT64_C(0x00124B001CA1B2C3);
  struct nwk_sender list[2] = {{0, 0, 0}, {0, 0, 0}};
  print_senders("note_new", nwk_note_inbound_frame_counter(list, 2, probe, 0), list);
  print_senders("note_known", nwk_note_inbound_frame_counter(list, 2, probe, 0xFFFFFFFEu), list);
  print_senders("note_lower", nwk_note_inbound_frame_counter(list, 2, probe, 7), list);
  print_senders("note_other", nwk_note_inbound_frame_counter(list, 2, 0, 1), list);
  print_senders("note_full", nwk_note_inbound_frame_counter(list, 2, 1, 1), list);
  uint8_t key[16] = {0};
  const uint64_t first = UINT64_C(0xC7C6C5C4C3C2C1C0), second = UINT64_C(0xCFCECDCCCBCAC9C8);
  print_senders("ask_number", nwk_inbound_network_key(first, second, 3, list, 2, probe, 4, 8, key), list);
  print_senders("ask_again", nwk_inbound_network_key(first, second, 3, list, 2, probe, 3, 7, key), list);
  printf("no key %02X %02X\n", key[0], key[15]);
  print_senders("ask", nwk_inbound_network_key(first, second, 3, list, 2, probe, 3, 8, key), list);
  printf("key %02X %02X %02X %02X\n", key[0], key[7], key[8], key[15]);
  print_senders("forget", nwk_forget_sender(list, 2, probe), list);
  print_senders("forget_again", nwk_forget_sender(list, 2, probe), list);
  print_senders("note_freed", nwk_note_inbound_frame_counter(list, 2, 1, 1), list);
}

/* An answer about a journal, the complete length, and the two places of the list afterwards. */
static void print_recovered(const char *name, uint64_t answer, uint64_t complete, const struct nwk_sender *list) {
  printf("%s %u %" PRIu32 " known %u %u complete %" PRIu64 ":", name, NWK_REFUSAL(answer), NWK_LENGTH(answer), NWK_KNOWN(answer),
         NWK_KEY_NUMBER(answer), complete);
  for (size_t i = 0; i < 2; i++) {
    printf(" %u %" PRIX64 " %" PRIX32, list[i].used, list[i].address, list[i].counter);
  }
  printf("\n");
}

/* An answer that gives bytes, and these. */
static void print_written(const char *name, uint64_t answer, const uint8_t *bytes) {
  printf("%s %u %u", name, NWK_REFUSAL(answer), NWK_LENGTH(answer));
  for (size_t i = 0; i < NWK_LENGTH(answer); i++) {
    printf(" %02X", bytes[i]);
  }
  printf("\n");
}

/* Writes a record behind the journal's front of this length, and gives the length with it. */
static size_t print_appended(const char *name, uint8_t *journal, size_t n, uint8_t kind, uint64_t sender, uint32_t counter,
                             uint8_t key_number) {
  uint8_t record[NWK_JOURNAL_RECORD] = {0};
  const uint64_t answer = nwk_write_journal_record(journal, n, kind, sender, counter, key_number, record, sizeof record);
  print_written(name, answer, record);
  memcpy(journal + n, record, NWK_LENGTH(answer));
  return n + NWK_LENGTH(answer);
}

/* The key number in an answer, and the four functions over a journal of three records, the last of them whole and cut. */
static void print_journal(void) {
  const uint64_t number = NWK_CAST(uint64_t, 0xA5) << 48;
  printf("journal %d %d %d of %d shrunk %d key number %u %" PRIu32 " %u %u\n", NWK_JOURNAL_CEILING, NWK_JOURNAL_SENDER,
         NWK_JOURNAL_KEY_NUMBER, NWK_JOURNAL_RECORD, NWK_SHRUNK_JOURNAL, NWK_KEY_NUMBER(number | 16), NWK_LENGTH(number | 16),
         NWK_KNOWN(number), NWK_KEY_NUMBER(~number));
  uint8_t journal[4 * NWK_JOURNAL_RECORD] = {0};
  struct nwk_sender list[2] = {{9, 9, 9}, {9, 9, 9}};
  uint64_t complete = 99;
  size_t n = print_appended("write_ceiling", journal, 0, NWK_JOURNAL_CEILING, 7, 0x00010203u, 7);
  n = print_appended("write_sender", journal, n, NWK_JOURNAL_SENDER, UINT64_C(0x00124B001CA1B2C3), 0xFFFFFFFEu, 7);
  n = print_appended("write_key_number", journal, n, NWK_JOURNAL_KEY_NUMBER, 7, 7, 0);
  n = print_appended("write_other", journal, n, 4, 7, 7, 7);
  uint64_t answer = nwk_recover_journal(journal, n, list, 2, &complete);
  print_recovered("recover", answer, complete, list);
  answer = nwk_recover_journal(journal, n - 1, list, 2, &complete);
  print_recovered("recover_cut", answer, complete, list);
  answer = nwk_recover_journal(journal, n + 1, list, 2, &complete);
  print_recovered("recover_zero", answer, complete, list);
  print_answer("next", nwk_next_counter(journal, n, 0x00010202u));
  print_answer("next_used_up", nwk_next_counter(journal, n, 0xFFFFFFFEu));
  print_answer("next_no_ceiling", nwk_next_counter(journal, n, 0x00010203u));
  uint8_t shrunk[NWK_SHRUNK_JOURNAL] = {0};
  print_written("shrink", nwk_shrink_journal(journal, n, shrunk, sizeof shrunk), shrunk);
  print_written("shrink_cut", nwk_shrink_journal(journal, n - 1, shrunk, sizeof shrunk), shrunk);
  print_written("shrink_zero", nwk_shrink_journal(journal, n + 1, shrunk, sizeof shrunk), shrunk);
  print_written("shrink_exact", nwk_shrink_journal(journal, n, shrunk, n), shrunk);
  print_written("shrink_no_room", nwk_shrink_journal(journal, n, shrunk, n - 1), shrunk);
  uint8_t tail[20 + NWK_JOURNAL_APPEND + 1] = {0};
  memcpy(tail, journal, n);
  printf("finished %zu %zu %zu %zu", nwk_finished_journal(tail, n), nwk_finished_journal(tail, n - 1),
         nwk_finished_journal(tail, sizeof tail - 1), nwk_finished_journal(tail, sizeof tail));
  tail[n] = 4;
  printf(" %zu %zu\n", nwk_finished_journal(tail, n + 1), nwk_finished_journal(NULL, 0));
}

/* The levels with the length that the splitter gives a MIC, and the six functions at a level that is none. */
static void print_levels(void) {
  const uint64_t levels[3] = {NWK_LEVEL_ENC_MIC_32, NWK_LEVEL_ENC_MIC_64, NWK_LEVEL_ENC_MIC_128};
  const uint8_t bytes[NWK_MAX_FRAME] = {0};
  const uint8_t nonce[13] = {0};
  const uint16_t lengths[1] = {0};
  uint8_t answers[1][NWK_OPENED_RECORD] = {{0}};
  uint8_t out[NWK_MAX_PAYLOAD] = {0};
  uint8_t mic[NWK_MIC_PLACES] = {0};
  uint64_t front = 0;
  printf("levels");
  for (int i = 0; i < 3; i++) {
    const uint64_t answer = nwk_split_mic(levels[i], bytes, sizeof bytes, mic, &front);
    printf(" %u %u %u", NWK_CAST(unsigned, levels[i]), NWK_LENGTH(answer), NWK_CAST(unsigned, front));
  }
  printf(" of %d\n", NWK_MIC_PLACES);
  const uint64_t none = UINT64_C(1) << 32 | NWK_LEVEL_ENC_MIC_32;
  print_answer("level_seal", nwk_seal(none, 0, 0, NULL, 0, NULL, 0, NULL, 0, NULL, 0));
  print_answer("level_open", nwk_open(none, 0, 0, NULL, 0, NULL, 0, NULL, 0));
  print_answer("level_open_burst", nwk_open_burst(none, 0, 0, NULL, 0, lengths, 1, answers, 1, out, sizeof out));
  printf("its record %u\n", answers[0][NWK_OPENED_REFUSAL]);
  print_answer("level_encrypt_ccm", nwk_encrypt_ccm(none, 0, 0, nonce, NULL, 0, NULL, 0, NULL, 0, mic));
  print_answer("level_decrypt_ccm", nwk_decrypt_ccm(none, 0, 0, nonce, NULL, 0, NULL, 0, mic, NULL, 0));
  print_answer("level_split_mic", nwk_split_mic(none, NULL, 0, mic, &front));
}

/* Bursts without frames, lengths or answers, and one whose only frame has no bytes. */
static void print_empty_bursts(void) {
  const uint8_t bytes[1] = {0};
  const uint16_t lengths[1] = {0};
  uint8_t answers[1][NWK_OPENED_RECORD] = {{0}};
  uint8_t out[NWK_MAX_PAYLOAD] = {0};
  const uint64_t level = NWK_LEVEL_ENC_MIC_32;
  print_answer("open_burst", nwk_open_burst(level, 0, 0, NULL, 0, NULL, 0, NULL, 0, NULL, 0));
  print_answer("open_burst_no_lengths", nwk_open_burst(level, 0, 0, bytes, sizeof bytes, NULL, 0, NULL, 0, NULL, 0));
  print_answer("open_burst_no_answers", nwk_open_burst(level, 0, 0, NULL, 0, lengths, 1, NULL, 0, out, sizeof out));
  print_answer("open_burst_empty_frame", nwk_open_burst(level, 0, 0, NULL, 0, lengths, 1, answers, 1, out, sizeof out));
  printf("its record %u %u\n", answers[0][NWK_OPENED_REFUSAL], nwk_get16(answers[0] + NWK_OPENED_LENGTH));
}

/* Every slice that may be empty is NULL. */
static void print_empty(void) {
  uint8_t header[NWK_HEADER_RECORD] = {0};
  uint8_t auxiliary[NWK_AUXILIARY_RECORD] = {0};
  uint8_t command[NWK_COMMAND_RECORD] = {0};
  uint8_t out[NWK_MAX_FRAME] = {0};
  print_answer("read_header", nwk_read_header(NULL, 0, NULL, 0));
  print_answer("write_header", nwk_write_header(NULL, 0, NULL, 0));
  print_answer("write_header_no_room", nwk_write_header(header, sizeof header, NULL, 0));
  print_answer("read_auxiliary", nwk_read_auxiliary(NULL, 0, auxiliary, sizeof auxiliary));
  print_answer("write_auxiliary", nwk_write_auxiliary(NULL, 0, NULL, 0));
  print_answer("read_frame", nwk_read_frame(NULL, 0, NULL, 0, NULL, 0));
  print_answer("write_frame", nwk_write_frame(header, sizeof header, NULL, 0, out, sizeof out));
  const uint64_t level = NWK_LEVEL_ENC_MIC_32;
  print_answer("seal", nwk_seal(level, 0, 0, header, sizeof header, auxiliary, sizeof auxiliary, NULL, 0, NULL, 0));
  header[NWK_HEADER_SECURITY_BIT] = 1;
  print_answer("seal_secured", nwk_seal(level, 0, 0, header, sizeof header, auxiliary, sizeof auxiliary, NULL, 0, NULL, 0));
  print_answer("read_command", nwk_read_command(NULL, 0, command, sizeof command));
  print_answer("write_command", nwk_write_command(command, sizeof command, NULL, 0));
  print_answer("open", nwk_open(level, 0, 0, NULL, 0, NULL, 0, NULL, 0));
  print_empty_bursts();
  uint8_t key[16] = {0};
  print_answer("inbound_network_key", nwk_inbound_network_key(0, 0, 0, NULL, 0, 0, 0, 0, key));
  print_answer("note_inbound_frame_counter", nwk_note_inbound_frame_counter(NULL, 0, 0, 0));
  print_answer("forget_sender", nwk_forget_sender(NULL, 0, 0));
  uint64_t complete = 99;
  print_answer("recover_journal", nwk_recover_journal(NULL, 0, NULL, 0, &complete));
  printf("its length %" PRIu64 "\n", complete);
  print_answer("write_journal_record", nwk_write_journal_record(NULL, 0, NWK_JOURNAL_CEILING, 0, 0, 0, NULL, 0));
  print_answer("next_counter", nwk_next_counter(NULL, 0, 0));
  print_answer("shrink_journal", nwk_shrink_journal(NULL, 0, NULL, 0));
  uint8_t nonce[13] = {0};
  uint8_t mic[NWK_MIC_PLACES] = {0};
  print_answer("encrypt_ccm", nwk_encrypt_ccm(level, 0, 0, nonce, NULL, 0, NULL, 0, NULL, 0, mic));
  print_answer("decrypt_ccm", nwk_decrypt_ccm(level, 0, 0, nonce, NULL, 0, NULL, 0, mic, NULL, 0));
  uint64_t front = 0;
  print_answer("split_mic", nwk_split_mic(level, NULL, 0, mic, &front));
}

int main(void) {
  printf("version %s %06X\n", NWK_VERSION, NWK_VERSION_NUMBER);
  print_key();
  print_numbers();
  print_kinds();
  print_marks();
  print_payloads();
  print_presence_bits();
  print_inbound();
  print_journal();
  print_levels();
  print_empty();
  print_texts();
  return 0;
}
