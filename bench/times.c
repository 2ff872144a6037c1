#include "times.h"

#include "bursts.h"
#include "codecs.h"
#include "journals.h"
#include "readings.h"
#include "senders.h"
#include "tables.h"

#include <stdio.h>
#include <string.h>

static const size_t lengths[] = {5, 16, 32, 50, 64, 83};
#define LENGTHS (sizeof lengths / sizeof lengths[0])

/* A message of each length, and one at level 7 behind them. */
#define AT_LEVEL_7 LENGTHS
#define MESSAGES (LENGTHS + 1)
#define LENGTH_AT_LEVEL_7 64

static struct message messages[MESSAGES];

static void make_messages(void) {
  for (size_t i = 0; i < LENGTHS; i++) {
    make_message(&messages[i], lengths[i]);
  }
  make_message_at_level_7(&messages[AT_LEVEL_7], LENGTH_AT_LEVEL_7);
}

/* Run a call once and compare what it puts out. */
static void check(call *run, struct message *m, const uint8_t *expected, size_t n, const char *what, const char *who) {
  if (!run) {
    return;
  }
  memset(m->out, 0, sizeof m->out);
  if (!run(m) || memcmp(m->out, expected, n) != 0) {
    fail(what, who);
  }
}

/* The codec's frame is what every implementation is held to: ciphertext and MIC behind the headers. */
static void check_codec(const struct codec *c, struct message *m) {
  check(c->seal, m, m->sealed, m->length + m->mic_length, "ciphertext or MIC differ from nwk_seal's", c->name);
  check(c->open, m, m->payload, m->length, "the opened payload differs", c->name);
  if (c->set_key) {
    if (!c->set_key(m)) {
      fail("the key was not set up", c->name);
    }
    check(c->seal_kept, m, m->sealed, m->length + m->mic_length, "ciphertext or MIC differ, key kept", c->name);
    check(c->open_kept, m, m->payload, m->length, "the opened payload differs, key kept", c->name);
  }
}

static void check_block(const struct codec *c, struct message *m, const uint8_t *expected) {
  check(c->block, m, expected, BLOCK_LENGTH, "the block differs from nwk_encrypt_block's", c->name);
  check(c->block_kept, m, expected, BLOCK_LENGTH, "the block differs, key kept", c->name);
}

static void check_all(void) {
  for (size_t i = 0; i < MESSAGES; i++) {
    struct message *m = &messages[i];
    check_codec(&ours, m);
    check_codec(&nettle, m);
    check_codec(&mbedtls, m);
    check_codec(&wolfssl, m);
    check(seal_frame, m, m->frame, m->frame_length, "the frame differs", "nwk_seal");
    check(open_frame, m, m->payload, m->length, "the opened payload differs", "nwk_open");
  }
  struct message *m = &messages[LENGTHS - 1];
  uint8_t expected[BLOCK_LENGTH];
  if (!ours.block(m)) {
    fail("refused", "nwk_encrypt_block");
  }
  memcpy(expected, m->out, sizeof expected);
  check_block(&nettle, m, expected);
  check_block(&mbedtls, m, expected);
  check_block(&wolfssl, m, expected);
}

/* A row of the codec's call on a message, and of the same call of each peer, in the order of the columns. */
struct calls {
  call *of[COLUMNS];
};

static struct row row_of(const char *label, struct message *m, const struct calls *calls) {
  struct row row = {.label = ""};
  for (size_t c = 0; c < COLUMNS; c++) {
    row.jobs[c] = (struct job){.run = calls->of[c], .input = m};
  }
  snprintf(row.label, sizeof row.label, "%s", label);
  return row;
}

static struct row row_for_message(size_t i, const struct calls *calls) {
  char label[32];
  snprintf(label, sizeof label, i == AT_LEVEL_7 ? "%zu, level 7" : "%zu bytes", messages[i].length);
  return row_of(label, &messages[i], calls);
}

static void compare_lengths(const char *what, const char *way, const struct calls *calls) {
  struct row rows[MESSAGES];
  char title[120];
  for (size_t i = 0; i < MESSAGES; i++) {
    rows[i] = row_for_message(i, calls);
  }
  snprintf(title, sizeof title, "%s, %s", what, way);
  compare(title, "payload", rows, MESSAGES);
}

void compare_with_peers(const char *way) {
  const struct calls seal = {{ours.seal, nettle.seal, mbedtls.seal, wolfssl.seal}};
  const struct calls open = {{ours.open, nettle.open, mbedtls.open, wolfssl.open}};
  const struct calls set_up = {{ours.block, nettle.block, mbedtls.block, wolfssl.block}};
  const struct calls kept = {{ours.block, nettle.block_kept, mbedtls.block_kept, wolfssl.block_kept}};
  make_messages();
  check_all();
  compare_lengths("CCM sealing, key setup in each call", way, &seal);
  compare_lengths("CCM opening, key setup in each call", way, &open);
  struct message *m = &messages[LENGTHS - 1];
  struct row rows[] = {row_of("set up", m, &set_up), row_of("kept", m, &kept)};
  char title[120];
  snprintf(title, sizeof title, "One AES block, %s", way);
  compare(title, "peers' key", rows, 2);
}

void compare_with_kept_keys(const char *way) {
  const struct calls seal = {{ours.seal, nettle.seal_kept, mbedtls.seal_kept, wolfssl.seal_kept}};
  const struct calls open = {{ours.open, nettle.open_kept, mbedtls.open_kept, wolfssl.open_kept}};
  compare_lengths("CCM sealing, the peers' key kept from call to call", way, &seal);
  compare_lengths("CCM opening, the peers' key kept from call to call", way, &open);
}

static void frames_alone(const char *title, call *run) {
  struct row rows[MESSAGES];
  for (size_t i = 0; i < MESSAGES; i++) {
    rows[i] = row_for_message(i, &(struct calls){{run}});
  }
  alone(title, "payload", rows, MESSAGES);
}

/* A row of a reading; what it reads is checked by writing it back. */
static struct row reading_row(const char *label, call *read, call *write, struct reading *r) {
  struct row row = {.jobs = {{.run = read, .input = r}}};
  snprintf(row.label, sizeof row.label, "%s, %zu bytes", label, r->length);
  if (!read(r) || !write(r)) {
    fail("what was read is not written back as it was", row.label);
  }
  return row;
}

void times_alone(void) {
  static struct reading r[5];
  make_plain_header(&r[0]);
  make_routed_header(&r[1], 3);
  make_routed_header(&r[2], 46);
  make_link_status(&r[3], 3);
  make_link_status(&r[4], 31);
  struct row rows[] = {
      reading_row("plain header", read_header, write_header, &r[0]),
      reading_row("header, both IEEE, 3 relays", read_header, write_header, &r[1]),
      reading_row("header, both IEEE, 46 relays", read_header, write_header, &r[2]),
      reading_row("link status of 3 entries", read_command, write_command, &r[3]),
      reading_row("link status of 31 entries", read_command, write_command, &r[4]),
  };
  frames_alone("nwk_seal, a whole frame", seal_frame);
  frames_alone("nwk_open, a whole frame", open_frame);
  alone("nwk_read_header and nwk_read_command", "read", rows, sizeof rows / sizeof rows[0]);
}

/* A row of a call on a list of senders. */
static struct row sender_row(const char *label, call *run, void (*make)(struct senders *), struct senders *s) {
  struct row row = {.jobs = {{.run = run, .input = s}}};
  make(s);
  snprintf(row.label, sizeof row.label, "%s", label);
  return row;
}

void times_of_senders(void) {
  static struct senders s[5];
  check_senders();
  struct row rows[] = {
      sender_row("nwk_inbound_network_key, the last of 64", ask_key, make_senders, &s[0]),
      sender_row("nwk_inbound_network_key, unknown", ask_key, make_unknown_sender, &s[1]),
      sender_row("nwk_note_inbound_frame_counter, the last of 64", note_known, make_senders, &s[2]),
      sender_row("the same, new in the 64th place, and nwk_forget_sender", note_and_forget, make_new_sender, &s[3]),
      sender_row("nwk_forget_sender, unknown", forget_sender, make_unknown_sender, &s[4]),
  };
  alone("A list of 64 senders", "call, sender", rows, sizeof rows / sizeof rows[0]);
}

/* A row of a call on a journal. */
static struct row journal_row(const char *label, call *run, struct journal *j) {
  struct row row = {.jobs = {{.run = run, .input = j}}};
  snprintf(row.label, sizeof row.label, "%s, %zu records", label, j->records);
  return row;
}

void times_of_journals(void) {
  static struct journal shorter, longer;
  make_journal(&shorter, SHORT_JOURNAL);
  make_journal(&longer, LONG_JOURNAL);
  check_journal(&shorter);
  check_journal(&longer);
  struct row rows[] = {
      journal_row("nwk_recover_journal", recover_journal, &shorter),
      journal_row("nwk_recover_journal", recover_journal, &longer),
      journal_row("nwk_write_journal_record", write_journal_record, &shorter),
      journal_row("nwk_write_journal_record", write_journal_record, &longer),
      journal_row("nwk_next_counter", next_counter, &shorter),
      journal_row("nwk_next_counter", next_counter, &longer),
      journal_row("nwk_shrink_journal", shrink_journal, &shorter),
      journal_row("nwk_shrink_journal", shrink_journal, &longer),
  };
  alone("A journal of 64 senders", "call, journal", rows, sizeof rows / sizeof rows[0]);
}

/* A row of a burst, opened both ways. */
static struct row burst_row(struct burst *b) {
  check_burst(b);
  return (struct row){.jobs = {[BURST] = {.run = open_burst, .input = b}, [CALLS] = {.run = open_each, .input = b}}};
}

static struct row opened_row(struct burst *b, size_t length) {
  make_burst(b, length);
  struct row row = burst_row(b);
  snprintf(row.label, sizeof row.label, "payload of %zu bytes", length);
  return row;
}

static struct row clear_row(struct burst *b, size_t length) {
  make_clear_burst(b, length);
  struct row row = burst_row(b);
  snprintf(row.label, sizeof row.label, "clear, %zu bytes", length);
  return row;
}

static struct row refused_row(struct burst *b) {
  make_short_burst(b);
  struct row row = burst_row(b);
  snprintf(row.label, sizeof row.label, "refused by %u", NWK_REFUSAL(b->answer));
  return row;
}

void compare_bursts_with_calls(void) {
  static struct burst bursts[LENGTHS + 2];
  struct row rows[LENGTHS + 2];
  for (size_t i = 0; i < LENGTHS; i++) {
    rows[i] = opened_row(&bursts[i], lengths[i]);
  }
  rows[LENGTHS] = clear_row(&bursts[LENGTHS], lengths[LENGTHS - 1]);
  rows[LENGTHS + 1] = refused_row(&bursts[LENGTHS + 1]);
  compare_ways("nwk_open_burst of 16 frames beside 16 calls of nwk_open", "each frame", rows, LENGTHS + 2);
}
