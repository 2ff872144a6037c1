#define _XOPEN_SOURCE 700
#include "stack.h"

#include "bursts.h"
#include "codecs.h"
#include "journals.h"
#include "readings.h"
#include "senders.h"

#include <stdio.h>
#include <string.h>
#include <ucontext.h>

#define STACK_BYTES 16384

/* The painted stack, and what runs on it. */
static _Alignas(64) uint8_t stack[STACK_BYTES];
static ucontext_t back, there;
static call *running;
static void *given;
static const uint8_t *caller;

static void enter(void) {
  caller = __builtin_frame_address(0);
  running(given);
}

/* The bytes from the caller's frame to the deepest one that no longer has the paint. */
static size_t unpainted(uint8_t paint) {
  size_t i = 0;
  while (i < sizeof stack && stack[i] == paint) {
    i++;
  }
  if (i == 0) {
    fail("the painted stack is too small", "stack");
  }
  return (size_t)(caller - (stack + i));
}

static size_t touched_with(uint8_t paint) {
  memset(stack, paint, sizeof stack);
  getcontext(&there);
  there.uc_stack.ss_sp = stack;
  there.uc_stack.ss_size = sizeof stack;
  there.uc_link = &back;
  makecontext(&there, enter, 0);
  swapcontext(&back, &there);
  return unpainted(paint);
}

static size_t larger(size_t a, size_t b) {
  return a > b ? a : b;
}

/* Two paints, because a byte written may be as the paint is. */
static size_t touched(call *run, void *input) {
  running = run;
  given = input;
  return larger(touched_with(0xA5), touched_with(0x5A));
}

/* ---- calls that only the stack table makes */

static bool read_frame(void *input) {
  struct message *m = input;
  return nwk_read_frame(m->frame, m->frame_length, m->header_out, sizeof m->header_out, m->auxiliary_out,
                        sizeof m->auxiliary_out) == AUTH_LENGTH;
}

static bool write_frame(void *input) {
  struct message *m = input;
  return NWK_REFUSAL(nwk_write_frame(m->header, sizeof m->header, m->payload, m->length, m->out, sizeof m->out)) == 0;
}

static bool read_auxiliary(void *input) {
  struct message *m = input;
  return NWK_REFUSAL(nwk_read_auxiliary(m->auth + 8, 14, m->auxiliary_out, sizeof m->auxiliary_out)) == 0;
}

static bool write_auxiliary(void *input) {
  struct message *m = input;
  return NWK_REFUSAL(nwk_write_auxiliary(m->auxiliary, sizeof m->auxiliary, m->out, sizeof m->out)) == 0;
}

static bool split_mic(void *input) {
  struct message *m = input;
  uint64_t front = 0;
  return NWK_REFUSAL(nwk_split_mic(m->level, m->sealed, m->length + m->mic_length, m->out, &front)) == 0 && front == m->length;
}

static bool payload_place(void *input) {
  struct message *m = input;
  return NWK_REFUSAL(nwk_payload_place(NWK_MARK_CLEAR, m->length, m->length)) == 0;
}

static bool payload_kind(void *input) {
  struct message *m = input;
  return NWK_REFUSAL(nwk_payload_kind((uint8_t)m->length)) == 0;
}

static bool timeout_seconds(void *input) {
  struct message *m = input;
  return NWK_REFUSAL(nwk_timeout_seconds((uint8_t)m->length)) == 0;
}

/* ---- the most over inputs of every kind */

static size_t over_messages(call *run) {
  size_t most = 0;
  for (size_t n = 0; n <= MAX_MESSAGE; n++) {
    struct message m;
    make_message(&m, n);
    most = larger(most, touched(run, &m));
  }
  return most;
}

/* Bursts of 16 frames, opened, clear and refused. */
static size_t over_bursts(call *run) {
  static struct burst b;
  size_t most = 0;
  for (size_t n = 0; n <= MAX_MESSAGE; n++) {
    make_burst(&b, n);
    most = larger(most, touched(run, &b));
    make_clear_burst(&b, n);
    most = larger(most, touched(run, &b));
  }
  make_short_burst(&b);
  return larger(most, touched(run, &b));
}

/* Lists of 64 senders that name the sender last, do not name it, and have their last place free. */
static size_t over_senders(call *run) {
  static struct senders s;
  void (*const makes[])(struct senders *) = {make_senders, make_unknown_sender, make_new_sender};
  size_t most = 0;
  for (size_t i = 0; i < sizeof makes / sizeof makes[0]; i++) {
    makes[i](&s);
    most = larger(most, touched(run, &s));
  }
  return most;
}

/* A journal of 64 senders, whole, without up to twelve of its last bytes, and with a byte that is no kind. */
static size_t over_journals(call *run) {
  static struct journal j;
  make_journal(&j, SHORT_JOURNAL);
  const size_t whole = j.length;
  size_t most = 0;
  for (size_t cut = 0; cut < NWK_JOURNAL_RECORD; cut++) {
    j.length = whole - cut;
    most = larger(most, touched(run, &j));
  }
  j.bytes[0] = 0;
  return larger(most, touched(run, &j));
}

/* Every second byte of frame control, which has the presence bits. */
static size_t over_headers(call *run) {
  size_t most = 0;
  for (unsigned control = 0; control < 256; control++) {
    struct reading r;
    make_routed_header(&r, 46);
    r.bytes[1] = (uint8_t)control;
    read_header(&r);
    most = larger(most, touched(run, &r));
  }
  return most;
}

/* Every identifier and options byte, at the full length and at a short one. */
static size_t over_commands(call *run) {
  size_t most = 0;
  for (unsigned i = 0; i < 16 * 256 * 2; i++) {
    struct reading r = {.length = i % 2 ? NWK_MAX_PAYLOAD : 2};
    r.bytes[0] = (uint8_t)(i / 512);
    r.bytes[1] = (uint8_t)(i / 2);
    read_command(&r);
    most = larger(most, touched(run, &r));
  }
  return most;
}

struct use {
  const char *name;
  size_t (*over)(call *run);
  call *run;
};

/* A burst may need as much as two nested calls of opening, and no more. */
static void compare_burst_with_two_calls(void) {
  size_t burst = over_bursts(open_burst), two = 2 * over_messages(open_frame);
  printf("\nA burst of %d frames touched %zu bytes; two nested calls of nwk_open would touch %zu.\n", NWK_MAX_BURST,
         burst, two);
  if (burst > two) {
    fail("a burst of 16 frames needs more stack than two nested calls of nwk_open", "nwk_open_burst");
  }
}

void print_stack_use(void) {
  const struct use uses[] = {
      {"nwk_read_header", over_headers, read_header},
      {"nwk_write_header", over_headers, write_header},
      {"nwk_read_auxiliary", over_messages, read_auxiliary},
      {"nwk_write_auxiliary", over_messages, write_auxiliary},
      {"nwk_read_frame", over_messages, read_frame},
      {"nwk_write_frame", over_messages, write_frame},
      {"nwk_seal", over_messages, seal_frame},
      {"nwk_open", over_messages, open_frame},
      {"nwk_open_burst", over_bursts, open_burst},
      {"nwk_inbound_network_key", over_senders, ask_key},
      {"nwk_note_inbound_frame_counter", over_senders, note_known},
      {"nwk_forget_sender", over_senders, forget_sender},
      {"nwk_recover_journal", over_journals, recover_journal},
      {"nwk_write_journal_record", over_journals, write_journal_record},
      {"nwk_next_counter", over_journals, next_counter},
      {"nwk_shrink_journal", over_journals, shrink_journal},
      {"nwk_payload_place", over_messages, payload_place},
      {"nwk_payload_kind", over_messages, payload_kind},
      {"nwk_read_command", over_commands, read_command},
      {"nwk_write_command", over_commands, write_command},
      {"nwk_timeout_seconds", over_messages, timeout_seconds},
      {"nwk_encrypt_ccm", over_messages, ours.seal},
      {"nwk_decrypt_ccm", over_messages, ours.open},
      {"nwk_split_mic", over_messages, split_mic},
      {"nwk_encrypt_block", over_messages, ours.block},
  };
  printf("\n### Stack, the most that a call touched\n\n");
  printf("| %-30s | bytes |\n|--------------------------------|------:|\n", "function");
  for (size_t i = 0; i < sizeof uses / sizeof uses[0]; i++) {
    printf("| %-30s | %5zu |\n", uses[i].name, uses[i].over(uses[i].run));
  }
  compare_burst_with_two_calls();
}
