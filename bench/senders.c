#include "senders.h"

#include <string.h>

#define KEY_FIRST UINT64_C(0xC7C6C5C4C3C2C1C0)
#define KEY_SECOND UINT64_C(0xCFCECDCCCBCAC9C8)
#define KEY_SEQUENCE_NUMBER 3
#define STORED 74565

void make_senders(struct senders *s) {
  memset(s, 0, sizeof *s);
  for (size_t i = 0; i < NWK_MAX_SENDERS; i++) {
    s->list[i] = (struct nwk_sender){.address = UINT64_C(0x00124B001CA10000) + i, .counter = STORED, .used = 1};
  }
  s->sender = s->list[NWK_MAX_SENDERS - 1].address;
  s->counter = STORED + 1;
}

void make_unknown_sender(struct senders *s) {
  make_senders(s);
  s->sender += NWK_MAX_SENDERS;
}

void make_new_sender(struct senders *s) {
  make_unknown_sender(s);
  s->list[NWK_MAX_SENDERS - 1] = (struct nwk_sender){0, 0, 0};
}

bool ask_key(void *input) {
  struct senders *s = input;
  return nwk_inbound_network_key(KEY_FIRST, KEY_SECOND, KEY_SEQUENCE_NUMBER, s->list, NWK_MAX_SENDERS, s->sender,
                                 KEY_SEQUENCE_NUMBER, s->counter, s->key) == KEY_LENGTH;
}

bool note_known(void *input) {
  struct senders *s = input;
  uint64_t answer = nwk_note_inbound_frame_counter(s->list, NWK_MAX_SENDERS, s->sender, s->counter);
  return NWK_REFUSAL(answer) == NWK_ACCEPTED && NWK_KNOWN(answer);
}

bool note_and_forget(void *input) {
  struct senders *s = input;
  uint64_t answer = nwk_note_inbound_frame_counter(s->list, NWK_MAX_SENDERS, s->sender, s->counter);
  return answer == 0 && nwk_forget_sender(s->list, NWK_MAX_SENDERS, s->sender) == 0;
}

bool forget_sender(void *input) {
  struct senders *s = input;
  return nwk_forget_sender(s->list, NWK_MAX_SENDERS, s->sender) == 0;
}

static bool same_list(const struct senders *a, const struct senders *b) {
  for (size_t i = 0; i < NWK_MAX_SENDERS; i++) {
    const struct nwk_sender *x = &a->list[i], *y = &b->list[i];
    if (x->address != y->address || x->counter != y->counter || x->used != y->used) {
      return false;
    }
  }
  return true;
}

/* Make a call on a list that it is to leave as it was. */
static void check_unchanged(call *run, void (*make)(struct senders *), const char *who) {
  struct senders before, after;
  make(&before);
  make(&after);
  if (!run(&after) || !same_list(&before, &after)) {
    fail("another answer, or the list is not as it was", who);
  }
}

void check_senders(void) {
  struct senders s;
  make_senders(&s);
  if (!ask_key(&s) || s.key[0] != 0xC0 || s.key[15] != 0xCF) {
    fail("the key differs", "nwk_inbound_network_key");
  }
  if (!note_known(&s) || s.list[NWK_MAX_SENDERS - 1].counter != STORED + 1 || ask_key(&s)) {
    fail("the counter was not noted", "nwk_note_inbound_frame_counter");
  }
  check_unchanged(ask_key, make_senders, "nwk_inbound_network_key");
  check_unchanged(ask_key, make_unknown_sender, "nwk_inbound_network_key");
  check_unchanged(note_and_forget, make_new_sender, "nwk_note_inbound_frame_counter and nwk_forget_sender");
  check_unchanged(forget_sender, make_unknown_sender, "nwk_forget_sender");
}
