/* nwk_null.h: NULL for an empty slice. nwk.h includes it; do not include it alone.
 *
 * The compiled functions are to be given an address even where a slice or list is empty. Each function's name stands from here on for one
 * that puts such an address in the place of any pointer whose length is 0. */
#ifndef NWK_NULL_H
#define NWK_NULL_H

static inline uint8_t *nwk_lent(uint8_t *bytes, size_t len) {
  static uint8_t none;
  return len == 0 ? &none : bytes;
}

static inline const uint8_t *nwk_given(const uint8_t *bytes, size_t len) {
  static const uint8_t none = 0;
  return len == 0 ? &none : bytes;
}

static inline struct nwk_sender *nwk_lent_senders(struct nwk_sender *senders, size_t count) {
  static struct nwk_sender none;
  return count == 0 ? &none : senders;
}

/* Those that take one slice and are lent another. */
#define NWK_OR_NULL(function)                                                                                  \
  static inline uint64_t function##_or_null(const uint8_t *bytes, size_t n, uint8_t *out, size_t room) {       \
    return function(nwk_given(bytes, n), n, nwk_lent(out, room), room);                                        \
  }

NWK_OR_NULL(nwk_read_header)
NWK_OR_NULL(nwk_write_header)
NWK_OR_NULL(nwk_read_auxiliary)
NWK_OR_NULL(nwk_write_auxiliary)
NWK_OR_NULL(nwk_shrink_journal)
NWK_OR_NULL(nwk_read_command)
NWK_OR_NULL(nwk_write_command)

static inline uint64_t nwk_read_frame_or_null(const uint8_t *bytes, size_t n, uint8_t *header, size_t h, uint8_t *auxiliary,
    size_t a) {
  return nwk_read_frame(nwk_given(bytes, n), n, nwk_lent(header, h), h, nwk_lent(auxiliary, a), a);
}

static inline uint64_t nwk_write_frame_or_null(const uint8_t *header, size_t h, const uint8_t *payload, size_t n, uint8_t *out,
    size_t room) {
  return nwk_write_frame(nwk_given(header, h), h, nwk_given(payload, n), n, nwk_lent(out, room), room);
}

static inline uint64_t nwk_seal_or_null(uint64_t level, uint64_t first, uint64_t second, const uint8_t *header, size_t h,
    const uint8_t *auxiliary, size_t a, const uint8_t *payload, size_t n, uint8_t *out, size_t room) {
  return nwk_seal(level, first, second, nwk_given(header, h), h, nwk_given(auxiliary, a), a, nwk_given(payload, n), n,
      nwk_lent(out, room), room);
}

static inline uint64_t nwk_open_or_null(uint64_t level, uint64_t first, uint64_t second, const uint8_t *bytes, size_t n,
    uint8_t *opened, size_t r, uint8_t *out, size_t room) {
  return nwk_open(level, first, second, nwk_given(bytes, n), n, nwk_lent(opened, r), r, nwk_lent(out, room), room);
}

static inline uint64_t nwk_open_burst_or_null(uint64_t level, uint64_t first, uint64_t second, const uint8_t *frames, size_t n,
    const uint16_t *lengths, size_t k, uint8_t (*answers)[NWK_OPENED_RECORD], size_t places, uint8_t *out, size_t room) {
  static const uint16_t no_length = 0;
  static uint8_t no_answer[1][NWK_OPENED_RECORD];
  return nwk_open_burst(level, first, second, nwk_given(frames, n), n, k == 0 ? &no_length : lengths, k,
      places == 0 ? no_answer : answers, places, nwk_lent(out, room), room);
}

static inline uint64_t nwk_inbound_network_key_or_null(uint64_t first, uint64_t second, uint8_t active, struct nwk_sender *senders,
    size_t n, uint64_t sender, uint8_t number, uint32_t counter, uint8_t key[16]) {
  return nwk_inbound_network_key(first, second, active, nwk_lent_senders(senders, n), n, sender, number, counter, key);
}

static inline uint64_t nwk_note_inbound_frame_counter_or_null(struct nwk_sender *senders, size_t n, uint64_t sender,
    uint32_t counter) {
  return nwk_note_inbound_frame_counter(nwk_lent_senders(senders, n), n, sender, counter);
}

static inline uint64_t nwk_forget_sender_or_null(struct nwk_sender *senders, size_t n, uint64_t sender) {
  return nwk_forget_sender(nwk_lent_senders(senders, n), n, sender);
}

static inline uint64_t nwk_recover_journal_or_null(const uint8_t *journal, size_t n, struct nwk_sender *senders, size_t places,
    uint64_t *complete) {
  return nwk_recover_journal(nwk_given(journal, n), n, nwk_lent_senders(senders, places), places, complete);
}

static inline uint64_t nwk_write_journal_record_or_null(const uint8_t *journal, size_t n, uint8_t kind, uint64_t sender,
    uint32_t counter, uint8_t number, uint8_t *out, size_t room) {
  return nwk_write_journal_record(nwk_given(journal, n), n, kind, sender, counter, number, nwk_lent(out, room), room);
}

static inline uint64_t nwk_next_counter_or_null(const uint8_t *journal, size_t n, uint32_t last) {
  return nwk_next_counter(nwk_given(journal, n), n, last);
}

static inline uint64_t nwk_encrypt_ccm_or_null(uint64_t level, uint64_t first, uint64_t second, const uint8_t nonce[13],
    const uint8_t *auth, size_t a, const uint8_t *payload, size_t n, uint8_t *out, size_t room, uint8_t mic[16]) {
  return nwk_encrypt_ccm(level, first, second, nonce, nwk_given(auth, a), a, nwk_given(payload, n), n, nwk_lent(out, room), room,
      mic);
}

static inline uint64_t nwk_decrypt_ccm_or_null(uint64_t level, uint64_t first, uint64_t second, const uint8_t nonce[13],
    const uint8_t *auth, size_t a, const uint8_t *ciphertext, size_t n, const uint8_t mic[16], uint8_t *out, size_t room) {
  return nwk_decrypt_ccm(level, first, second, nonce, nwk_given(auth, a), a, nwk_given(ciphertext, n), n, mic, nwk_lent(out, room),
      room);
}

static inline uint64_t nwk_split_mic_or_null(uint64_t level, const uint8_t *bytes, size_t n, uint8_t mic[16], uint64_t *front) {
  return nwk_split_mic(level, nwk_given(bytes, n), n, mic, front);
}

#define nwk_read_header nwk_read_header_or_null
#define nwk_write_header nwk_write_header_or_null
#define nwk_read_auxiliary nwk_read_auxiliary_or_null
#define nwk_write_auxiliary nwk_write_auxiliary_or_null
#define nwk_read_frame nwk_read_frame_or_null
#define nwk_write_frame nwk_write_frame_or_null
#define nwk_seal nwk_seal_or_null
#define nwk_open nwk_open_or_null
#define nwk_open_burst nwk_open_burst_or_null
#define nwk_inbound_network_key nwk_inbound_network_key_or_null
#define nwk_note_inbound_frame_counter nwk_note_inbound_frame_counter_or_null
#define nwk_forget_sender nwk_forget_sender_or_null
#define nwk_recover_journal nwk_recover_journal_or_null
#define nwk_write_journal_record nwk_write_journal_record_or_null
#define nwk_next_counter nwk_next_counter_or_null
#define nwk_shrink_journal nwk_shrink_journal_or_null
#define nwk_read_command nwk_read_command_or_null
#define nwk_write_command nwk_write_command_or_null
#define nwk_encrypt_ccm nwk_encrypt_ccm_or_null
#define nwk_decrypt_ccm nwk_decrypt_ccm_or_null
#define nwk_split_mic nwk_split_mic_or_null

#endif
