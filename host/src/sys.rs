//! The C functions of `include/nwk.h`, as they stand there.
use crate::SenderRecord;

extern "C" {
    pub fn nwk_read_header(bytes: *const u8, bytes_len: usize, header: *mut u8, header_len: usize) -> u64;
    pub fn nwk_write_header(header: *const u8, header_len: usize, out: *mut u8, out_len: usize) -> u64;
    pub fn nwk_read_auxiliary(bytes: *const u8, bytes_len: usize, auxiliary: *mut u8, auxiliary_len: usize) -> u64;
    pub fn nwk_write_auxiliary(auxiliary: *const u8, auxiliary_len: usize, out: *mut u8, out_len: usize) -> u64;
    pub fn nwk_read_frame(
        bytes: *const u8,
        bytes_len: usize,
        header: *mut u8,
        header_len: usize,
        auxiliary: *mut u8,
        auxiliary_len: usize,
    ) -> u64;
    pub fn nwk_write_frame(
        header: *const u8,
        header_len: usize,
        payload: *const u8,
        payload_len: usize,
        out: *mut u8,
        out_len: usize,
    ) -> u64;
    pub fn nwk_seal(
        level: u64,
        key_first: u64,
        key_second: u64,
        header: *const u8,
        header_len: usize,
        auxiliary: *const u8,
        auxiliary_len: usize,
        payload: *const u8,
        payload_len: usize,
        out: *mut u8,
        out_len: usize,
    ) -> u64;
    pub fn nwk_open(
        level: u64,
        key_first: u64,
        key_second: u64,
        bytes: *const u8,
        bytes_len: usize,
        opened: *mut u8,
        opened_len: usize,
        out: *mut u8,
        out_len: usize,
    ) -> u64;
    pub fn nwk_open_burst(
        level: u64,
        key_first: u64,
        key_second: u64,
        frames: *const u8,
        frames_len: usize,
        lengths: *const u16,
        lengths_count: usize,
        answers: *mut [u8; 182],
        answers_count: usize,
        out: *mut u8,
        out_len: usize,
    ) -> u64;
    pub fn nwk_payload_place(mark: u8, length: u64, frame_length: u64) -> u64;
    pub fn nwk_payload_kind(frame_type: u8) -> u64;
    pub fn nwk_inbound_network_key(
        key_first: u64,
        key_second: u64,
        active_key_sequence_number: u8,
        senders: *mut SenderRecord,
        senders_count: usize,
        sender: u64,
        key_sequence_number: u8,
        frame_counter: u32,
        key: *mut [u8; 16],
    ) -> u64;
    pub fn nwk_note_inbound_frame_counter(
        senders: *mut SenderRecord,
        senders_count: usize,
        sender: u64,
        frame_counter: u32,
    ) -> u64;
    pub fn nwk_forget_sender(senders: *mut SenderRecord, senders_count: usize, sender: u64) -> u64;
    pub fn nwk_recover_journal(
        journal: *const u8,
        journal_len: usize,
        senders: *mut SenderRecord,
        senders_count: usize,
        complete: *mut u64,
    ) -> u64;
    pub fn nwk_write_journal_record(
        journal: *const u8,
        journal_len: usize,
        kind: u8,
        sender: u64,
        counter: u32,
        key_number: u8,
        out: *mut u8,
        out_len: usize,
    ) -> u64;
    pub fn nwk_next_counter(journal: *const u8, journal_len: usize, last: u32) -> u64;
    pub fn nwk_shrink_journal(journal: *const u8, journal_len: usize, out: *mut u8, out_len: usize) -> u64;
    pub fn nwk_read_command(bytes: *const u8, bytes_len: usize, command: *mut u8, command_len: usize) -> u64;
    pub fn nwk_write_command(command: *const u8, command_len: usize, out: *mut u8, out_len: usize) -> u64;
    pub fn nwk_timeout_seconds(code: u8) -> u64;
    pub fn nwk_encrypt_ccm(
        level: u64,
        key_first: u64,
        key_second: u64,
        nonce: *const [u8; 13],
        auth: *const u8,
        auth_len: usize,
        payload: *const u8,
        payload_len: usize,
        out: *mut u8,
        out_len: usize,
        mic: *mut [u8; 16],
    ) -> u64;
    pub fn nwk_decrypt_ccm(
        level: u64,
        key_first: u64,
        key_second: u64,
        nonce: *const [u8; 13],
        auth: *const u8,
        auth_len: usize,
        ciphertext: *const u8,
        ciphertext_len: usize,
        mic: *const [u8; 16],
        out: *mut u8,
        out_len: usize,
    ) -> u64;
    pub fn nwk_split_mic(level: u64, bytes: *const u8, bytes_len: usize, mic: *mut [u8; 16], front: *mut u64) -> u64;
    pub fn nwk_encrypt_block(key_first: u64, key_second: u64, block: *const [u8; 16], out: *mut [u8; 16]) -> u64;
}
