//! What the tests share: calls through the C boundary between guard bytes, a model of documents 01 and 02, and generated
//! calls.
pub mod air;
pub mod burst_tally;
pub mod calls;
pub mod clear_tally;
pub mod command;
pub mod compare;
pub mod counter_tally;
pub mod from_c;
pub mod generate;
pub mod guarded;
pub mod header_comments;
pub mod hex;
pub mod journal_files;
pub mod journal_tally;
pub mod journals;
pub mod level_tally;
pub mod man;
pub mod model;
pub mod nettle;
pub mod operations;
pub mod outside;
pub mod presence_tally;
pub mod random;
pub mod sender_tally;
pub mod senders;
pub mod tally;
