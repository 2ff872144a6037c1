//! Journals in files: their paths and contents, and one to be shrunk.
use crate::support::command::scratch;
use crate::support::model::journal::{Entry, Journal};
use std::ffi::OsString;
use std::fs;
use std::path::{Path, PathBuf};
#[cfg(feature = "std")]
use store_reader::{JournalError, JournalFile, Senders};

/// A journal of which 13 bytes can be saved, the first of two records of one sender; and it shrunk.
pub const LONG: [Entry; 3] = [Entry::Ceiling(9), Entry::Sender(7, 50), Entry::Sender(7, 51)];
pub const SHRUNK: [Entry; 2] = [Entry::Ceiling(9), Entry::Sender(7, 51)];
/// What the long one was before its last record.
pub const SHRUNK_BEFORE: [Entry; 2] = [Entry::Ceiling(9), Entry::Sender(7, 50)];

pub fn bytes(entries: &[Entry]) -> Vec<u8> {
    entries.iter().flat_map(|entry| entry.bytes()).collect()
}

/// The file in which a shrunk journal is made ready.
pub fn beside(path: &Path) -> PathBuf {
    let mut beside = OsString::from(path);
    beside.push(".shrunk");
    beside.into()
}

/// A path where there is no file, nor one beside it.
pub fn fresh(name: &str) -> PathBuf {
    let path = scratch(name);
    let _ = fs::remove_file(&path);
    let _ = fs::remove_file(beside(&path));
    path
}

/// What is on disk.
pub fn on_disk(path: &Path) -> Vec<u8> {
    fs::read(path).unwrap_or_else(|e| panic!("{}: {e}", path.display()))
}

/// What a journal recovers to, its senders by their numbers.
pub fn state(journal: &[u8]) -> (u32, Vec<(u64, u32)>, Option<u8>) {
    let read = Journal::of(journal);
    let mut senders = read.senders();
    senders.sort_unstable();
    (read.ceiling(), senders, read.key_number())
}

/// Opens the journal of a path, or begins one where there is none.
#[cfg(feature = "std")]
pub fn open_or_create(path: &Path, step: u32, senders: &mut Senders) -> Result<JournalFile, JournalError> {
    match JournalFile::open(path, step, senders) {
        Err(JournalError::Missing(_)) => JournalFile::create(path, step, senders),
        opened => opened,
    }
}

/// A journal opened with a step of 3 over the shrunk records, and another counter of the sender: the records of which 13 bytes can be
/// saved. Opening itself leaves none to be saved.
#[cfg(feature = "std")]
pub fn long(path: &Path) -> JournalFile {
    fs::write(path, bytes(&SHRUNK_BEFORE)).expect("a file");
    let mut journal = JournalFile::open(path, 3, &mut Senders::new()).expect("a journal");
    journal.note_sender(7.into(), 51).expect("a record");
    assert_eq!(on_disk(path), bytes(&LONG));
    journal
}

/// The long journal stands and is used on: a counter is handed out, and its ceiling is appended.
#[cfg(feature = "std")]
pub fn goes_on(journal: &mut JournalFile, path: &Path) {
    assert_eq!(on_disk(path), bytes(&LONG));
    assert_eq!(journal.next_counter().expect("a counter"), 10);
    assert_eq!(on_disk(path), bytes(&[&LONG[..], &[Entry::Ceiling(12)]].concat()));
}
