//! A journal in a file while the system fails: each call that shrinking rests on fails once, and other things happen between two
//! calls. `disk_states.rs` cuts the power after such a failure.
#[allow(dead_code)]
mod support;
#[allow(dead_code)]
#[path = "support/system_calls.rs"]
mod system_calls;

use std::cell::RefCell;
use std::fs;
use std::os::unix::fs::MetadataExt;
use std::path::{Path, PathBuf};
use std::rc::Rc;
use store_reader::{Eui64, JournalError, JournalFile, SenderRecord, Senders};
use support::journal_files::{beside, bytes, fresh, goes_on, long, on_disk, LONG, SHRUNK};
use support::model::journal::Entry;
use system_calls::{fail, watched, Call, BROKEN};

/// The calls that something makes, in their order.
fn calls_of(run: impl FnOnce()) -> Vec<&'static str> {
    let calls = Rc::new(RefCell::new(Vec::new()));
    let seen = calls.clone();
    let note = move |name, _: &Call<'_>, make: &mut dyn FnMut() -> i64| {
        seen.borrow_mut().push(name);
        make()
    };
    watched(note, run);
    calls.take()
}

/// Runs something of which the call at this place fails, counted from 0.
fn failing<T>(place: usize, run: impl FnOnce() -> T) -> T {
    let mut calls = 0..;
    let one = move |_, _: &Call<'_>, make: &mut dyn FnMut() -> i64| match calls.next() == Some(place) {
        true => fail(BROKEN),
        false => make(),
    };
    watched(one, run)
}

/// Runs something before each call of this name.
fn before<T>(call: &'static str, mut act: impl FnMut() + 'static, run: impl FnOnce() -> T) -> T {
    let acting = move |name, _: &Call<'_>, make: &mut dyn FnMut() -> i64| {
        if name == call {
            act();
        }
        make()
    };
    watched(acting, run)
}

fn open(path: &Path) -> Result<JournalFile, JournalError> {
    JournalFile::open(path, 3, &mut Senders::new())
}

/// Whether the system reported this error.
fn is_broken<T>(answer: &Result<T, JournalError>) -> bool {
    matches!(answer, Err(JournalError::Io { error, .. }) if error.raw_os_error() == Some(BROKEN))
}

/// Whether somebody else has the journal.
fn is_locked<T>(answer: &Result<T, JournalError>) -> bool {
    matches!(answer, Err(JournalError::Locked(_)))
}

fn path(name: &str) -> PathBuf {
    fresh(&format!("journal-errors-{name}"))
}

fn inode(path: &Path) -> u64 {
    fs::symlink_metadata(path).expect("a file").ino()
}

/// Nothing is written or handed out, and opening anew finds the shrunk journal.
fn has_stopped(mut journal: JournalFile, path: &Path) {
    assert!(matches!(journal.next_counter(), Err(JournalError::Stopped(_))));
    assert!(matches!(journal.reserve(), Err(JournalError::Stopped(_))));
    assert!(matches!(journal.note_sender(Eui64::from(7), 52), Err(JournalError::Stopped(_))));
    assert!(matches!(journal.note_senders(&[]), Err(JournalError::Stopped(_))));
    assert!(matches!(journal.set_key_number(1), Err(JournalError::Stopped(_))));
    assert!(matches!(journal.shrink(), Err(JournalError::Stopped(_))));
    assert!(matches!(journal.forget(Eui64::from(7)), Err(JournalError::Stopped(_))));
    assert_eq!(on_disk(path), bytes(&SHRUNK));
    drop(journal);
    assert_eq!(open(path).expect("a journal").next_counter().expect("a counter"), 10);
}

// ---- errors in shrinking and forgetting

/// What is left beside the journal.
fn left_beside(path: &Path) -> bool {
    (1..10).map(|at| PathBuf::from(format!("{}.{at}", beside(path).display()))).any(|name| name.exists())
        || beside(path).exists()
}

/// Up to the renaming a failure leaves the old journal in use, or is of no matter: another name is taken, and permissions and owner are
/// kept as far as may be. If the folder cannot be flushed behind it, everything has stopped.
#[test]
fn each_call_of_shrinking_fails_once() {
    let path = path("calls");
    let mut journal = long(&path);
    let calls = calls_of(|| assert_eq!(journal.shrink().expect("a shrunk journal"), 13));
    drop(journal);
    assert_eq!(calls.join(" "), "open64 fsync unlink open64 flock fchown fchmod pwrite64 fsync rename fsync");
    for (place, call) in calls.iter().enumerate() {
        let (mut journal, before) = (long(&path), inode(&path));
        let answer = failing(place, || journal.shrink());
        let survived = matches!(place, 2 | 3 | 5 | 6);
        assert_eq!(is_broken(&answer), !survived, "{call} failed: {answer:?}");
        assert_eq!(inode(&path) == before, !survived && place < 10, "{call} failed");
        assert!(!left_beside(&path), "{call} failed");
        match place {
            _ if survived => assert_eq!(journal.next_counter().expect("a counter"), 10),
            10 => has_stopped(journal, &path),
            _ => {
                goes_on(&mut journal, &path);
                assert_eq!(journal.shrink().expect("a shrunk journal"), 13 + 5);
                assert_eq!(journal.next_counter().expect("a counter"), 11);
            }
        }
    }
}

/// A renaming that is done and yet reported as failed, as over a network.
#[test]
fn a_renaming_that_is_not_known() {
    let path = path("unknown");
    let mut journal = long(&path);
    let rename = |name, _: &Call<'_>, make: &mut dyn FnMut() -> i64| match (name, make()) {
        ("rename", 0) => fail(BROKEN),
        (_, answer) => answer,
    };
    let answer = watched(rename, || journal.shrink());
    assert!(is_broken(&answer), "{answer:?}");
    has_stopped(journal, &path);
}

/// Whatever fails in appending, nothing more is handed out until the file is opened anew, and all that was acknowledged is there then.
#[test]
fn each_call_of_appending_fails_once() {
    let path = path("appending");
    let mut journal = long(&path);
    let calls = calls_of(|| journal.note_sender(Eui64::from(7), 52).expect("a record"));
    drop(journal);
    assert_eq!(calls.join(" "), "pwrite64 fdatasync pwrite64 fdatasync");
    for (place, call) in calls.iter().enumerate() {
        let mut journal = long(&path);
        let answer = failing(place, || journal.note_sender(Eui64::from(7), 52));
        assert!(is_broken(&answer), "{call} failed: {answer:?}");
        assert_eq!(journal.records(), bytes(&LONG));
        assert!(matches!(journal.next_counter(), Err(JournalError::Stopped(_))));
        drop(journal);
        let mut senders = Senders::new();
        let mut journal = JournalFile::open(&path, 3, &mut senders).expect("a journal");
        // It counts when the kind byte is written, whether that is on disk or in the system's memory.
        let counter = if place < 3 { 51 } else { 52 };
        assert_eq!(senders.records()[0], SenderRecord::new(Eui64::from(7), counter));
        assert_eq!(journal.next_counter().expect("a counter"), 10);
    }
}

/// Whatever fails in opening, nothing is handed out, the list is as it was, and what was there can be opened the next time.
#[test]
fn each_call_of_opening_fails_once() {
    let path = path("opening");
    let tail = [&bytes(&LONG)[..], &[0, 7, 0]].concat();
    fs::write(&path, &tail).expect("a file");
    let calls = calls_of(|| drop(open(&path).expect("a journal")));
    let replacing = "open64 fsync unlink open64 flock fchown fchmod pwrite64 fsync rename fsync";
    assert_eq!(calls.join(" "), format!("open64 flock {replacing}"));
    for (place, call) in calls.iter().enumerate() {
        fs::write(&path, &tail).expect("a file");
        let mut senders = Senders::new();
        senders.note_inbound_frame_counter(Eui64::from(99), 99).expect("a place");
        let answer = failing(place, || JournalFile::open(&path, 3, &mut senders));
        let survived = matches!(place, 4 | 5 | 7 | 8);
        assert_eq!(is_broken(&answer), !survived, "{call} failed: {answer:?}");
        let expected =
            if survived { SenderRecord::new(Eui64::from(7), 51) } else { SenderRecord::new(Eui64::from(99), 99) };
        assert_eq!((senders.records()[0], senders.records()[1]), (expected, SenderRecord::FREE), "{call} failed");
        drop(answer);
        assert!(!left_beside(&path), "{call} failed");
        assert_eq!(open(&path).expect("a journal").records(), bytes(&SHRUNK));
    }
}

/// Where a journal cannot be begun no file is left, and a folder that cannot be flushed is found before one is made.
#[test]
fn each_call_of_beginning_fails_once() {
    let path = path("beginning");
    let begin = |path: &Path| JournalFile::create(path, 3, &mut Senders::new());
    let calls = calls_of(|| drop(begin(&path).expect("a journal")));
    assert_eq!(calls.join(" "), "open64 fsync open64 flock fsync fsync");
    for (place, call) in calls.iter().enumerate() {
        fs::remove_file(&path).expect("the journal");
        let answer = failing(place, || begin(&path));
        assert!(is_broken(&answer), "{call} failed: {answer:?}");
        assert!(!path.exists(), "{call} failed");
        assert_eq!(begin(&path).expect("a journal").next_counter().expect("a counter"), 1);
    }
}

// ---- two openers

/// Between opening and locking, the process that had the journal shrinks it, hands out a counter and ends. What was opened is a file
/// without a name then, in which no start would find a ceiling.
#[test]
fn a_file_that_lost_its_name_is_not_used() {
    let path = path("lost");
    let mut first = Some(long(&path));
    let shrink = move || {
        if let Some(mut journal) = first.take() {
            let _ = (journal.shrink(), journal.next_counter());
        }
    };
    let mut second = before("flock", shrink, || open(&path)).expect("a journal");
    assert_eq!(second.records(), bytes(&[Entry::Ceiling(12), Entry::Sender(7, 51)]));
    assert_eq!(second.next_counter().expect("a counter"), 13);
    assert_eq!(on_disk(&path), second.records());
}

/// The same while the first process goes on: the old file is free, and the journal is not.
#[test]
fn a_journal_that_was_shrunk_is_still_locked() {
    let path = path("kept");
    let first = Rc::new(RefCell::new(long(&path)));
    let kept = first.clone();
    let second = before("flock", move || drop(kept.borrow_mut().shrink()), || open(&path));
    assert!(is_locked(&second), "{second:?}");
    assert_eq!(on_disk(&path), bytes(&SHRUNK));
    assert_eq!(first.borrow_mut().next_counter().expect("a counter"), 10);
}

/// A name that leads to another file each time counts as locked: opening gives up.
#[test]
fn a_name_that_never_stays() {
    let path = path("restless");
    drop(long(&path));
    let (from, to) = (beside(&path), path.clone());
    let replace = move || drop(fs::copy(&to, &from).and_then(|_| fs::rename(&from, &to)));
    let opened = before("flock", replace, || open(&path));
    assert!(is_locked(&opened), "{opened:?}");
    assert_eq!(open(&path).expect("a journal").records(), bytes(&SHRUNK));
}
