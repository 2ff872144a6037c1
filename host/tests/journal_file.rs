//! The journal in a file: what is on disk after each call, what is recovered, and what is refused. `power_cuts.rs` cuts the power.
#[allow(dead_code)]
mod support;

use std::fs::{self, OpenOptions, Permissions};
use std::io::{ErrorKind, Write};
use std::os::unix::fs::{symlink, MetadataExt, PermissionsExt};
use std::path::{Path, PathBuf};
use std::process::Command;
use store_reader::{finished, shrink_without, Eui64, JournalError, JournalFile, Refusal, SenderRecord, Senders};
use store_reader::{MAX_SENDERS, MAX_SHRUNK_JOURNAL};
use support::command::{not_installed, root, scratch, tool};
use support::generate::journals as generate;
use support::journal_files::{beside, bytes, fresh, goes_on, long, on_disk, open_or_create, state};
use support::journal_files::{LONG, SHRUNK, SHRUNK_BEFORE};
use support::model::journal::{Entry, Journal};
use support::random::Random;

fn open(path: &Path, step: u32) -> (JournalFile, Senders) {
    let mut senders = Senders::new();
    let journal = open_or_create(path, step, &mut senders).unwrap_or_else(|e| panic!("{e}"));
    (journal, senders)
}

/// The senders in their places, with their counters.
fn noted(senders: &Senders) -> Vec<(u64, u32)> {
    senders.records().iter().filter_map(SenderRecord::noted).map(|(sender, counter)| (sender.into(), counter)).collect()
}

fn refusal<T>(answer: Result<T, JournalError>) -> Option<Refusal> {
    answer.err().and_then(|error| error.refusal())
}

/// Of ten counters with a step of 5 two ceilings are written, each before the first counter that it covers.
#[test]
fn a_ceiling_is_on_disk_before_its_counters() {
    let path = fresh("journal-ceilings");
    let (mut journal, _) = open(&path, 5);
    assert_eq!((journal.last_counter(), journal.reserved(), on_disk(&path).len()), (0, 0, 0));
    for expected in 1..=10 {
        assert_eq!(journal.next_counter().expect("a counter"), expected);
        let ceilings: &[Entry] = &[Entry::Ceiling(5), Entry::Ceiling(10)];
        let written = bytes(&ceilings[..if expected <= 5 { 1 } else { 2 }]);
        assert_eq!(on_disk(&path), written);
        assert_eq!((journal.records(), journal.last_counter()), (&written[..], expected));
        assert_eq!(journal.reserved(), (10 - expected) % 5);
    }
    drop(journal);
    // The last counter is now the ceiling, whether it was reached or not.
    for (step, expected) in [(1000, 11), (1, 1011), (0, 1012), (0, 1013)] {
        let (mut journal, _) = open(&path, step);
        assert_eq!(journal.next_counter().expect("a counter"), expected);
    }
}

#[test]
fn counters_are_reserved_ahead_of_time() {
    let path = fresh("journal-ahead");
    let (mut journal, _) = open(&path, 4);
    journal.reserve().expect("a ceiling");
    assert_eq!((journal.reserved(), journal.last_counter()), (4, 0));
    journal.reserve().expect("nothing to write");
    assert_eq!(on_disk(&path), bytes(&[Entry::Ceiling(4)]));
    assert_eq!((journal.next_counter().expect("a counter"), journal.reserved()), (1, 3));
    journal.reserve().expect("a ceiling");
    assert_eq!(on_disk(&path), bytes(&[Entry::Ceiling(4), Entry::Ceiling(5)]));
}

/// Saturating at `FFFFFFFE`, then 26: also after opening anew, and where another writer's ceiling is `FFFFFFFF`.
#[test]
fn the_last_counters_are_handed_out_once() {
    let path = fresh("journal-end");
    fs::write(&path, bytes(&[Entry::Ceiling(0xFFFF_FFFC)])).expect("a file");
    let (mut journal, _) = open(&path, 1000);
    assert_eq!(journal.next_counter().expect("a counter"), 0xFFFF_FFFD);
    assert_eq!((journal.next_counter().expect("a counter"), journal.reserved()), (0xFFFF_FFFE, 0));
    assert_eq!(refusal(journal.next_counter()), Some(Refusal::COUNTERS_USED_UP));
    assert_eq!(refusal(journal.reserve()), Some(Refusal::COUNTERS_USED_UP));
    let whole = bytes(&[Entry::Ceiling(0xFFFF_FFFC), Entry::Ceiling(0xFFFF_FFFE)]);
    assert_eq!(on_disk(&path), whole);
    // A refusal stops nothing.
    journal.set_key_number(3).expect("a key number");
    drop(journal);
    assert_eq!(refusal(open(&path, 1000).0.next_counter()), Some(Refusal::COUNTERS_USED_UP));

    fs::write(&path, bytes(&[Entry::Ceiling(0xFFFF_FFFF)])).expect("a file");
    let (mut journal, _) = open(&path, 1);
    assert_eq!((refusal(journal.next_counter()), journal.reserved()), (Some(Refusal::COUNTERS_USED_UP), 0));
}

/// Senders come back by first appearance with their last counters, and so does one that only the list has forgotten.
#[test]
fn senders_and_key_number_come_back() {
    let path = fresh("journal-senders");
    let (mut journal, mut senders) = open(&path, 1);
    assert_eq!(journal.key_number(), None);
    let (probe, router) = (Eui64::from(7), Eui64::from(8));
    for (sender, counter) in [(probe, 50), (router, 1), (probe, 51)] {
        senders.note_inbound_frame_counter(sender, counter).expect("a place");
        journal.note_sender(sender, counter).expect("a record");
    }
    journal.set_key_number(0).expect("a record");
    senders.forget(probe);
    assert_eq!(journal.key_number(), Some(0));
    drop(journal);
    let (journal, senders) = open(&path, 1);
    assert_eq!(journal.key_number(), Some(0));
    let expected = [SenderRecord::new(probe, 51), SenderRecord::new(router, 1), SenderRecord::FREE];
    assert_eq!(senders.records()[..3], expected);
}

/// A 65th sender is refused, nothing is written for it, and the rest goes on.
#[test]
fn a_65th_sender_is_refused() {
    let path = fresh("journal-full");
    let (mut journal, _) = open(&path, 1);
    for sender in 0..MAX_SENDERS as u64 {
        journal.note_sender(Eui64::from(sender), 1).expect("a record");
    }
    assert_eq!(refusal(journal.note_sender(Eui64::from(64), 1)), Some(Refusal::NO_PLACE));
    assert_eq!(on_disk(&path).len(), 13 * MAX_SENDERS);
    journal.note_sender(Eui64::from(63), 2).expect("a known sender");
    assert_eq!(journal.next_counter().expect("a counter"), 1);
}

/// 25, then 24: neither the file nor the list has changed.
#[test]
fn a_refused_open_changes_nothing() {
    let naming = |count: u64| bytes(&(0..count).map(|sender| Entry::Sender(sender, 1)).collect::<Vec<_>>());
    let half = [3, 1, 1, 9];
    for (content, places, expected) in [
        (vec![4], 64, Refusal::JOURNAL_KIND),
        ([naming(65), vec![4]].concat(), 64, Refusal::JOURNAL_KIND),
        ([naming(65), vec![0]].concat(), 64, Refusal::NO_PLACE),
        ([naming(65), half.to_vec()].concat(), 64, Refusal::NO_PLACE),
        ([naming(3), half.to_vec()].concat(), 2, Refusal::NO_PLACE),
    ] {
        let path = fresh("journal-refused");
        fs::write(&path, &content).expect("a file");
        let mut list = vec![SenderRecord::new(Eui64::from(99), 99); places];
        let opened = JournalFile::open(&path, 1, &mut Senders::lent(&mut list));
        assert_eq!(refusal(opened), Some(expected));
        assert_eq!(on_disk(&path), content);
        assert!(list.iter().all(|place| *place == SenderRecord::new(Eui64::from(99), 99)));
        // The lock is gone with what was refused.
        assert_eq!(refusal(JournalFile::open(&path, 1, &mut Senders::lent(&mut list))), Some(expected));
    }
}

/// A file cut at every byte: the incomplete record is gone from the disk, as is all that recovery does not look at, and what is
/// appended stands behind what is left.
#[test]
fn an_incomplete_tail_is_cut_off() {
    let mut random = Random::new(0xF11E);
    let path = fresh("journal-tail");
    let whole = bytes(&[
        Entry::Ceiling(9),
        Entry::Sender(7, 50),
        Entry::KeyNumber(2),
        Entry::Ceiling(4),
        generate::entry(&[7, 8], &mut random),
        Entry::Sender(8, 1),
    ]);
    for cut in 0..=whole.len() {
        fs::write(&path, &whole[..cut]).expect("a file");
        let read = Journal::of(&whole[..cut]);
        let (mut journal, senders) = open(&path, 3);
        assert_eq!(on_disk(&path), read.shrunk(), "cut at {cut}");
        assert_eq!((journal.last_counter(), journal.key_number()), (read.ceiling(), read.key_number()), "cut at {cut}");
        assert_eq!(noted(&senders), read.senders(), "cut at {cut}");
        if read.ceiling() < 0xFFFF_FFFA {
            assert_eq!(journal.next_counter().expect("a counter"), read.ceiling() + 1, "cut at {cut}");
            let behind = Entry::Ceiling(read.ceiling() + 3).bytes();
            assert_eq!(on_disk(&path), [read.shrunk(), behind].concat(), "cut at {cut}");
        }
    }
}

// ---- an append that a cut hit

/// The most bytes of an append: sixteen senders of 13.
const LONGEST_APPEND: usize = 208;

/// Zeros behind the records, as a disk leaves them that has a file's length before its bytes, count for nothing, and neither does
/// what stands behind a first zero, up to the longest append. One byte more is no append: the journal is refused and not rolled
/// back.
#[test]
fn a_tail_that_begins_with_0_is_an_append_that_was_cut() {
    let path = fresh("journal-zeros");
    let whole = bytes(&[Entry::Ceiling(1), Entry::Ceiling(2)]);
    assert_eq!(whole, [1, 1, 0, 0, 0, 1, 2, 0, 0, 0]);
    let torn = |length: usize| [&[0][..], &bytes(&[Entry::Sender(7, 50); 20])[1..length]].concat();
    for length in 1..=LONGEST_APPEND + 20 {
        for tail in [vec![0; length], torn(length)] {
            let file = [&whole[..], &tail].concat();
            fs::write(&path, &file).expect("a file");
            let opened = JournalFile::open(&path, 1, &mut Senders::new());
            if length <= LONGEST_APPEND {
                assert_eq!(opened.expect("a journal").next_counter().expect("a counter"), 3, "{length} bytes");
                assert_eq!(on_disk(&path), bytes(&[Entry::Ceiling(2), Entry::Ceiling(3)]));
            } else {
                let error = opened.expect_err("no append");
                assert!(matches!(&error, JournalError::Damaged { at: 10, .. }), "{length} bytes: {error}");
                assert_eq!(on_disk(&path), file);
            }
        }
    }
}

/// What counts of generated bytes, and a shrunk journal without some senders, are what the model says.
#[test]
fn what_is_finished_and_what_is_left_out() {
    let mut random = Random::new(0xF0F0);
    let mut out = [0; MAX_SHRUNK_JOURNAL];
    for round in 0..2000 {
        let entries = generate::few(&mut random);
        let behind = random.between(0, LONGEST_APPEND + 3);
        let first = random.pick(&[0, 0, 0, 1, 2, 3, 4, 255]);
        let tail = [&[first][..], &random.bytes(behind)].concat();
        let journal = [&bytes(&entries)[..], &tail[..behind]].concat();
        let read = Journal::of(&journal);
        let rest = &journal[read.complete..];
        let unfinished = read.bad_kind && rest[0] == 0 && rest.len() <= LONGEST_APPEND;
        let expected = if unfinished { &journal[..read.complete] } else { &journal[..] };
        assert_eq!(finished(&journal), expected, "round {round}: {journal:02X?}");

        let named = Journal::of(&bytes(&entries)).senders();
        let without: Vec<u64> = named.iter().map(|(sender, _)| *sender).filter(|_| random.bit()).collect();
        let is_left = |entry: &Entry| !matches!(entry, Entry::Sender(sender, _) if without.contains(sender));
        let left: Vec<Entry> = entries.iter().copied().filter(is_left).collect();
        let senders: Vec<Eui64> = without.iter().map(|sender| Eui64::from(*sender)).collect();
        let length = shrink_without(&bytes(&entries), &senders, &mut out).expect("a journal");
        assert_eq!(out[..length], Journal::of(&bytes(&left)).shrunk(), "round {round}");
    }
}

/// What the refusal says: the file, the place, and what helps.
#[test]
fn damage_is_told_with_its_place() {
    let path = fresh("journal-damaged");
    fs::write(&path, [&bytes(&LONG)[..], &[4, 0]].concat()).expect("a file");
    let error = JournalFile::open(&path, 1, &mut Senders::new()).expect_err("damage");
    let expected = format!(
        "{}: refused by 25 at byte 31: a record of a journal, or the one to be written, has a kind that is not 1 to 3; \
         store-reader journal --repair OUT writes what is before it and says what that risks",
        path.display()
    );
    assert_eq!(error.to_string(), expected);
}

/// A burst's counters are one append: all of them or none come back, and a longer list is written sixteen at a time.
#[test]
fn a_burst_is_noted_at_once() {
    let path = fresh("journal-burst");
    let (mut journal, _) = open(&path, 1);
    let notes: Vec<(Eui64, u32)> = (0..40).map(|at| (Eui64::from(at % 5), at as u32)).collect();
    journal.note_senders(&notes[..16]).expect("a burst");
    let entries = |notes: &[(Eui64, u32)]| -> Vec<Entry> {
        notes.iter().map(|(sender, counter)| Entry::Sender((*sender).into(), *counter)).collect()
    };
    assert_eq!(on_disk(&path), bytes(&entries(&notes[..16])));
    journal.note_senders(&notes[16..]).expect("two bursts");
    assert_eq!(on_disk(&path), bytes(&entries(&notes)));
    journal.note_senders(&[]).expect("nothing to write");
    // However many are noted at once, the journal stays short.
    let many: Vec<(Eui64, u32)> = (0..600).map(|at| (Eui64::from(at % 5), at as u32)).collect();
    let mut other = open(&fresh("journal-many"), 1).0;
    other.note_senders(&many).expect("many bursts");
    assert!(other.records().len() <= LONGEST);
    assert_eq!((on_disk(&path), journal.records()), (bytes(&entries(&notes)), &bytes(&entries(&notes))[..]));
}

/// Where one of several senders has no place none is noted.
#[test]
fn a_burst_with_a_65th_sender_is_refused() {
    let path = fresh("journal-full-burst");
    let (mut journal, _) = open(&path, 1);
    let notes: Vec<(Eui64, u32)> = (0..65).map(|sender| (Eui64::from(sender), 1)).collect();
    journal.note_senders(&notes[..60]).expect("60 senders");
    let before = on_disk(&path);
    assert_eq!(refusal(journal.note_senders(&notes[58..])), Some(Refusal::NO_PLACE));
    assert_eq!((on_disk(&path), journal.records()), (before.clone(), &before[..]));
    journal.note_senders(&notes[58..64]).expect("64 senders");
}

// ---- one process, one file

#[test]
fn a_file_is_one_process_s_alone() {
    let path = fresh("journal-lock");
    let (mut journal, _) = open(&path, 1);
    let again = JournalFile::open(&path, 1, &mut Senders::new()).expect_err("it is open");
    assert!(matches!(&again, JournalError::Locked(_)), "{again:?}");
    assert_eq!(again.to_string(), format!("{}: the journal is open in another process", path.display()));
    assert_eq!(journal.next_counter().expect("a counter"), 1);
    drop(journal);
    assert_eq!(open(&path, 1).0.next_counter().expect("a counter"), 2);
}

/// A journal is begun once and on purpose: opening makes none, and beginning one leaves a file as it is, an empty one and a link too.
#[test]
fn opening_and_beginning_are_two_calls() {
    let path = fresh("journal-begun");
    let mut senders = Senders::new();
    let missing = JournalFile::open(&path, 1, &mut senders).expect_err("no journal");
    assert!(matches!(&missing, JournalError::Missing(_)), "{missing:?}");
    assert!(missing.to_string().contains("move it back, for a new one hands out counters from 1 again"), "{missing}");
    assert!(!path.exists());
    senders.note_inbound_frame_counter(Eui64::from(7), 1).expect("a place");
    let mut journal = JournalFile::create(&path, 2, &mut senders).expect("a journal");
    assert_eq!((journal.next_counter().expect("a counter"), noted(&senders)), (1, vec![]));
    drop(journal);
    assert_eq!(fs::metadata(&path).expect("the journal").mode() & 0o777, 0o600);
    let link = fresh("journal-begun-link");
    symlink("nothing", &link).expect("a link");
    senders.note_inbound_frame_counter(Eui64::from(7), 1).expect("a place");
    for there in [&path, &link] {
        let exists = JournalFile::create(there, 1, &mut senders).expect_err("a file is there");
        assert!(matches!(&exists, JournalError::Exists(_)), "{exists:?}");
        assert_eq!(noted(&senders), [(7, 1)]);
    }
    // The toolchain takes no repository that has a link in it.
    fs::remove_file(&link).expect("the link is removed");
    assert_eq!(on_disk(&path), bytes(&[Entry::Ceiling(2)]));
}

#[test]
fn what_is_no_file_is_an_error_of_the_system() {
    let error = |path: PathBuf| JournalFile::open(path, 1, &mut Senders::new()).expect_err("no journal");
    let kind = |path: PathBuf| match error(path) {
        JournalError::Io { error, .. } => error.kind(),
        other => panic!("{other:?}"),
    };
    assert!(matches!(error(scratch("no-such-folder").join("journal")), JournalError::Missing(_)));
    assert_eq!(kind(root()), ErrorKind::IsADirectory);
    assert_eq!(kind("/dev/null".into()), ErrorKind::InvalidInput);
    let made = JournalFile::create(scratch("no-such-folder").join("journal"), 1, &mut Senders::new());
    let folder = format!("{}: to open the journal's folder: ", scratch("no-such-folder").display());
    assert!(made.expect_err("no folder").to_string().starts_with(&folder));
}

#[test]
fn an_error_says_what_it_is() {
    let refused = JournalError::from(Refusal::COUNTERS_USED_UP);
    assert_eq!(refused.to_string(), "refused by 26: the last counter is FFFFFFFE or above");
    let stopped = "J: the journal is to be opened anew: what of it is on disk is not known";
    assert_eq!(JournalError::Stopped("J".into()).to_string(), stopped);
    let error = std::io::Error::from_raw_os_error(28);
    let full = JournalError::Io { path: "J".into(), tried: "to append to the journal", error };
    assert_eq!(full.to_string(), "J: to append to the journal: No space left on device (os error 28)");
}

/// Lengths, and no bytes of a journal.
#[test]
fn debug_prints_lengths() {
    let path = fresh("journal-debug");
    let shown = format!("{:?}", long(&path));
    assert!(shown.contains("bytes: 31") && shown.contains("journal-debug") && shown.len() < 400, "{shown}");
}

/// A journal under which somebody has moved, removed, replaced or changed the file stops for good, also if it is put back: what is
/// appended would be found by no start. The advice never leads to an empty journal.
#[test]
fn a_journal_that_lost_its_name_stops() {
    let folder = scratch("journal-unmounted");
    let _ = (fs::remove_dir_all(&folder), fs::remove_dir_all(folder.with_extension("away")));
    fs::create_dir_all(&folder).expect("a folder");
    let (path, moved) = (folder.join("journal"), fresh("journal-moved"));
    let lose: [&dyn Fn(); 6] = [
        &|| fs::rename(&path, &moved).expect("another name"),
        &|| fs::remove_file(&path).expect("the journal"),
        &|| {
            fs::rename(&path, &moved).expect("another name");
            fs::write(&path, "another").expect("a file");
        },
        &|| {
            fs::rename(&path, &moved).expect("another name");
            symlink(&moved, &path).expect("a link");
        },
        &|| fs::write(&path, bytes(&[Entry::Ceiling(9)])).expect("a file"),
        // As where the partition is unmounted.
        &|| fs::rename(&folder, folder.with_extension("away")).expect("another name"),
    ];
    for lose in lose {
        let (_, _) = (fs::remove_file(&path), fs::remove_file(&moved));
        let mut journal = long(&path);
        assert_eq!(journal.next_counter().expect("a counter"), 10);
        let before = bytes(&[&LONG[..], &[Entry::Ceiling(12)]].concat());
        assert_eq!((on_disk(&path), journal.reserved()), (before.clone(), 2));
        lose();
        let left = fs::read(&path).ok();
        // Counters 11 and 12 are reserved, and are not handed out either.
        let error = journal.next_counter().expect_err("it has lost its name");
        assert!(matches!(&error, JournalError::Lost(_)), "{error:?}");
        assert!(error.to_string().ends_with("move that one back here, itself and no older copy, and start again"));
        if moved.exists() {
            fs::rename(&moved, &path).expect("its name");
            assert_eq!(on_disk(&path), before, "something was appended");
        } else {
            assert_eq!(fs::read(&path).ok(), left);
        }
        assert!(matches!(journal.next_counter(), Err(JournalError::Lost(_))));
        assert!(matches!(journal.reserve(), Err(JournalError::Lost(_))));
        assert!(matches!(journal.note_sender(Eui64::from(7), 52), Err(JournalError::Lost(_))));
        assert!(matches!(journal.set_key_number(1), Err(JournalError::Lost(_))));
        assert!(matches!(journal.shrink(), Err(JournalError::Lost(_))));
        assert!(matches!(journal.forget(Eui64::from(7)), Err(JournalError::Lost(_))));
    }
}

/// The folder of a process that gives its rights away.
const STICKY: &str = "STORE_READER_TEST_STICKY";

extern "C" {
    fn setuid(user: u32) -> i32;
}

/// In a folder with the sticky bit nobody removes another's file: the file beside has another name, at opening and in shrinking.
fn beside_another_owners_file(folder: &Path) {
    let path = folder.join("journal");
    // SAFETY: the function takes a number.
    assert_eq!(unsafe { setuid(NOBODY) }, 0);
    assert!(fs::remove_file(beside(&path)).is_err(), "the other's file can be removed");
    let mut journal = long(&path);
    assert_eq!(journal.shrink().expect("a shrunk journal"), 13);
    assert_eq!(on_disk(&path), bytes(&SHRUNK));
}

/// A user who owns nothing here.
const NOBODY: u32 = 65534;

/// As root may try, who becomes somebody else.
#[test]
fn another_owners_file_beside_does_not_block() {
    const NAME: &str = "another_owners_file_beside_does_not_block";
    if let Some(folder) = std::env::var_os(STICKY) {
        return beside_another_owners_file(folder.as_ref());
    }
    let folder = std::env::temp_dir().join(format!("store-reader-sticky-{}", std::process::id()));
    fs::create_dir_all(&folder).expect("a folder");
    fs::set_permissions(&folder, Permissions::from_mode(0o1777)).expect("the sticky bit");
    fs::write(folder.join("journal.shrunk"), "another's").expect("a file");
    fs::write(folder.join("journal"), []).expect("a file");
    let given = std::os::unix::fs::chown(folder.join("journal"), Some(NOBODY), Some(NOBODY));
    if given.is_err() {
        let _ = fs::remove_dir_all(&folder);
        return not_installed("root, who may give files away,");
    }
    let mut process = Command::new(std::env::current_exe().expect("this program"));
    let ran = process.args(["--exact", NAME, "--test-threads=1"]).env(STICKY, &folder).output();
    let ran = ran.expect("the process starts");
    assert!(ran.status.success(), "{}", String::from_utf8_lossy(&ran.stdout));
    assert_eq!(on_disk(&folder.join("journal.shrunk")), b"another's");
    fs::remove_dir_all(&folder).expect("the folder");
}

/// The journal of a process that forks.
const FORKING: &str = "STORE_READER_TEST_FORKING";

extern "C" {
    fn fork() -> i32;
    fn waitpid(process: i32, status: *mut i32, options: i32) -> i32;
    fn _exit(status: i32) -> !;
}

/// Runs something in a fork, which ends with 0 if it holds, and gives how it ended.
fn forked(run: impl FnOnce() -> bool) -> i32 {
    let mut status = -1;
    // SAFETY: this process has one thread, and the fork ends without running anything of the parent's.
    unsafe {
        match fork() {
            0 => _exit(if run() { 0 } else { 1 }),
            child => assert_eq!(waitpid(child, &mut status, 0), child),
        }
    }
    status
}

/// A fork hands out nothing and writes nothing, and when it ends, its copy of the journal gone, the journal is still locked.
fn fork_over(path: &Path) {
    let (mut journal, _) = open(path, 5);
    assert_eq!(journal.next_counter().expect("a counter"), 1);
    let before = on_disk(path);
    let ended = forked(|| {
        let next = journal.next_counter();
        let noted = journal.note_sender(Eui64::from(7), 1);
        let shrunk = journal.shrink();
        matches!(next, Err(JournalError::Forked(_)))
            && matches!(noted, Err(JournalError::Forked(_)))
            && matches!(shrunk, Err(JournalError::Forked(_)))
    });
    assert_eq!((ended, on_disk(path)), (0, before));
    let dropped = forked(|| {
        // SAFETY: the journal is not used again in this process.
        drop(unsafe { std::ptr::read(&journal) });
        true
    });
    assert_eq!(dropped, 0);
    assert!(matches!(JournalFile::open(path, 5, &mut Senders::new()), Err(JournalError::Locked(_))));
    assert_eq!(journal.next_counter().expect("a counter"), 2);
}

/// In a process of one thread, since only such a one may fork and go on.
#[test]
fn a_fork_hands_out_nothing() {
    const NAME: &str = "a_fork_hands_out_nothing";
    if let Some(path) = std::env::var_os(FORKING) {
        return fork_over(path.as_ref());
    }
    let path = fresh("journal-forked");
    let mut process = Command::new(std::env::current_exe().expect("this program"));
    let ran = process.args(["--exact", NAME, "--test-threads=1"]).env(FORKING, &path).output();
    let ran = ran.expect("the process starts");
    assert!(ran.status.success(), "{}", String::from_utf8_lossy(&ran.stdout));
    assert_eq!(on_disk(&path), bytes(&[Entry::Ceiling(5)]));
}

// ---- shrinking

/// Key number, ceiling, senders by their bytes on the wire: 0100 before 0001. Counters go on where they were, records stand behind
/// the shrunk ones, and all of it comes back.
#[test]
fn a_shrunk_journal_goes_on() {
    let path = fresh("journal-shrunk");
    let (mut journal, _) = open(&path, 5);
    let (probe, router) = (Eui64::from(0x0001), Eui64::from(0x0100));
    for counter in 1..=7 {
        assert_eq!(journal.next_counter().expect("a counter"), counter);
        journal.note_sender(probe, counter).expect("a record");
        journal.set_key_number(7 - counter as u8).expect("a record");
    }
    journal.note_sender(router, 50).expect("a record");
    let shrunk = bytes(&[Entry::KeyNumber(0), Entry::Ceiling(10), Entry::Sender(0x0100, 50), Entry::Sender(0x0001, 7)]);
    assert_eq!(journal.shrink().expect("a shrunk journal"), (2 * 5 + 7 * 13 + 7 * 2 + 13) - shrunk.len());
    assert_eq!((on_disk(&path), journal.records()), (shrunk.clone(), &shrunk[..]));
    assert_eq!((journal.last_counter(), journal.reserved(), journal.key_number()), (7, 3, Some(0)));
    for counter in 8..=11 {
        assert_eq!(journal.next_counter().expect("a counter"), counter);
    }
    let behind = [&shrunk[..], &Entry::Ceiling(15).bytes()].concat();
    assert_eq!((on_disk(&path), journal.records()), (behind.clone(), &behind[..]));
    drop(journal);
    let (mut journal, senders) = open(&path, 5);
    let expected = [SenderRecord::new(router, 50), SenderRecord::new(probe, 7), SenderRecord::FREE];
    assert_eq!((&senders.records()[..3], journal.key_number()), (&expected[..], Some(0)));
    assert_eq!(journal.next_counter().expect("a counter"), 16);
}

/// Generated journals recover to the same before and after opening, by the model and by opening again, which leaves the shortest
/// that does.
#[test]
fn opening_leaves_the_shortest_that_recovers_to_the_same() {
    let mut random = Random::new(0x5417);
    let path = fresh("journal-same");
    let mut shorter = 0;
    for _ in 0..60 {
        let before = bytes(&generate::few(&mut random));
        fs::write(&path, &before).expect("a file");
        let (mut journal, senders) = open(&path, 1);
        let after = on_disk(&path);
        assert_eq!((journal.records(), &after), (&after[..], &Journal::of(&before).shrunk()));
        assert_eq!(noted(&senders), Journal::of(&before).senders(), "{before:02X?}");
        assert_eq!(journal.shrink().expect("nothing to do"), 0);
        drop(journal);
        let (journal, senders) = open(&path, 1);
        let mut senders = noted(&senders);
        senders.sort_unstable();
        assert_eq!((journal.last_counter(), senders, journal.key_number()), state(&before));
        shorter += usize::from(after.len() < before.len());
    }
    assert!(shorter > 30, "{shorter} could be shrunk");
}

/// A journal of some megabytes, as an earlier version left them, is read piece by piece to the same: its senders are still in the order
/// of their first appearance, and a record may stand across two pieces.
#[test]
fn a_long_journal_is_read_in_pieces() {
    let path = fresh("journal-pieces");
    let entry = |at: u32| match at % 9 {
        0 => Entry::Ceiling(at),
        4 => Entry::KeyNumber(at as u8),
        _ => Entry::Sender(u64::from(at * 37 % 61), at),
    };
    let whole = bytes(&(0..200_000).map(entry).collect::<Vec<_>>());
    for (length, end) in [(whole.len(), 0), (whole.len() - 3, 0), (whole.len(), 1), (whole.len(), LONGEST_APPEND)] {
        let file = [&whole[..length], &vec![0; end]].concat();
        fs::write(&path, &file).expect("a file");
        let read = Journal::of(&whole[..length]);
        let (journal, senders) = open(&path, 1);
        assert_eq!((journal.last_counter(), noted(&senders)), (read.ceiling(), read.senders()));
        assert_eq!(on_disk(&path), read.shrunk());
    }
    // Damage behind megabytes is told with its place, and a 65th sender refused.
    fs::write(&path, [&whole[..], &[0; LONGEST_APPEND + 1]].concat()).expect("a file");
    let error = JournalFile::open(&path, 1, &mut Senders::new()).expect_err("damage");
    assert!(matches!(error, JournalError::Damaged { at, .. } if at == whole.len() as u64), "{error}");
    let more = bytes(&(0..100).map(|sender| Entry::Sender(sender, 1)).collect::<Vec<_>>());
    fs::write(&path, [&more[..], &whole].concat()).expect("a file");
    assert_eq!(refusal(JournalFile::open(&path, 1, &mut Senders::new())), Some(Refusal::NO_PLACE));
    fs::write(&path, [&more[..], &whole, &[4]].concat()).expect("a file");
    let error = JournalFile::open(&path, 1, &mut Senders::new()).expect_err("25 comes before 24");
    let end = (more.len() + whole.len()) as u64;
    assert!(matches!(error, JournalError::Damaged { at, .. } if at == end), "{error}");
}

/// A file of a terabyte, which has no blocks, is refused at its first byte: it is not read whole.
#[test]
fn a_file_that_is_far_too_long_is_not_read() {
    let path = fresh("journal-terabyte");
    fs::File::create(&path).and_then(|file| file.set_len(1 << 40)).expect("a file of no blocks");
    let error = JournalFile::open(&path, 1, &mut Senders::new()).expect_err("no journal");
    assert!(matches!(error, JournalError::Damaged { at: 0, .. }), "{error}");
    fs::remove_file(&path).expect("the file");
}

/// Of an empty journal, and of one that is as short as can be, nothing is written: the file is the same.
#[test]
fn where_nothing_is_saved_nothing_is_written() {
    let path = fresh("journal-short");
    for records in [&[][..], &SHRUNK, &[Entry::KeyNumber(3), Entry::Ceiling(9), Entry::Sender(7, 51)]] {
        fs::write(&path, bytes(records)).expect("a file");
        let (mut journal, _) = open(&path, 3);
        let file = fs::metadata(&path).expect("the journal").ino();
        assert_eq!(journal.shrink().expect("nothing to do"), 0);
        assert!(!journal.forget(Eui64::from(8)).expect("nothing to do"));
        assert_eq!(fs::metadata(&path).expect("the journal").ino(), file);
        assert_eq!((on_disk(&path), journal.records()), (bytes(records), &bytes(records)[..]));
    }
}

/// What a cut left beside counts for nothing, whatever it is, and is written anew from nothing. A link there is not followed.
#[test]
fn what_was_left_beside_is_written_anew() {
    let (path, victim) = (fresh("journal-left"), fresh("journal-victim"));
    fs::write(&victim, "precious").expect("a file");
    let leave: [&dyn Fn(&Path); 3] = [
        &|at| fs::write(at, bytes(&[Entry::Ceiling(5000); 100])).expect("a file"),
        &|at| fs::write(at, [4]).expect("a file"),
        &|at| symlink(&victim, at).expect("a link"),
    ];
    for leave in leave {
        leave(&beside(&path));
        fs::write(&path, bytes(&LONG)).expect("a file");
        let (journal, _) = open(&path, 3);
        assert_eq!((journal.records(), journal.last_counter()), (&bytes(&SHRUNK)[..], 9));
        assert_eq!(on_disk(&path), bytes(&SHRUNK));
        assert!(fs::symlink_metadata(&path).expect("the journal").is_file());
        assert!(fs::symlink_metadata(beside(&path)).is_err());
    }
    assert_eq!(on_disk(&victim), b"precious");
}

/// Where the first name beside cannot be used, here because it is a folder's, the next one is taken. A name of 255 bytes has none
/// behind it, and the front of it is taken.
#[test]
fn another_name_beside_is_taken() {
    let path = fresh("journal-in-the-way");
    fs::create_dir_all(beside(&path)).expect("a folder");
    let mut journal = long(&path);
    assert_eq!(journal.shrink().expect("a shrunk journal"), 13);
    assert_eq!(on_disk(&path), bytes(&SHRUNK));
    fs::remove_dir(beside(&path)).expect("the folder");
    let longest = fresh(&"j".repeat(255));
    assert_eq!(long(&longest).shrink().expect("a shrunk journal"), 13);
    assert_eq!(on_disk(&longest), bytes(&SHRUNK));
}

/// Where no file can be made beside, here because folders have all the names, the old journal goes on, and is shrunk when it can be.
#[test]
fn where_it_cannot_be_shrunk_the_old_one_goes_on() {
    let path = fresh("journal-no-name");
    let mut journal = long(&path);
    let names: Vec<PathBuf> = (0..20)
        .map(|at| match at {
            0 => beside(&path),
            at => PathBuf::from(format!("{}.{at}", beside(&path).display())),
        })
        .collect();
    names.iter().for_each(|name| fs::create_dir_all(name).expect("a folder"));
    let error = journal.shrink().expect_err("no name");
    let expected = format!("{}: to make a file beside the journal, which is as it was: ", beside(&path).display());
    assert!(error.to_string().starts_with(&expected), "{error}");
    goes_on(&mut journal, &path);
    names.iter().for_each(|name| fs::remove_dir(name).expect("the folder"));
    assert_eq!(journal.shrink().expect("a shrunk journal"), 13 + 5);
    assert_eq!(journal.next_counter().expect("a counter"), 11);
}

#[test]
fn a_new_file_has_the_permissions_and_the_lock() {
    let path = fresh("journal-permissions");
    for mode in [0o600, 0o640, 0o666] {
        fs::write(&path, []).expect("a file");
        fs::set_permissions(&path, Permissions::from_mode(mode)).expect("permissions");
        let mut journal = long(&path);
        assert_eq!(fs::metadata(&path).expect("the journal").mode() & 0o777, mode);
        assert_eq!(journal.shrink().expect("a shrunk journal"), 13);
        assert_eq!(fs::metadata(&path).expect("the journal").mode() & 0o777, mode);
        let again = JournalFile::open(&path, 1, &mut Senders::new());
        assert!(matches!(&again, Err(JournalError::Locked(_))), "{again:?}");
        drop(journal);
        assert_eq!(open(&path, 1).0.next_counter().expect("a counter"), 10);
    }
}

/// Another owner's journal stays that owner's where the process may give files away, as root may.
#[test]
fn a_new_file_has_the_owner() {
    let path = fresh("journal-owner");
    fs::write(&path, bytes(&LONG)).expect("a file");
    if std::os::unix::fs::chown(&path, Some(NOBODY), Some(NOBODY)).is_err() {
        return not_installed("root, who may give files away,");
    }
    assert_eq!(open(&path, 1).0.records(), bytes(&SHRUNK));
    let file = fs::metadata(&path).expect("the journal");
    assert_eq!((file.uid(), file.gid()), (NOBODY, NOBODY));
}

/// A symbolic link stays one and the file that it points to is replaced; another hard link keeps the old journal.
#[test]
fn links_to_a_journal() {
    let folder = scratch("linked");
    fs::create_dir_all(&folder).expect("a folder");
    let (path, hard, soft) =
        (folder.join("linked.journal"), fresh("journal-hard-link"), fresh("journal-symbolic-link"));
    let _ = fs::remove_file(&path);
    fs::write(&path, bytes(&LONG)).expect("a file");
    fs::hard_link(&path, &hard).expect("a link");
    symlink(&path, &soft).expect("a link");
    drop(open(&soft, 1));
    assert!(fs::symlink_metadata(&soft).expect("the link").is_symlink());
    assert_eq!(on_disk(&soft), bytes(&SHRUNK));
    // The toolchain takes no repository that has a link in it.
    fs::remove_file(&soft).expect("the link is removed");
    assert_eq!((on_disk(&path), on_disk(&hard)), (bytes(&SHRUNK), bytes(&LONG)));
}

// ---- forgetting

/// A probe that was replaced frees its place: the 65th is noted then. Nothing of it comes back, all else does, and counters go on.
#[test]
fn a_forgotten_sender_frees_its_place() {
    let path = fresh("journal-forgotten");
    let (mut journal, _) = open(&path, 5);
    assert_eq!(journal.next_counter().expect("a counter"), 1);
    journal.set_key_number(3).expect("a record");
    for sender in 0..MAX_SENDERS as u64 {
        journal.note_sender(Eui64::from(sender), 1).expect("a record");
    }
    journal.note_sender(Eui64::from(20), 2).expect("a record");
    assert_eq!(refusal(journal.note_sender(Eui64::from(64), 9)), Some(Refusal::NO_PLACE));
    assert!(journal.forget(Eui64::from(20)).expect("a known sender"));
    assert!(!journal.forget(Eui64::from(20)).expect("nothing to do"));
    assert_eq!((journal.last_counter(), journal.reserved(), journal.key_number()), (1, 4, Some(3)));
    assert_eq!(journal.next_counter().expect("a counter"), 2);
    journal.note_sender(Eui64::from(64), 9).expect("the place that is free");
    drop(journal);
    let (mut journal, senders) = open(&path, 5);
    let expected: Vec<(u64, u32)> = (0..64).filter(|at| *at != 20).map(|at| (at, 1)).chain([(64, 9)]).collect();
    assert_eq!((noted(&senders), journal.key_number()), (expected, Some(3)));
    assert_eq!(journal.next_counter().expect("a counter"), 6);
}

// ---- it shrinks by itself

/// Four times the longest shrunk journal.
const LONGEST: usize = 4 * 839;

/// Whatever is noted, the journal stays short, and no call fails or forgets anything.
#[test]
fn a_journal_shrinks_by_itself() {
    let path = fresh("journal-years");
    let (mut journal, _) = open(&path, 3);
    let (mut replaced, mut file) = (0, fs::metadata(&path).expect("the journal").ino());
    for at in 1..=1200_u32 {
        journal.note_sender(Eui64::from(u64::from(at % 5)), at).expect("a record");
        assert_eq!(journal.next_counter().expect("a counter"), at);
        assert!(journal.records().len() <= LONGEST && on_disk(&path) == journal.records());
        let now = fs::metadata(&path).expect("the journal").ino();
        replaced += usize::from(now != file);
        file = now;
    }
    assert!(replaced >= 4, "{replaced}");
    drop(journal);
    let (journal, senders) = open(&path, 3);
    let mut last = noted(&senders);
    last.sort_unstable();
    assert_eq!((last, journal.last_counter()), ((0..5).map(|at| (at, 1196 + (at as u32 + 4) % 5)).collect(), 1200));
}

/// A call that would shrink and cannot succeeds all the same, and shrinking is tried again later, not each time.
#[test]
fn a_failure_to_shrink_fails_no_call() {
    let folder = scratch("journal-unshrinkable");
    let _ = fs::remove_dir_all(&folder);
    fs::create_dir_all(&folder).expect("a folder");
    let path = folder.join("journal");
    let (mut journal, _) = open(&path, 3);
    let names: Vec<PathBuf> = (0..20)
        .map(|at| folder.join(if at == 0 { "journal.shrunk".into() } else { format!("journal.shrunk.{at}") }))
        .collect();
    names.iter().for_each(|name| fs::create_dir(name).expect("a folder"));
    for at in 1..=600_u32 {
        journal.note_sender(Eui64::from(7), at).expect("a record");
    }
    assert_eq!(on_disk(&path).len(), 600 * 13);
    names.iter().for_each(|name| fs::remove_dir(name).expect("the folder"));
    for at in 601..=1100_u32 {
        journal.note_sender(Eui64::from(7), at).expect("a record");
    }
    assert!(on_disk(&path).len() < LONGEST, "{}", on_disk(&path).len());
}

/// The name of a journal in the folder where a process of its own starts.
const RELATIVE: &str = "STORE_READER_TEST_RELATIVE";

/// A path is that of the folder in which the process was when it opened the journal.
#[test]
fn the_process_may_change_its_folder() {
    const NAME: &str = "the_process_may_change_its_folder";
    if let Some(name) = std::env::var_os(RELATIVE) {
        let (mut journal, _) = open(name.as_ref(), 3);
        journal.note_sender(Eui64::from(7), 51).expect("a record");
        std::env::set_current_dir("/").expect("another folder");
        assert_eq!(journal.shrink().expect("a shrunk journal"), 13);
        return;
    }
    let path = fresh("journal-relative");
    fs::write(&path, bytes(&SHRUNK_BEFORE)).expect("a file");
    let mut process = Command::new(std::env::current_exe().expect("this program"));
    process.args(["--exact", NAME]).current_dir(scratch("")).env(RELATIVE, path.file_name().expect("a name"));
    let ran = process.output().expect("the process starts");
    assert!(ran.status.success(), "{}", String::from_utf8_lossy(&ran.stdout));
    assert_eq!(on_disk(&path), bytes(&SHRUNK));
}

// ---- what the system is told, and in which order

/// The journal of a process that `strace` looks at.
const TRACED: &str = "STORE_READER_TEST_TRACED";

/// A new journal with a ceiling, and the same again with a part of a record behind it, which is shrunk between two ceilings.
fn two_lives(path: &Path) {
    assert_eq!(open(path, 1).0.next_counter().expect("a counter"), 1);
    let mut file = OpenOptions::new().append(true).open(path).expect("the journal");
    file.write_all(&[1, 2]).expect("a part of a record");
    drop(file);
    let (mut journal, _) = open(path, 1);
    let notes: Vec<(Eui64, u32)> = (0..16).map(|sender| (Eui64::from(sender), 1)).collect();
    journal.note_senders(&notes).expect("a burst");
    assert_eq!(journal.next_counter().expect("a counter"), 2);
    assert_eq!(journal.shrink().expect("a shrunk journal"), 5);
    assert_eq!(journal.next_counter().expect("a counter"), 3);
}

/// The folder can be flushed before a file is made in it, and has the file's name before a record is written. What was recovered is
/// on disk in a new file before it has the journal's name, locked, and the name before a record is written. An append, of a record
/// or of a burst, is two writes, the second of one byte, each of them on disk before anything else happens. As `strace` sees it,
/// where it is installed and may trace.
#[test]
fn each_step_waits_for_the_disk() {
    const NAME: &str = "each_step_waits_for_the_disk";
    if let Some(path) = std::env::var_os(TRACED) {
        return two_lives(path.as_ref());
    }
    let folder = scratch("traced");
    fs::create_dir_all(&folder).expect("a folder");
    let (path, trace) = (folder.join("traced.journal"), fresh("journal-trace"));
    let _ = fs::remove_file(&path);
    let (program, variable) = (std::env::current_exe().expect("this program"), format!("{TRACED}={}", path.display()));
    let text = |path: &Path| path.to_str().expect("UTF-8").to_string();
    let calls = "trace=flock,pwrite64,ftruncate,fsync,fdatasync,rename";
    let options = ["-f", "-y", "-e", calls, "-E", &variable, "-o", &text(&trace), &text(&program), "--exact", NAME];
    let Some(ran) = tool("strace", &options) else { return };
    let lines = fs::read_to_string(&trace).unwrap_or_default();
    if lines.is_empty() {
        return not_installed("strace that may trace");
    }
    assert!(ran.status.success(), "{}", String::from_utf8_lossy(&ran.stdout));
    // `123 fsync(3</folder/traced.journal>) = 0`: the call, which file it is for, or the folder, and for a write its length.
    let files = [("/traced.journal.shrunk", "beside"), ("deleted", "old"), ("/traced.journal", "file")];
    let seen: Vec<String> = lines
        .lines()
        .filter_map(|line| {
            let call = line.split_whitespace().nth(1)?.split('(').next()?;
            let of = files.iter().find(|(name, _)| line.contains(name)).map_or("folder", |(_, of)| of);
            let length = match call {
                "pwrite64" => format!(" {}", line.rsplit_once(" = ")?.1),
                _ => String::new(),
            };
            line.contains("/traced").then(|| format!("{call} {of}{length}"))
        })
        .collect();
    let append = |length: usize| {
        let (first, second) = (format!("pwrite64 file {length}"), "pwrite64 file 1".to_string());
        [first, "fdatasync file".into(), second, "fdatasync file".into()]
    };
    let replaced = |length: usize| {
        let written = format!("pwrite64 beside {length}");
        ["fsync folder", "flock beside", &written, "fsync beside", "rename beside", "fsync folder"].map(String::from)
    };
    let strings = |calls: &[&str]| calls.iter().map(|call| call.to_string()).collect::<Vec<_>>();
    let expected = [
        strings(&["fsync folder", "flock file", "fsync file", "fsync folder"]),
        append(5).to_vec(),
        strings(&["flock file"]),
        replaced(5).to_vec(),
        append(16 * 13).to_vec(),
        append(5).to_vec(),
        replaced(5 + 16 * 13).to_vec(),
        append(5).to_vec(),
    ];
    assert_eq!(seen, expected.concat(), "{lines}");
}
