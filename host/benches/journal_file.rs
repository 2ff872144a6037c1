//! What a journal in a file takes: on the disk of the folder for temporary files the time of a note, of a burst's notes and of a counter,
//! most of it waiting; and in memory ten million notes, which take as long at the end as at the beginning. `make bench` runs it.
use std::fs::{self, OpenOptions};
use std::io::Write;
use std::path::{Path, PathBuf};
use std::time::{Duration, Instant};
use store_reader::{Eui64, JournalFile, Senders, MAX_BURST, MAX_SENDERS};

/// How often a call, or a group of notes, is timed.
const ROUNDS: u32 = ROW / GROUP;

/// The notes in memory, how many of them make a row, and how many are timed together.
const NOTES: u32 = 10_000_000;
const ROW: u32 = 1_000_000;
const GROUP: u32 = 2500;

/// The counters that are reserved at a time.
const STEP: u32 = 1000;

fn main() {
    on_disk(&std::env::temp_dir());
    in_memory(Path::new("/dev/shm"));
}

/// A new journal in a folder.
fn journal(folder: &Path) -> (JournalFile, PathBuf) {
    let path = folder.join(format!("store-reader-bench-{}.journal", std::process::id()));
    let journal = JournalFile::create(&path, STEP, &mut Senders::new()).unwrap_or_else(|error| panic!("{error}"));
    (journal, path)
}

/// The sender of a note: 64 in turn.
fn sender(at: u32) -> Eui64 {
    Eui64::from(0x0012_4B00_1CA1_0000 + u64::from(at) % MAX_SENDERS as u64)
}

/// The median of some rounds, and the quartiles.
fn timed(mut run: impl FnMut(u32)) -> [Duration; 3] {
    let mut times: Vec<Duration> = (0..ROUNDS)
        .map(|at| {
            let started = Instant::now();
            run(at);
            started.elapsed()
        })
        .collect();
    times.sort_unstable();
    [2, 1, 3].map(|quarter| times[times.len() * quarter / 4])
}

fn on_disk(folder: &Path) {
    println!("\n### A journal in a file, on the disk\n");
    println!(
        "| {:<38} | {:>7} | {:>8} | {:>14} | {:>14} |",
        "call", "flushes", "µs", "lower quartile", "upper quartile"
    );
    println!("|{}|{}:|{}:|{}:|{}:|", "-".repeat(40), "-".repeat(8), "-".repeat(9), "-".repeat(15), "-".repeat(15));
    let (mut journal, path) = journal(folder);
    let row = |call: &str, flushes: u32, times: [Duration; 3]| {
        let [median, lower, upper] = times.map(|time| time.as_nanos() as f64 / 1000.0);
        println!("| {call:<38} | {flushes:>7} | {median:>8.1} | {lower:>14.1} | {upper:>14.1} |");
    };
    row("note_sender", 2, timed(|at| journal.note_sender(sender(at), at).expect("a note")));
    let burst = |at: u32| -> Vec<(Eui64, u32)> { (0..MAX_BURST as u32).map(|n| (sender(at + n), at)).collect() };
    row("note_senders, 16 at once", 2, timed(|at| journal.note_senders(&burst(at)).expect("a burst")));
    journal.reserve().expect("a ceiling");
    row("next_counter, reserved before", 0, timed(|at| assert_eq!(journal.next_counter().expect("a counter"), at + 1)));
    row("set_key_number", 2, timed(|at| journal.set_key_number(at as u8).expect("a key number")));
    drop(journal);
    let open = |_| drop(JournalFile::open(&path, STEP, &mut Senders::new()).expect("a journal"));
    row("JournalFile::open, 64 senders", 3, timed(open));
    let plain = OpenOptions::new().append(true).open(&path).expect("the file");
    let write = |_| (&plain).write_all(&[0; 13]).and_then(|()| plain.sync_data()).expect("a flush");
    row("for comparison: 13 bytes and a flush", 1, timed(write));
    fs::remove_file(&path).expect("the journal");
}

fn in_memory(folder: &Path) {
    if !folder.is_dir() {
        println!("\nThere is no {}: {NOTES} notes are not timed.", folder.display());
        return;
    }
    println!("\n### {NOTES} notes, in memory: what is taken beside the disk\n");
    println!(
        "| {:>8} | {:>9} | {:>14} | {:>14} | {:>14} |",
        "notes", "ns a note", "lower quartile", "upper quartile", "longest, bytes"
    );
    println!("|{}:|{}:|{}:|{}:|{}:|", "-".repeat(9), "-".repeat(10), "-".repeat(15), "-".repeat(15), "-".repeat(15));
    let (mut journal, path) = journal(folder);
    for row in 0..NOTES / ROW {
        let mut longest = 0;
        let times = timed(|group| {
            for at in row * ROW + group * GROUP..row * ROW + (group + 1) * GROUP {
                journal.note_sender(sender(at), at).expect("a note");
                longest = longest.max(journal.records().len());
            }
        });
        let [median, lower, upper] = times.map(|time| time.as_nanos() / u128::from(GROUP));
        println!("| {:>8} | {median:>9} | {lower:>14} | {upper:>14} | {longest:>14} |", (row + 1) * ROW);
    }
    fs::remove_file(&path).expect("the journal");
}
