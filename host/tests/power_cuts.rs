//! A stand-in for power cuts: a process that keeps its counters in a journal file, and shrinks it now and then, is killed at random
//! moments. The file loses a random part of what was being appended, or shrinking is undone. No counter comes twice, and nothing is
//! lost that the process was told is on disk. `disk_states.rs` tries every state, one by one.
#[allow(dead_code)]
mod support;

use std::collections::BTreeMap;
use std::fs::{self, OpenOptions};
use std::io::{BufRead, BufReader, Write};
use std::os::unix::fs::MetadataExt;
use std::path::{Path, PathBuf};
use std::process::{Command, Stdio};
use std::thread::sleep;
use std::time::Duration;
use store_reader::{Eui64, JournalError, JournalFile, SenderRecord, Senders};
use support::command::tool;
use support::journal_files::{beside, fresh, on_disk, open_or_create, state};
use support::model::journal::Journal;
use support::random::Random;

const SEED: u64 = 0xC075;
/// How often the power is cut.
const CUTS: usize = 600;
/// How much a process does at most before it waits for its end.
const STEPS: usize = 60;
/// The senders whose counters are noted; the key number is kept as one more value behind them.
const SENDERS: usize = 4;

/// The journal of a process that is to report what it does, and the seed of its life.
const JOURNAL: &str = "STORE_READER_TEST_JOURNAL";
const LIFE: &str = "STORE_READER_TEST_LIFE";

/// The other name of a file that is about to be shrunk.
fn old(path: &Path) -> PathBuf {
    path.with_extension("old")
}

// ---- the process

/// A gateway: each line that it reports stands for something that is done, but for `try` and `shrinking`.
///
///   opened LENGTH VALUE..     the records on disk, and what was recovered: each sender's counter, then the key number
///   counter N LENGTH          a counter was handed out
///   reserved LENGTH           the next ones may be
///   try PLACE VALUE           a value is about to be written
///   done PLACE VALUE LENGTH   it is on disk
///   shrinking LENGTH          the journal is about to be shrunk, and its file has another name besides
///   shrunk LENGTH             it is done, and so are the records that are left
fn live(path: &Path, random: &mut Random, report: &mut dyn FnMut(String)) -> Result<(), JournalError> {
    let mut senders = Senders::new();
    let mut journal = open_or_create(path, random.between(1, 5) as u32, &mut senders)?;
    let mut values: Vec<u32> = vec![0; SENDERS + 1];
    for (sender, counter) in senders.records().iter().filter_map(SenderRecord::noted) {
        values[u64::from(sender) as usize] = counter;
    }
    values[SENDERS] = journal.key_number().unwrap_or(0).into();
    let words: Vec<String> = values.iter().map(u32::to_string).collect();
    report(format!("opened {} {}", journal.records().len(), words.join(" ")));
    for step in 0..STEPS {
        match random.below(11) {
            which if which == 10 || step == STEPS - 1 => {
                let _ = fs::remove_file(old(path));
                fs::hard_link(path, old(path)).expect("another name");
                report(format!("shrinking {}", journal.records().len()));
                journal.shrink()?;
                report(format!("shrunk {}", journal.records().len()));
            }
            0..=5 => {
                let counter = journal.next_counter()?;
                report(format!("counter {counter} {}", journal.records().len()));
            }
            6 => {
                journal.reserve()?;
                report(format!("reserved {}", journal.records().len()));
            }
            which => {
                let place = if which == 7 { SENDERS } else { random.below(SENDERS) };
                values[place] = (values[place] + 1) % 256;
                report(format!("try {place} {}", values[place]));
                match place {
                    SENDERS => journal.set_key_number(values[place] as u8)?,
                    _ => journal.note_sender(Eui64::from(place as u64), values[place])?,
                }
                report(format!("done {place} {} {}", values[place], journal.records().len()));
            }
        }
    }
    Ok(())
}

/// Without cuts a gateway's counters rise by one in each life. Started by the test below, on the journal that it names, it reports to
/// standard error, a line in one write, until it is killed.
#[test]
fn a_gateway() {
    if let Some(path) = std::env::var_os(JOURNAL) {
        let life = std::env::var(LIFE).ok().and_then(|text| text.parse().ok()).expect("a seed");
        let mut report = |line: String| std::io::stderr().write_all((line + "\n").as_bytes()).expect("a reader");
        live(path.as_ref(), &mut Random::new(life), &mut report).expect("a journal of this process alone");
        sleep(Duration::from_secs(20));
        return;
    }
    let path = fresh("gateway.journal");
    for life in 0..20 {
        let mut counters = Vec::new();
        let ceiling = fs::read(&path).map_or(0, |bytes| Journal::of(&bytes).ceiling());
        let mut report = |line: String| counters.extend(Report::of(&line).counter());
        live(&path, &mut Random::new(life), &mut report).expect("a journal");
        let expected: Vec<u32> = (ceiling + 1..).take(counters.len()).collect();
        assert!(counters == expected && counters.len() > 20, "life {life}: {counters:?} after {ceiling}");
    }
}

// ---- its reports

#[derive(Debug, Clone, PartialEq)]
enum Report {
    Opened { length: u64, values: Vec<u32> },
    Counter { counter: u32, length: u64 },
    Reserved { length: u64 },
    Try { place: usize, value: u32 },
    Done { place: usize, value: u32, length: u64 },
    Shrinking { length: u64 },
    Shrunk { length: u64 },
}

impl Report {
    fn of(line: &str) -> Self {
        let mut words = line.split(' ');
        let kind = words.next().unwrap_or("");
        let numbers: Vec<u64> = words.map(|word| word.parse().unwrap_or_else(|_| panic!("{line:?}"))).collect();
        match (kind, &numbers[..]) {
            ("opened", [length, values @ ..]) => {
                Self::Opened { length: *length, values: values.iter().map(|value| *value as u32).collect() }
            }
            ("counter", [counter, length]) => Self::Counter { counter: *counter as u32, length: *length },
            ("reserved", [length]) => Self::Reserved { length: *length },
            ("try", [place, value]) => Self::Try { place: *place as usize, value: *value as u32 },
            ("done", [place, value, length]) => {
                Self::Done { place: *place as usize, value: *value as u32, length: *length }
            }
            ("shrinking", [length]) => Self::Shrinking { length: *length },
            ("shrunk", [length]) => Self::Shrunk { length: *length },
            _ => panic!("{line:?}"),
        }
    }

    fn counter(&self) -> Option<u32> {
        match self {
            Self::Counter { counter, .. } => Some(*counter),
            _ => None,
        }
    }
}

/// Whether the journal is being shrunk behind these reports.
fn is_shrinking(reports: &[Report]) -> bool {
    matches!(reports.last(), Some(Report::Shrinking { .. }))
}

/// Starts a gateway over the file, kills it at a random moment, and gives what it had reported.
fn killed(path: &Path, life: u64, random: &mut Random) -> Vec<Report> {
    let mut child = Command::new(std::env::current_exe().expect("this program"))
        .args(["--exact", "a_gateway", "--nocapture"])
        .env(JOURNAL, path)
        .env(LIFE, life.to_string())
        .stdout(Stdio::null())
        .stderr(Stdio::piped())
        .spawn()
        .expect("the gateway starts");
    let mut lines = BufReader::new(child.stderr.take().expect("its reports")).lines();
    // After so many reports and a moment, before the first, or when the journal is being shrunk.
    let (reports, moment) = match random.below(100) {
        0..=7 => (0, 4000),
        // Disks differ in how long that takes.
        8..=27 => (usize::MAX, 1 << random.between(5, 13)),
        _ => (random.between(1, 40), 300),
    };
    let mut seen: Vec<Report> = Vec::new();
    while seen.len() < reports && (reports < usize::MAX || !is_shrinking(&seen)) {
        seen.push(Report::of(&lines.next().expect("a report").expect("a line")));
    }
    sleep(Duration::from_micros(random.below(moment) as u64));
    child.kill().expect("the gateway is there");
    child.wait().expect("the gateway ends");
    seen.extend(lines.map(|line| Report::of(&line.expect("a line"))));
    seen
}

/// What is known of the gateway from its reports.
#[derive(Default)]
struct Known {
    highest: u32,
    counters: usize,
    /// The records that it was told are on disk.
    length: u64,
    /// The value of each place that is on disk, and the one that may be.
    values: BTreeMap<usize, (u32, Option<u32>)>,
}

impl Known {
    fn note(&mut self, report: &Report) {
        match report {
            Report::Opened { length, values } => {
                for (place, value) in values.iter().enumerate() {
                    let (on_disk, tried) = self.values.get(&place).copied().unwrap_or_default();
                    assert!(
                        *value == on_disk || Some(*value) == tried,
                        "place {place}: {value} after {on_disk}, {tried:?}"
                    );
                    self.values.insert(place, (*value, None));
                }
                self.length = *length;
            }
            Report::Counter { counter, length } => {
                assert!(*counter > self.highest, "counter {counter} came after {}", self.highest);
                (self.highest, self.length) = (*counter, *length);
                self.counters += 1;
            }
            Report::Try { place, value } => self.values.entry(*place).or_default().1 = Some(*value),
            Report::Done { place, value, length } => {
                self.values.insert(*place, (*value, None));
                self.length = *length;
            }
            Report::Reserved { length } | Report::Shrinking { length } | Report::Shrunk { length } => {
                self.length = *length;
            }
        }
    }
}

/// Cuts that fell on shrinking: all, those that left something of the new file beside the old, those with the new one in its place,
/// and of these the ones that were undone.
#[derive(Debug, Default)]
struct Shrinkings {
    all: usize,
    beside: usize,
    renamed: usize,
    undone: usize,
}

impl Shrinkings {
    /// What can be left where the power fails while a journal of this length is being shrunk: the old one as it was, and of the file
    /// beside any part; or the whole of the new one in its place, unless the disk had not been told that it has the name.
    fn cut(&mut self, path: &Path, length: u64, random: &mut Random) {
        let (old, beside) = (old(path), beside(path));
        let (before, now) = (on_disk(&old), on_disk(path));
        assert_eq!(before.len() as u64, length, "the old journal has changed");
        self.all += 1;
        if inode(path) == inode(&old) {
            let Ok(file) = OpenOptions::new().write(true).open(&beside) else { return };
            self.beside += 1;
            match random.below(3) {
                0 => fs::remove_file(&beside).expect("the file beside"),
                1 => file.set_len(random.below(on_disk(&beside).len() + 1) as u64).expect("a part of it"),
                _ => {}
            }
            return;
        }
        self.renamed += 1;
        assert_eq!(state(&now), state(&before), "{before:02X?} shrunk to {now:02X?}");
        if random.bit() {
            self.undone += 1;
            fs::rename(&old, path).expect("the old journal comes back");
            fs::write(&beside, &now[..random.between(0, now.len())]).expect("the new one beside it");
        }
    }
}

fn inode(path: &Path) -> u64 {
    fs::metadata(path).expect("a file").ino()
}

/// What a cut leaves of the append in flight behind so many bytes: before its kind byte is written any part of it, its length before its
/// bytes too; then all of it, with that byte or without.
fn cut_append(path: &Path, on_disk: usize, random: &mut Random) {
    let bytes = fs::read(path).expect("the journal");
    let (records, tail) = bytes.split_at(on_disk);
    let mut tail = tail.to_vec();
    match tail.first() {
        Some(0) => {
            tail.truncate(random.between(0, tail.len()));
            let kept = random.between(0, tail.len());
            tail[kept..].fill(0);
        }
        Some(_) if random.bit() => tail[0] = 0,
        _ => {}
    }
    fs::write(path, [records, &tail].concat()).expect("the journal");
}

#[test]
fn no_counter_comes_twice() {
    let mut random = Random::new(SEED);
    let path = fresh("power-cuts.journal");
    let (mut known, mut inside, mut at_rest, mut before_opening) = (Known::default(), 0, 0, 0);
    let mut shrinkings = Shrinkings::default();
    for life in 0..CUTS as u64 {
        let reports = killed(&path, life, &mut random);
        reports.iter().for_each(|report| known.note(report));
        if reports.is_empty() {
            // The old file, or the new one that opening puts in its place.
            before_opening += 1;
            continue;
        }
        if is_shrinking(&reports) {
            shrinkings.cut(&path, known.length, &mut random);
            known.length = on_disk(&path).len() as u64;
        }
        let written = on_disk(&path).len() as u64;
        assert!(written >= known.length, "life {life}: {written} bytes of {}", known.length);
        cut_append(&path, known.length as usize, &mut random);
        let bytes = on_disk(&path);
        let read = Journal::of(&bytes);
        let tail = &bytes[read.complete..];
        assert!(!read.bad_kind || tail[0] == 0, "life {life}: {tail:02X?} behind the records");
        assert!(read.ceiling() >= known.highest, "life {life}: a ceiling of {}", read.ceiling());
        match tail.is_empty() {
            false => inside += 1,
            true => at_rest += 1,
        }
    }
    println!(
        "{} counters over {CUTS} cuts: {inside} inside an append, {at_rest} at rest, {before_opening} before opening; {shrinkings:?}",
        known.counters
    );
    assert!(inside >= 20 && at_rest >= 20 && known.counters >= 2000, "{inside}, {at_rest}, {}", known.counters);
    assert!(shrinkings.all >= 60, "{shrinkings:?}");
}

// ---- a disk that is full

/// In a process whose files may have 1,024 bytes: the 79th sender record does not fit. Nothing more is handed out, though counters are
/// reserved, until the file is opened anew, which leaves a ceiling and a sender, and there is room again.
fn over_a_full_disk(path: &Path) {
    let mut journal = JournalFile::create(path, 1000, &mut Senders::new()).expect("a journal");
    assert_eq!(journal.next_counter().expect("a counter"), 1);
    let failed = (0..).map(|counter| journal.note_sender(Eui64::from(7), counter)).find(Result::is_err);
    assert!(matches!(failed, Some(Err(JournalError::Io { .. }))), "{failed:?}");
    let (records, written) = (journal.records().len(), fs::metadata(path).expect("the file").len());
    assert_eq!((records, written, journal.reserved()), (5 + 78 * 13, 1024, 999));
    assert!(matches!(journal.next_counter(), Err(JournalError::Stopped(_))));
    assert!(matches!(journal.reserve(), Err(JournalError::Stopped(_))));
    assert!(matches!(journal.note_sender(Eui64::from(7), 0), Err(JournalError::Stopped(_))));
    assert!(matches!(journal.set_key_number(0), Err(JournalError::Stopped(_))));
    assert!(matches!(journal.shrink(), Err(JournalError::Stopped(_))));
    drop(journal);
    let mut senders = Senders::new();
    let mut journal = JournalFile::open(path, 1000, &mut senders).expect("a journal");
    assert_eq!(fs::metadata(path).expect("the file").len(), 5 + 13);
    assert_eq!(senders.records()[0], SenderRecord::new(Eui64::from(7), 77));
    assert_eq!(journal.next_counter().expect("room for a ceiling"), 1001);
    journal.note_sender(Eui64::from(7), 78).expect("room for a sender");
    assert_eq!(journal.next_counter().expect("a counter"), 1002);
}

#[test]
fn nothing_is_handed_out_after_a_failed_write() {
    if let Some(path) = std::env::var_os(JOURNAL) {
        return over_a_full_disk(path.as_ref());
    }
    let (path, program) = (fresh("full.journal"), std::env::current_exe().expect("this program"));
    let script = format!(
        "trap '' XFSZ; ulimit -f 1; {JOURNAL}='{}' exec '{}' --exact nothing_is_handed_out_after_a_failed_write",
        path.display(),
        program.display()
    );
    let Some(ran) = tool("bash", &["-c", &script]) else { return };
    assert!(ran.status.success(), "{}{}", String::from_utf8_lossy(&ran.stdout), String::from_utf8_lossy(&ran.stderr));
    assert!(path.exists(), "the process did not run");
}
