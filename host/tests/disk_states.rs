//! Every state that a power cut may leave of a disk. A journal's file is used while each call of the system is followed by a model of
//! the disk, which keeps what was flushed. Of what was not it keeps any part: each write or none of it, torn between sectors or after
//! any byte, the new length without the bytes, the names that were given or the ones before. After each call, each such state is put
//! into a folder of its own and opened: no counter comes twice, nothing that was acknowledged is rolled back, and it always opens.
//! The same after each call has failed once; of a flush that failed, what is not on disk will never be.
#[allow(dead_code)]
mod support;
#[allow(dead_code)]
#[path = "support/system_calls.rs"]
mod system_calls;

use std::cell::RefCell;
use std::collections::{BTreeMap, BTreeSet};
use std::fs;
use std::os::unix::fs::{FileExt, MetadataExt};
use std::path::{Path, PathBuf};
use std::rc::Rc;
use store_reader::{Eui64, JournalError, JournalFile, SenderRecord, Senders};
use support::command::scratch;
use support::journal_files::bytes;
use support::model::journal::Entry;
use support::random::Random;
use system_calls::{fail, watched, Call, BROKEN};

const SECTOR: usize = 512;

/// The journal's name in its folder.
const NAME: &str = "journal";

// ---- the disk

type Content = Vec<u8>;

/// A file: what may be on disk of it, and the writes since it was flushed.
#[derive(Clone, Default)]
struct File {
    kept: BTreeSet<Content>,
    written: Vec<(usize, Content)>,
}

impl File {
    fn of(content: Content) -> Self {
        Self { kept: BTreeSet::from([content]), written: Vec::new() }
    }

    /// What may be on disk now.
    fn states(&self) -> BTreeSet<Content> {
        let mut states = self.kept.clone();
        for (offset, bytes) in &self.written {
            let torn = states.iter().flat_map(|before| torn(before, *offset, bytes)).collect::<Vec<_>>();
            states.extend(torn);
        }
        states
    }

    /// All that was written is on disk.
    fn flush(&mut self) {
        for (offset, bytes) in std::mem::take(&mut self.written) {
            self.kept = self.kept.iter().map(|before| with(before, offset, &bytes)).collect();
        }
    }

    /// What is not on disk will never be, and the system says nothing of it again.
    fn fail_to_flush(&mut self) {
        self.kept = self.states();
        self.written.clear();
    }
}

/// A content with bytes written to a place.
fn with(before: &[u8], offset: usize, bytes: &[u8]) -> Content {
    let mut after = before.to_vec();
    after.resize(before.len().max(offset + bytes.len()), 0);
    after[offset..offset + bytes.len()].copy_from_slice(bytes);
    after
}

/// What may be left of a write: each of its sectors or not, its first or last bytes and zeros, and these with the old or the new length
/// or one at the border of a sector; or its first bytes alone.
fn torn(before: &[u8], offset: usize, bytes: &[u8]) -> Vec<Content> {
    let after = with(before, offset, bytes);
    let old = with(before, before.len(), &vec![0; after.len() - before.len()]);
    let (first, last) = (offset / SECTOR, (offset + bytes.len() - 1) / SECTOR);
    let sectors = (0..1 << (last - first + 1)).map(|kept: usize| {
        let is_new = |at: usize| (first..=last).contains(&(at / SECTOR)) && kept >> (at / SECTOR - first) & 1 == 1;
        (0..after.len()).map(|at| if is_new(at) { after[at] } else { old[at] }).collect::<Content>()
    });
    let cuts = (0..=bytes.len()).step_by(1 + bytes.len() / 64).map(|n| offset + n);
    let fronts = cuts.clone().map(|cut| [&after[..cut], &old[cut..]].concat());
    let backs = cuts.map(|cut| [&old[..cut], &after[cut..]].concat());
    let whole: BTreeSet<Content> = sectors.chain(fronts).chain(backs).collect();
    let borders = (1..).map(|sector| sector * SECTOR).take_while(|border| *border < after.len());
    let lengths: Vec<usize> = [before.len(), after.len()].into_iter().chain(borders).collect();
    let lengths = lengths.iter().filter(|length| **length >= before.len());
    let cut = lengths.flat_map(|length| whole.iter().map(move |content| content[..*length].to_vec()));
    let prefixes = (before.len()..after.len()).step_by(1 + bytes.len() / 64).map(|length| after[..length].to_vec());
    cut.chain(prefixes).collect()
}

/// Which files a folder names, by the numbers that the model gives them.
type Names = BTreeMap<String, usize>;

/// A change of names.
#[derive(Clone)]
enum Naming {
    Make(String, usize),
    Remove(String),
    Rename(String, String, usize),
}

impl Naming {
    fn apply(&self, names: &mut Names, keeps_both: bool) {
        match self {
            Self::Make(name, file) => drop(names.insert(name.clone(), *file)),
            Self::Remove(name) => drop(names.remove(name)),
            Self::Rename(from, to, file) => {
                names.insert(to.clone(), *file);
                if !keeps_both {
                    names.remove(from);
                }
            }
        }
    }
}

/// A folder on a disk: its files, the names that may be on disk, and those that were given since the folder was flushed.
#[derive(Clone, Default)]
struct Disk {
    files: Vec<File>,
    kept: BTreeSet<Names>,
    named: Vec<Naming>,
    /// The names as the system shows them.
    now: Names,
}

impl Disk {
    fn of(files: &[(&str, Content)]) -> Self {
        let names: Names = files.iter().enumerate().map(|(at, (name, _))| (name.to_string(), at)).collect();
        let files = files.iter().map(|(_, content)| File::of(content.clone())).collect();
        Self { files, kept: BTreeSet::from([names.clone()]), named: Vec::new(), now: names }
    }

    fn name(&mut self, naming: Naming) {
        naming.apply(&mut self.now, false);
        self.named.push(naming);
    }

    /// The names that may be on disk: those before, with any of the changes since, of which a renaming may have been done by half.
    fn names(&self) -> BTreeSet<Names> {
        let mut states = self.kept.clone();
        for naming in &self.named {
            let changed = states.iter().flat_map(|before| {
                [false, true].map(|keeps_both| {
                    let mut after = before.clone();
                    naming.apply(&mut after, keeps_both);
                    after
                })
            });
            let changed: Vec<Names> = changed.collect();
            states.extend(changed);
        }
        states
    }

    fn flush_names(&mut self) {
        for naming in std::mem::take(&mut self.named) {
            let after = |before: &Names| {
                let mut after = before.clone();
                naming.apply(&mut after, false);
                after
            };
            self.kept = self.kept.iter().map(after).collect();
        }
    }

    fn fail_to_flush_names(&mut self) {
        self.kept = self.names();
        self.named.clear();
    }

    /// Every folder that a cut may leave now.
    fn states(&self) -> BTreeSet<BTreeMap<String, Content>> {
        let mut folders = BTreeSet::new();
        for names in self.names() {
            let mut partly = vec![BTreeMap::new()];
            for (name, file) in names {
                let states = self.files[file].states();
                let with = |folder: &BTreeMap<String, Content>| {
                    let entry = |content: &Content| [(name.clone(), content.clone())];
                    states.iter().map(|content| folder.clone().into_iter().chain(entry(content)).collect()).collect()
                };
                partly = partly.iter().flat_map(|folder| -> Vec<BTreeMap<String, Content>> { with(folder) }).collect();
            }
            folders.extend(partly);
        }
        folders
    }
}

// ---- what is known of a life

/// What a gateway was told, and what it was about to write.
#[derive(Clone, Default, PartialEq, Eq, PartialOrd, Ord)]
struct Known {
    /// The journal was begun, or opened.
    begun: bool,
    highest: u32,
    /// Of each sender the counter that is on disk, or none, and those that may be.
    senders: BTreeMap<u64, (Option<u32>, Vec<Option<u32>>)>,
}

/// What happened, one behind the other.
struct Life {
    folder: PathBuf,
    /// The disk after each call that changed it, beside what was known then.
    moments: Vec<(Disk, Known)>,
    disk: Disk,
    known: Known,
    /// The files that the model numbers, by the system's numbers.
    files: BTreeMap<u64, usize>,
    /// The calls since what was made ready.
    calls: usize,
    is_ready: bool,
    /// Which call fails, counted from 0.
    failing: Option<usize>,
    failed: Option<&'static str>,
}

type Shared = Rc<RefCell<Life>>;

impl Life {
    fn new(folder: &Path, files: &[(&str, Content)], known: Known, failing: Option<usize>) -> Shared {
        put(folder, files.iter().map(|(name, content)| (*name, &content[..])));
        let inodes = files.iter().enumerate().map(|(at, (name, _))| (inode(&folder.join(name)), at)).collect();
        let (disk, folder) = (Disk::of(files), folder.to_path_buf());
        let moments = Vec::new();
        Rc::new(RefCell::new(Self {
            folder,
            moments,
            disk,
            known,
            files: inodes,
            calls: 0,
            is_ready: false,
            failing,
            failed: None,
        }))
    }

    /// A moment at which the power may be cut. Before the call that fails it was cut in the life without failures.
    fn moment(&mut self) {
        if self.is_ready && (self.failing.is_none() || self.failed.is_some()) {
            self.moments.push((self.disk.clone(), self.known.clone()));
        }
    }

    /// Makes a call, or lets it fail, and follows it on the disk.
    fn call(&mut self, name: &'static str, call: &Call<'_>, make: &mut dyn FnMut() -> i64) -> i64 {
        let fails = self.is_ready && self.failing == Some(self.calls);
        self.calls += usize::from(self.is_ready);
        if fails {
            self.failed = Some(name);
        }
        self.moment();
        let answer = match (call, fails) {
            // Flushed is what the model says: the real disk need not wait.
            (Call::Flush { .. }, false) => 0,
            (Call::Write { file, bytes, offset }, true) => {
                // The first half is written before the error.
                let half = &bytes[..bytes.len() / 2];
                let open = fs::OpenOptions::new().write(true).open(format!("/proc/self/fd/{file}"));
                open.and_then(|file| file.write_all_at(half, *offset as u64)).expect("the first half");
                self.write(*file, *offset, half);
                fail(BROKEN)
            }
            (_, true) => fail(BROKEN),
            (_, false) => make(),
        };
        self.follow(call, fails, answer);
        self.moment();
        answer
    }

    fn follow(&mut self, call: &Call<'_>, fails: bool, answer: i64) {
        match call {
            Call::Open { path, makes: true } if answer >= 0 => {
                let file = self.disk.files.len();
                self.disk.files.push(File::of(Vec::new()));
                self.files.insert(inode(path), file);
                self.disk.name(Naming::Make(name(path), file));
            }
            Call::Write { file, bytes, offset } if answer >= 0 => self.write(*file, *offset, bytes),
            Call::Flush { file } => match (self.file(*file), fails) {
                (Some(file), false) => self.disk.files[file].flush(),
                (Some(file), true) => self.disk.files[file].fail_to_flush(),
                (None, false) => self.disk.flush_names(),
                (None, true) => self.disk.fail_to_flush_names(),
            },
            Call::Rename { from, to } if answer == 0 => {
                let (from, to) = (name(from), name(to));
                let file = self.disk.now[&from];
                self.disk.name(Naming::Rename(from, to, file));
            }
            Call::Remove { path } if answer == 0 => self.disk.name(Naming::Remove(name(path))),
            _ => {}
        }
    }

    fn write(&mut self, file: i32, offset: usize, bytes: &[u8]) {
        let file = self.file(file).expect("a file of the folder");
        if bytes.is_empty() {
            return;
        }
        self.disk.files[file].written.push((offset, bytes.to_vec()));
    }

    /// The model's file; none for the folder.
    fn file(&self, file: i32) -> Option<usize> {
        let inode = inode(Path::new(&format!("/proc/self/fd/{file}")));
        (inode != self::inode(&self.folder)).then(|| self.files[&inode])
    }
}

fn name(path: &Path) -> String {
    path.file_name().and_then(|name| name.to_str()).expect("a name").to_string()
}

fn inode(path: &Path) -> u64 {
    fs::metadata(path).expect("a file").ino()
}

/// Puts these files, and no others, into a folder.
fn put<'a>(folder: &Path, files: impl Iterator<Item = (&'a str, &'a [u8])>) {
    fs::create_dir_all(folder).expect("a folder");
    fs::read_dir(folder).expect("the folder").for_each(|entry| fs::remove_file(entry.unwrap().path()).unwrap());
    files.for_each(|(name, content)| fs::write(folder.join(name), content).expect("a file"));
}

// ---- a gateway

/// A journal that tells what it is about to do, and what it was told.
struct Gateway {
    life: Shared,
    journal: Option<JournalFile>,
}

impl Gateway {
    fn path(&self) -> PathBuf {
        self.life.borrow().folder.join(NAME)
    }

    /// Runs something over the journal while the model follows.
    fn run<T>(&mut self, run: impl FnOnce(&mut Self) -> T) -> T {
        let life = self.life.clone();
        let follow =
            move |name, call: &Call<'_>, make: &mut dyn FnMut() -> i64| life.borrow_mut().call(name, call, make);
        watched(follow, || run(self))
    }

    fn know(&self, change: impl FnOnce(&mut Known)) {
        let mut life = self.life.borrow_mut();
        change(&mut life.known);
        life.moment();
    }

    fn start(&mut self, start: impl FnOnce(&Path, &mut Senders) -> Result<JournalFile, JournalError>) -> bool {
        self.journal = None;
        let (path, mut senders) = (self.path(), Senders::new());
        self.journal = self.run(|_| start(&path, &mut senders)).ok();
        if let Some(journal) = &self.journal {
            self.know(|known| known.told(journal, &senders));
        }
        self.journal.is_some()
    }

    fn open(&mut self) -> bool {
        self.start(|path, senders| JournalFile::open(path, 2, senders))
    }

    fn counter(&mut self) -> bool {
        let next = self.run(|gateway| gateway.journal.as_mut().map(JournalFile::next_counter));
        match next {
            Some(Ok(counter)) => {
                self.know(|known| {
                    assert!(counter > known.highest, "counter {counter} after {}", known.highest);
                    known.highest = counter;
                });
                true
            }
            _ => false,
        }
    }

    fn note(&mut self, notes: &[(u64, u32)]) -> bool {
        self.know(|known| {
            for (sender, counter) in notes {
                known.senders.entry(*sender).or_default().1.push(Some(*counter));
            }
        });
        let given: Vec<(Eui64, u32)> = notes.iter().map(|(sender, counter)| (Eui64::from(*sender), *counter)).collect();
        let noted = self.run(|gateway| gateway.journal.as_mut().is_some_and(|file| file.note_senders(&given).is_ok()));
        if noted {
            self.know(|known| {
                for (sender, counter) in notes {
                    known.senders.insert(*sender, (Some(*counter), Vec::new()));
                }
            });
        }
        noted
    }

    fn forget(&mut self, sender: u64) -> bool {
        self.know(|known| known.senders.entry(sender).or_default().1.push(None));
        let forgotten = self.run(|gateway| gateway.journal.as_mut().map(|file| file.forget(Eui64::from(sender))));
        let done = matches!(forgotten, Some(Ok(_)));
        if done {
            self.know(|known| drop(known.senders.insert(sender, (None, Vec::new()))));
        }
        done
    }

    fn shrink(&mut self) -> bool {
        self.run(|gateway| gateway.journal.as_mut().is_some_and(|file| file.shrink().is_ok()))
    }

    /// Does something, with the journal open, or opened anew where it has stopped.
    fn any(&mut self, random: &mut Random) {
        let next = |gateway: &Self, sender: u64| {
            let known = &gateway.life.borrow().known;
            let tried = known.senders.get(&sender).map_or(&[][..], |(_, tried)| tried);
            let told = known.senders.get(&sender).and_then(|(told, _)| *told);
            tried.iter().flatten().copied().chain(told).max().unwrap_or(0) + 1
        };
        let sender = 7 + random.below(4) as u64;
        let done = match random.below(10) {
            0..=2 => self.counter(),
            3..=5 => self.note(&[(sender, next(self, sender))]),
            6 => {
                let first = next(self, sender);
                self.note(&(0..random.between(2, 16) as u32).map(|at| (sender, first + at)).collect::<Vec<_>>())
            }
            7 => self.shrink(),
            8 => self.open(),
            _ => self.forget(sender),
        };
        if !done {
            let _ = self.open() || self.open();
        }
    }

    /// Goes on, over the file opened anew where the journal has stopped: a counter and two senders are told to be on disk.
    fn go_on(&mut self) {
        if !self.counter() {
            assert!(self.open() && self.counter(), "nothing fails any more");
        }
        assert!(self.note(&[(7, 90), (8, 90)]), "nothing fails any more");
    }
}

impl Known {
    /// What opening gave is on disk.
    fn told(&mut self, journal: &JournalFile, senders: &Senders) {
        self.agrees(journal, senders).unwrap_or_else(|why| panic!("opened anew: {why}"));
        self.begun = true;
        let found = noted(senders);
        for (sender, value) in &mut self.senders {
            *value = (found.get(sender).copied(), Vec::new());
        }
    }

    /// Whether no counter comes twice, nothing that was acknowledged is rolled back, and nothing is there that nobody wrote.
    fn agrees(&self, journal: &JournalFile, senders: &Senders) -> Result<(), String> {
        if journal.last_counter() < self.highest {
            return Err(format!("counter {} after {}", journal.last_counter(), self.highest));
        }
        let found = noted(senders);
        for (sender, (told, tried)) in &self.senders {
            let counter = found.get(sender).copied();
            if counter != *told && !tried.contains(&counter) {
                return Err(format!("sender {sender}: {counter:?} after {told:?}, {tried:?}"));
            }
        }
        match found.keys().find(|sender| !self.senders.contains_key(sender)) {
            Some(sender) => Err(format!("nobody noted sender {sender:X}")),
            None => Ok(()),
        }
    }
}

/// The senders and their counters.
fn noted(senders: &Senders) -> BTreeMap<u64, u32> {
    senders.records().iter().filter_map(SenderRecord::noted).map(|(sender, counter)| (sender.into(), counter)).collect()
}

/// Opens every state that a cut may leave at the moments of a life, and gives how many there were.
fn cut(life: &Life, what: &str) -> usize {
    let folder = life.folder.with_extension("cut");
    let mut seen = BTreeSet::new();
    for (at, (disk, known)) in life.moments.iter().enumerate() {
        for state in disk.states() {
            if !seen.insert((known.clone(), state.clone())) {
                continue;
            }
            put(&folder, state.iter().map(|(name, content)| (name.as_str(), &content[..])));
            let mut senders = Senders::new();
            let nothing_waits = |_, call: &Call<'_>, make: &mut dyn FnMut() -> i64| match call {
                Call::Flush { .. } => 0,
                _ => make(),
            };
            let opened = watched(nothing_waits, || JournalFile::open(folder.join(NAME), 2, &mut senders));
            let opened = match opened {
                Err(JournalError::Missing(_)) if !known.begun => continue,
                Err(error) => panic!("{what}, moment {at}: {error} over {state:02X?}"),
                Ok(journal) => journal,
            };
            let agrees = known.agrees(&opened, &senders);
            assert!(agrees.is_ok(), "{what}, moment {at}: {agrees:?} over {state:02X?}");
        }
    }
    seen.len()
}

/// Makes a journal ready, lives an operation and goes on, without failures and with each call of the operation failing once, and cuts
/// the power at each moment of that. Gives how many states were opened.
fn live(
    what: &str,
    files: &[(&str, Content)],
    known: Known,
    ready: impl Fn(&mut Gateway),
    operation: impl Fn(&mut Gateway),
) -> usize {
    let folder = memory().join(format!("disk-{}-{}", what.replace(' ', "-"), std::process::id()));
    let run = |failing: Option<usize>| {
        let life = Life::new(&folder, files, known.clone(), failing);
        let mut gateway = Gateway { life: life.clone(), journal: None };
        ready(&mut gateway);
        life.borrow_mut().is_ready = true;
        operation(&mut gateway);
        let calls = life.borrow().calls;
        gateway.go_on();
        drop(gateway);
        let life = Rc::into_inner(life).expect("nobody else has it").into_inner();
        let what = format!("{what}, {} failed", life.failed.unwrap_or("nothing"));
        (calls, cut(&life, &what))
    };
    let (calls, states) = run(None);
    assert!(calls >= 4, "{what}: {calls} calls");
    let all = states + (0..calls).map(|place| run(Some(place)).1).sum::<usize>();
    println!("{what}: {calls} calls, {all} states");
    for folder in [&folder, &folder.with_extension("cut")] {
        fs::remove_dir_all(folder).expect("the folder");
    }
    all
}

/// A folder in memory, where there is one: the disk is the model.
fn memory() -> PathBuf {
    Some(PathBuf::from("/dev/shm")).filter(|folder| folder.is_dir()).unwrap_or_else(|| scratch(""))
}

/// A journal at rest that was used up to counter 9, with two senders.
fn at_rest() -> (Content, Known) {
    let senders = [(7, (Some(50), Vec::new())), (8, (Some(1), Vec::new()))];
    let records = [Entry::Sender(7, 49), Entry::Ceiling(9), Entry::Sender(7, 50), Entry::Sender(8, 1)];
    (bytes(&records), Known { begun: true, highest: 9, senders: BTreeMap::from(senders) })
}

/// Opens it, and notes sender 7 until the journal has at least so many bytes.
fn up_to(gateway: &mut Gateway, length: usize) {
    assert!(gateway.open() && gateway.counter());
    while gateway.journal.as_ref().is_some_and(|journal| journal.records().len() < length) {
        assert!(gateway.note(&[(7, 51)]));
    }
}

fn live_at_rest(what: &str, length: usize, operation: impl Fn(&mut Gateway)) -> usize {
    let (journal, known) = at_rest();
    live(what, &[(NAME, journal)], known, |gateway| up_to(gateway, length), operation)
}

// ---- one cut behind the other

/// A gateway that does this and that, opens its journal anew where it has stopped, and whose power is cut at a random moment, in a random
/// state of its disk, from which the next one starts.
#[test]
fn one_cut_behind_the_other() {
    let mut random = Random::new(0xD15C);
    let folder = memory().join(format!("disk-lives-{}", std::process::id()));
    let (journal, mut known) = at_rest();
    let mut files = BTreeMap::from([(NAME.to_string(), journal)]);
    let (mut failed, mut inside) = (0, 0);
    for _ in 0..LIVES {
        let failing = random.bit().then(|| random.below(80));
        let given: Vec<(&str, Content)> =
            files.iter().map(|(name, content)| (name.as_str(), content.clone())).collect();
        let life = Life::new(&folder, &given, known.clone(), failing);
        life.borrow_mut().is_ready = true;
        let mut gateway = Gateway { life: life.clone(), journal: None };
        for _ in 0..8 {
            gateway.any(&mut random);
        }
        drop(gateway);
        let life = Rc::into_inner(life).expect("nobody else has it").into_inner();
        failed += usize::from(life.failed.is_some());
        let Some((disk, then)) = life.moments.get(random.below(life.moments.len().max(1))) else { continue };
        let states: Vec<_> = disk.states().into_iter().collect();
        (files, known) = (states[random.below(states.len())].clone(), then.clone());
        inside += usize::from(states.len() > 1);
    }
    fs::remove_dir_all(&folder).expect("the folder");
    println!("{LIVES} lives: in {failed} a call failed, {inside} ended in one of several states");
    assert!(failed > LIVES / 8 && inside > LIVES / 4, "{failed}, {inside}");
}

const LIVES: usize = 1000;

// ---- the operations

#[test]
fn beginning() {
    let begin = |gateway: &mut Gateway| gateway.start(|path, senders| JournalFile::create(path, 2, senders));
    let states = live(
        "beginning",
        &[],
        Known::default(),
        |_| {},
        |gateway| {
            // Where it failed somebody tries again: there is a file, or there is none.
            assert!(begin(gateway) || gateway.open() || begin(gateway), "nothing fails any more");
        },
    );
    assert!(states > 100, "{states} states");
}

/// Whatever a cut left of an append, and a part of a record as earlier versions left it; and what another cut left beside.
#[test]
fn opening_with_a_tail() {
    let (journal, known) = at_rest();
    let unfinished = [&[0][..], &Entry::Sender(7, 51).bytes()[1..]].concat();
    let part = [&journal[..], &[2, 7, 0, 0]].concat();
    let tails: BTreeSet<Content> = torn(&journal, journal.len(), &unfinished).into_iter().collect();
    let open = |gateway: &mut Gateway| {
        gateway.open();
    };
    for tailed in tails.into_iter().step_by(2).chain([part]) {
        let files = [(NAME, tailed), ("journal.shrunk", vec![1, 200, 0, 0])];
        let states = live("opening", &files, known.clone(), |_| {}, open);
        assert!(states > 400, "{states} states");
    }
}

/// The ceiling of the next counters, and a sender's counter: in a sector that has records, and across the border of two.
#[test]
fn appending_a_record() {
    for length in [0, SECTOR - 8] {
        let states = live_at_rest("appending", length, |gateway| {
            gateway.counter();
            gateway.counter();
            gateway.note(&[(7, 52)]);
            gateway.note(&[(9, 1)]);
        });
        assert!(states > 400, "{states} states");
    }
}

/// Sixteen counters of three senders, one of them new, across the border of two sectors.
#[test]
fn appending_a_burst() {
    let states = live_at_rest("a burst", SECTOR - 100, |gateway| {
        gateway.note(&(0..16).map(|at| (7 + at % 3, 60 + at as u32)).collect::<Vec<_>>());
    });
    assert!(states > 400, "{states} states");
}

#[test]
fn shrinking() {
    let states = live_at_rest("shrinking", SECTOR, |gateway| {
        gateway.shrink();
    });
    assert!(states > 400, "{states} states");
}

/// The note that makes the journal longer than four times what shrinking leaves at most.
#[test]
fn shrinking_by_itself() {
    let states = live_at_rest("by itself", 4 * 839 - 12, |gateway| {
        gateway.note(&[(7, 52)]);
    });
    assert!(states > 400, "{states} states");
}

#[test]
fn forgetting() {
    let states = live_at_rest("forgetting", 0, |gateway| {
        gateway.forget(7);
    });
    assert!(states > 400, "{states} states");
}
