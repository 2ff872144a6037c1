//! The file of a journal: it is this process's alone, an append leaves nothing or the whole of it, and another file takes its place in
//! one step, whatever byte the power fails at.
use super::error::{failed, JournalError};
use super::reading::JournalReading;
use crate::{Refusal, MAX_JOURNAL_APPEND};
use std::ffi::OsString;
use std::format;
use std::fs::{self, File, Metadata, OpenOptions};
use std::io::{self, ErrorKind};
use std::os::fd::AsRawFd;
use std::os::unix::ffi::{OsStrExt, OsStringExt};
use std::os::unix::fs::{fchown, FileExt, MetadataExt, OpenOptionsExt};
use std::path::{Path, PathBuf};
use std::process;
use std::thread::sleep;
use std::time::Duration;

/// What the name of the file has behind the journal's that is to take its place.
const BESIDE: &str = ".shrunk";

/// How many names are tried for it: one that is a folder, or another user's file, cannot be used.
const NAMES: usize = 8;

/// How much of the journal's name they have: 255 bytes are the most of a name.
const LONGEST_NAME: usize = 240;

/// How often opening tries again, and how long it waits, where the file is locked: a process that is just being started may have it
/// open for a moment.
const TRIES: usize = 20;
const PAUSE: Duration = Duration::from_millis(5);

/// The error of a path whose folder has become a file, `ENOTDIR`: its kind has a name from Rust 1.83 on.
const NO_FOLDER: i32 = 20;

#[derive(Debug, Clone, Copy, PartialEq)]
enum State {
    Usable,
    /// What is on disk is not known.
    Stopped,
    /// The file has lost its name.
    Lost,
}

/// A journal's file, locked.
#[derive(Debug)]
pub(super) struct Store {
    file: File,
    /// Where the file is, whatever folder the process works in later: no link, and no link on the way.
    path: PathBuf,
    length: u64,
    process: u32,
    state: State,
}

impl Store {
    /// Opens and locks the file of this path.
    pub fn open(path: &Path) -> Result<Self, JournalError> {
        let file = open_locked(path, OpenOptions::new().read(true).write(true), EXCLUSIVE)?;
        let mut store = Self::new(file, whole(path)?)?;
        store.ready().map(|()| store)
    }

    /// Makes an empty file of this path, for its owner alone. When this returns the file is on disk with its name.
    pub fn create(path: &Path) -> Result<Self, JournalError> {
        let folder = Folder::of(path)?;
        let made = OpenOptions::new().read(true).write(true).create_new(true).mode(0o600).open(path);
        let file = made.map_err(|error| match error.kind() {
            ErrorKind::AlreadyExists => JournalError::Exists(path.to_path_buf()),
            _ => failed(path, "to make the journal")(error),
        })?;
        let locked = lock(&file, path, EXCLUSIVE);
        if let Ok(false) = locked {
            // It is another's already, who has opened it.
            return Err(JournalError::Locked(path.to_path_buf()));
        }
        let flush = || file.sync_all().map_err(failed(path, "to flush the journal"));
        let flushed = locked.and_then(|_| flush()).and_then(|()| folder.flush());
        let made = flushed.and_then(|()| whole(path)).and_then(|path| Self::new(file, path));
        made.inspect_err(|_| drop(fs::remove_file(path)))
    }

    fn new(file: File, path: PathBuf) -> Result<Self, JournalError> {
        let length = file.metadata().map_err(failed(&path, "to look at the journal"))?.len();
        Ok(Self { file, path, length, process: process::id(), state: State::Usable })
    }

    pub fn path(&self) -> &Path {
        &self.path
    }

    /// What the file has, from its beginning.
    pub fn read(&self) -> Result<JournalReading, JournalError> {
        let reading = JournalReading::of(&mut &self.file).map_err(failed(&self.path, "to read the journal"))?;
        match (reading.damaged, reading.refused) {
            (true, _) => Err(JournalError::Damaged { path: self.path.clone(), at: reading.complete }),
            (_, Some(refusal)) => Err(refusal.into()),
            _ => Ok(reading),
        }
    }

    /// Whether this process may use the file, as far as is known without looking at it.
    pub fn usable(&self) -> Result<(), JournalError> {
        match self.state {
            _ if process::id() != self.process => Err(JournalError::Forked(self.path.clone())),
            State::Usable => Ok(()),
            State::Stopped => Err(JournalError::Stopped(self.path.clone())),
            State::Lost => Err(JournalError::Lost(self.path.clone())),
        }
    }

    /// The same, having looked. A file that has lost its name is not used any more, also if it gets it back.
    pub fn ready(&mut self) -> Result<(), JournalError> {
        self.usable()?;
        if self.is_there()? {
            return Ok(());
        }
        self.state = State::Lost;
        Err(JournalError::Lost(self.path.clone()))
    }

    /// Whether the path itself, and no link at it, names this file, and nobody else has written to it.
    fn is_there(&self) -> Result<bool, JournalError> {
        let looking = || failed(&self.path, "to look at the journal");
        let file = self.file.metadata().map_err(looking())?;
        match fs::symlink_metadata(&self.path) {
            Ok(named) => Ok(is_same(&file, &named) && file.len() == self.length),
            Err(error) if error.kind() == ErrorKind::NotFound || error.raw_os_error() == Some(NO_FOLDER) => Ok(false),
            Err(error) => Err(looking()(error)),
        }
    }

    /// Appends up to [`MAX_JOURNAL_APPEND`] bytes of records. First they have 0 in place of the first kind byte, and that byte is
    /// written when the disk has the rest: whatever it keeps of them before that, no record of theirs counts.
    pub fn append(&mut self, records: &[u8]) -> Result<(), JournalError> {
        let Some((kind, bodies)) = records.split_first() else { return Ok(()) };
        let mut unfinished = [0; MAX_JOURNAL_APPEND];
        let unfinished = unfinished.get_mut(..records.len()).ok_or(Refusal::INTERNAL)?;
        unfinished[1..].copy_from_slice(bodies);
        self.ready()?;
        // Whatever fails from here on, how much is on disk is not known.
        self.state = State::Stopped;
        for bytes in [&*unfinished, &[*kind]] {
            let written = self.file.write_all_at(bytes, self.length);
            written.map_err(failed(&self.path, "to append to the journal"))?;
            self.file.sync_data().map_err(failed(&self.path, "to flush the journal"))?;
        }
        self.state = State::Usable;
        self.length += records.len() as u64;
        Ok(())
    }

    /// Puts a file of these records in the place of this one, with its owner and permissions as far as the process may. After an error
    /// before the renaming this one is used on.
    pub fn replace(&mut self, records: &[u8]) -> Result<(), JournalError> {
        let folder = Folder::of(&self.path)?;
        let (file, beside) = self.beside(records)?;
        let renamed = self.rename(&beside).inspect_err(|_| drop(fs::remove_file(&beside)));
        renamed?;
        // Until the folder has the new file under the journal's name, a cut could bring the old one back without what is appended.
        self.state = State::Stopped;
        folder.flush()?;
        self.state = State::Usable;
        (self.file, self.length) = (file, records.len() as u64);
        Ok(())
    }

    /// A file of these records, on disk, locked before it can have the journal's name.
    fn beside(&self, records: &[u8]) -> Result<(File, PathBuf), JournalError> {
        let (file, path) = self.make_beside()?;
        let written = self.fill(&file, records);
        match written.map_err(failed(&path, "to write a file beside the journal, which is as it was")) {
            Ok(()) => Ok((file, path)),
            Err(error) => {
                let _ = fs::remove_file(&path);
                Err(error)
            }
        }
    }

    /// Makes an empty file under the first name that can be used. What has the name is removed and not written to: it may be a link.
    fn make_beside(&self) -> Result<(File, PathBuf), JournalError> {
        let mut first = None;
        for at in 0..NAMES {
            let path = name_beside(&self.path, at);
            let _ = fs::remove_file(&path);
            match OpenOptions::new().read(true).write(true).create_new(true).mode(0o600).open(&path) {
                Ok(file) => return Ok((file, path)),
                Err(error) => first = first.or(Some((path, error))),
            }
        }
        let (path, error) = first.unwrap_or((self.path.clone(), ErrorKind::Other.into()));
        Err(failed(&path, "to make a file beside the journal, which is as it was")(error))
    }

    fn fill(&self, file: &File, records: &[u8]) -> io::Result<()> {
        if !locked(file, EXCLUSIVE)? {
            return Err(ErrorKind::WouldBlock.into());
        }
        keep_owner(&self.file.metadata()?, file);
        file.write_all_at(records, 0)?;
        file.sync_all()
    }

    /// Gives a file the journal's name, unless the journal has lost it.
    fn rename(&mut self, beside: &Path) -> Result<(), JournalError> {
        self.ready()?;
        let renamed = fs::rename(beside, &self.path);
        renamed.map_err(|error| {
            // What is reported as failed may yet be done, as over a network: the journal goes on only where it still has the name.
            if !matches!(self.is_there(), Ok(true)) {
                self.state = State::Stopped;
            }
            failed(&self.path, "to put a new file in the journal's place")(error)
        })
    }
}

/// Opens and locks the file of a path. Before it is locked another process may have put a new one in its place: no start would find
/// what is done to the old one then.
fn open_locked(path: &Path, options: &OpenOptions, operation: i32) -> Result<File, JournalError> {
    for _ in 0..TRIES {
        let file = options.open(path).map_err(|error| match error.kind() {
            ErrorKind::NotFound => JournalError::Missing(path.to_path_buf()),
            _ => failed(path, "to open the journal")(error),
        })?;
        if !lock(&file, path, operation)? {
            sleep(PAUSE);
            continue;
        }
        let locked = file.metadata().map_err(failed(path, "to look at the journal"))?;
        if fs::metadata(path).is_ok_and(|named| is_same(&locked, &named)) {
            return Ok(file);
        }
    }
    Err(JournalError::Locked(path.to_path_buf()))
}

/// Opens and locks a journal for a copy, so that nothing is appended meanwhile.
///
/// # Errors
///
/// [`JournalError::Locked`] while a process has it open, and an error of the system.
pub fn open_journal_to_copy(path: &Path) -> Result<File, JournalError> {
    open_locked(path, OpenOptions::new().read(true), SHARED)
}

/// The path without links, and from the root.
fn whole(path: &Path) -> Result<PathBuf, JournalError> {
    fs::canonicalize(path).map_err(failed(path, "to find the journal"))
}

/// Gives a file the owner, the group and the permissions of another, as far as the process may.
pub fn keep_owner(of: &Metadata, file: &File) {
    if fchown(file, Some(of.uid()), Some(of.gid())).is_err() {
        let _ = fchown(file, None, Some(of.gid()));
    }
    let _ = file.set_permissions(of.permissions());
}

/// The name of the file beside that is tried at this place: `.shrunk`, `.shrunk.1` and so on behind the journal's.
fn name_beside(path: &Path, at: usize) -> PathBuf {
    let name = path.file_name().unwrap_or_default().as_bytes();
    let mut beside = OsString::from_vec(name.iter().copied().take(LONGEST_NAME).collect());
    beside.push(BESIDE);
    if at > 0 {
        beside.push(format!(".{at}"));
    }
    path.with_file_name(beside)
}

fn is_same(one: &Metadata, other: &Metadata) -> bool {
    (one.dev(), one.ino()) == (other.dev(), other.ino())
}

/// A folder that can be flushed: a cut could else lose a file's name, and counters would start again.
struct Folder {
    folder: File,
    path: PathBuf,
}

impl Folder {
    /// The folder of a file. It is flushed once, before a file is made in it, to see that it can be.
    fn of(path: &Path) -> Result<Self, JournalError> {
        let path = match path.parent() {
            Some(parent) if parent.as_os_str().is_empty() => Path::new("."),
            parent => parent.unwrap_or(path),
        };
        let folder = File::open(path).map_err(failed(path, "to open the journal's folder"))?;
        let folder = Self { folder, path: path.to_path_buf() };
        folder.flush().map(|()| folder)
    }

    fn flush(&self) -> Result<(), JournalError> {
        self.folder.sync_all().map_err(failed(&self.path, "to flush the journal's folder"))
    }
}

const SHARED: i32 = 1;
const EXCLUSIVE: i32 = 2;
const NOT_WAITING: i32 = 4;

/// Locks a regular file; false if another has locked it. It is unlocked by closing alone, so that a fork that ends leaves the lock to
/// the other.
fn lock(file: &File, path: &Path, operation: i32) -> Result<bool, JournalError> {
    let regular = file.metadata().map_err(failed(path, "to look at the journal"))?.is_file();
    let locked = match regular {
        true => locked(file, operation),
        false => Err(io::Error::new(ErrorKind::InvalidInput, "a journal has to be a regular file")),
    };
    locked.map_err(failed(path, "to lock the journal"))
}

/// `flock` of the C library, which the standard library links.
fn locked(file: &File, operation: i32) -> io::Result<bool> {
    extern "C" {
        fn flock(file: i32, operation: i32) -> i32;
    }
    // SAFETY: the function takes two numbers, and the file is open.
    match unsafe { flock(file.as_raw_fd(), operation | NOT_WAITING) } {
        0 => Ok(true),
        _ => match io::Error::last_os_error() {
            error if error.kind() == ErrorKind::WouldBlock => Ok(false),
            error => Err(error),
        },
    }
}
