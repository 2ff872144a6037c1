//! Why a journal's file was not opened, or a counter not handed out.
use crate::Refusal;
use core::error::Error;
use core::fmt;
use std::io;
use std::path::{Path, PathBuf};

/// Why a journal's file was not opened, or a counter not handed out. It names the file.
#[derive(Debug)]
#[non_exhaustive]
pub enum JournalError {
    /// The codec refused it. The file has not changed.
    Refused(Refusal),
    /// Refusal 25: the record at this byte has no kind that is known. The file has not changed, and `store-reader journal --repair`
    /// writes a journal of what is before it.
    Damaged {
        /// The journal.
        path: PathBuf,
        /// Where the record begins.
        at: u64,
    },
    /// There is no file of this name to open. It is to be moved back, if it was there: a new one hands out counters from 1.
    Missing(PathBuf),
    /// There is a file of this name, and no journal is begun over it.
    Exists(PathBuf),
    /// Another process has the journal open, this one has it open already, or a fork of one that had is still there.
    Locked(PathBuf),
    /// The name leads to another file or to none, or the file has another length than this process gave it: somebody has moved,
    /// removed, replaced or changed it. Nothing more is written or handed out, because no start would find it.
    Lost(PathBuf),
    /// The journal was opened by another process, of which this one is a fork.
    Forked(PathBuf),
    /// An earlier error of the system in writing: what is on disk is not known until the file is opened anew.
    Stopped(PathBuf),
    /// The system reported an error. If it was in appending, or behind the renaming of a new file, it is [`Self::Stopped`] from then
    /// on. Else the journal goes on.
    Io {
        /// The file or folder.
        path: PathBuf,
        /// What was tried.
        tried: &'static str,
        /// What the system said.
        error: io::Error,
    },
}

impl JournalError {
    /// The number by which the codec refused, also that of a damaged journal.
    #[must_use]
    pub fn refusal(&self) -> Option<Refusal> {
        match self {
            Self::Refused(refusal) => Some(*refusal),
            Self::Damaged { .. } => Some(Refusal::JOURNAL_KIND),
            _ => None,
        }
    }
}

impl fmt::Display for JournalError {
    fn fmt(&self, f: &mut fmt::Formatter<'_>) -> fmt::Result {
        let (path, why) = match self {
            Self::Refused(refusal) => return refusal.fmt(f),
            Self::Damaged { path, at } => {
                let condition = Refusal::JOURNAL_KIND.condition();
                return write!(f, "{}: refused by 25 at byte {at}: {condition}; {REPAIR}", path.display());
            }
            Self::Io { path, tried, error } => return write!(f, "{}: {tried}: {error}", path.display()),
            Self::Missing(path) => (path, MISSING),
            Self::Exists(path) => (path, "there is a file already, and no journal is begun over it"),
            Self::Locked(path) => (path, "the journal is open in another process"),
            Self::Lost(path) => (path, LOST),
            Self::Forked(path) => (path, "the journal was opened by another process; open it behind the fork"),
            Self::Stopped(path) => (path, "the journal is to be opened anew: what of it is on disk is not known"),
        };
        write!(f, "{}: {why}", path.display())
    }
}

/// What helps against damage.
const REPAIR: &str = "store-reader journal --repair OUT writes what is before it and says what that risks";

/// What helps where there is no journal: never an empty one.
const MISSING: &str = "there is no journal; if there was one, mount its disk or move it back, for a new one hands out counters from 1 again";

/// What helps where a journal has lost its name.
const LOST: &str =
    "this is no longer the journal that was opened; move that one back here, itself and no older copy, and start again";

impl Error for JournalError {
    fn source(&self) -> Option<&(dyn Error + 'static)> {
        match self {
            Self::Refused(refusal) => Some(refusal),
            Self::Io { error, .. } => Some(error),
            _ => None,
        }
    }
}

impl From<Refusal> for JournalError {
    fn from(refusal: Refusal) -> Self {
        Self::Refused(refusal)
    }
}

/// An error of the system beside the file and what was tried.
pub(super) fn failed<'a>(path: &'a Path, tried: &'static str) -> impl FnOnce(io::Error) -> JournalError + 'a {
    move |error| JournalError::Io { path: path.to_path_buf(), tried, error }
}
