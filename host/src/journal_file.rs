//! A journal in a file, kept so that no counter is handed out twice, whatever byte the power fails at.
mod error;
mod reading;
mod store;

use crate::journal::{CEILING_RECORD, KEY_NUMBER_RECORD};
use crate::{
    recover, shrink_without, write_record, Eui64, JournalRecord, Recovered, Refusal, SenderRecord, Senders, MAX_BURST,
    MAX_JOURNAL_APPEND, MAX_JOURNAL_RECORD, MAX_SENDERS, MAX_SHRUNK_JOURNAL,
};
use core::fmt;
use core::ops::Range;
pub use error::JournalError;
pub use reading::JournalReading;
use std::path::Path;
use std::vec::Vec;
use store::Store;
pub use store::{keep_owner, open_journal_to_copy};

/// The last counter that is handed out: sealing refuses the one behind it.
const LAST_COUNTER: u32 = 0xFFFF_FFFE;

/// A longer journal is shrunk by the call that makes it so. It is four times what shrinking leaves at most, so the new file is paid for by
/// some hundred appends, looking at all of it takes few microseconds, which is little beside a flush, and with the longest append
/// it is still shorter than a block of 4,096 bytes: no append begins in a block that the disk does not have yet.
const LONGEST: usize = 4 * MAX_SHRUNK_JOURNAL;
const _: () = assert!(LONGEST + MAX_JOURNAL_APPEND < 4096);

/// A journal in a file of its own: outgoing counters, the counters of senders and the key number, as they survive a power cut.
///
/// [`Self::create`] begins one, once in a gateway's life. [`Self::open`] goes on with it at each start: from then on the last counter is
/// the largest ceiling on disk, so the counters between the last one before a cut and that ceiling are passed over, and none is handed
/// out again. A ceiling is reserved `step` counters ahead: a large step writes to disk seldom and passes over more counters at
/// each start. A `step` of 0 counts as 1.
///
/// ```
/// use store_reader::{Eui64, JournalError, JournalFile, Senders};
///
/// let path = std::env::temp_dir().join(format!("store-reader-{}.journal", std::process::id()));
/// let probe: Eui64 = "00:12:4B:00:1C:A1:B2:C3".parse().unwrap();
///
/// let mut senders = Senders::new();
/// let mut journal = JournalFile::create(&path, 1000, &mut senders)?;
/// assert_eq!(journal.next_counter()?, 1);
/// assert_eq!(journal.next_counter()?, 2);
/// journal.note_sender(probe, 74565)?;
/// journal.set_key_number(1)?;
/// drop(journal);
///
/// // The power was gone. Which of 1 to 1000 had been handed out is not on disk, so all of them count as used.
/// let mut senders = Senders::new();
/// let mut journal = JournalFile::open(&path, 1000, &mut senders)?;
/// assert_eq!(journal.next_counter()?, 1001);
/// assert_eq!(journal.key_number(), Some(1));
/// assert_eq!(senders.records()[0].noted(), Some((probe, 74565)));
/// # drop(journal);
/// # std::fs::remove_file(&path).unwrap();
/// # Ok::<(), JournalError>(())
/// ```
///
/// The file is locked while it is open, so that no two processes hand out counters from it, and the lock is gone with the process. A
/// fork cannot use it. Each call looks whether the path still names the file, and stops for good where it does not. A journal that has
/// grown to some kilobytes is shrunk, so time and memory stay what they are for years.
pub struct JournalFile {
    /// It has the records of `journal` on disk and nothing behind them, unless it has stopped.
    store: Store,
    journal: Vec<u8>,
    step: u32,
    last: u32,
    ceiling: u32,
    /// Where the journal has the record of that ceiling.
    covering: Range<usize>,
    key_number: Option<u8>,
    /// The length from which on shrinking is tried next.
    longest: usize,
}

impl JournalFile {
    /// Opens the journal of this path and recovers it into the list of senders, which is filled anew ([`recover`]). An incomplete last
    /// record, or an append that a cut left unfinished ([`finished`](crate::finished)), counts for nothing.
    ///
    /// What was recovered is written to a new file, shrunk, which takes the journal's name when the disk has it, and the old file is
    /// never appended to: after a failed flush the system may show bytes of it that are not on disk. So opening needs a folder that it
    /// may write to and room for a small file; where it has not, the journal is as it was. The new file keeps the old one's permissions, and its
    /// owner where the process may give files away. It is made ready under the journal's name with `.shrunk` behind it, or
    /// `.shrunk.1` and so on where that cannot be used, and what an earlier process left there is removed. A hard link still names the
    /// old file, which is no journal to hand out counters from any more. Of a symbolic link the file that it points to is replaced.
    ///
    /// # Errors
    ///
    /// [`JournalError::Missing`] if there is no such file. [`JournalError::Damaged`], which is refusal 25, if a record's kind is not 1 to 3,
    /// then refusal 24 for a 65th sender or one past the places of the list. [`JournalError::Locked`] if the file is open as a journal
    /// already, and an error of the system. The journal and the list then say what they did.
    pub fn open<Places: AsMut<[SenderRecord]>>(
        path: impl AsRef<Path>,
        step: u32,
        senders: &mut Senders<Places>,
    ) -> Result<Self, JournalError> {
        let mut store = Store::open(path.as_ref())?;
        let found = store.read()?.records;
        let places = senders.places();
        let counted = places.len().min(MAX_SENDERS);
        let (mut list, mut shrunk) = ([SenderRecord::FREE; MAX_SENDERS], [0; MAX_SHRUNK_JOURNAL]);
        let recovered = recover(&found, &mut Senders::lent(&mut list[..counted]))?;
        let length = crate::shrink(&found, &mut shrunk)?;
        let journal = shrunk.get(..length).ok_or(Refusal::INTERNAL)?.to_vec();
        store.replace(&journal)?;
        places[..counted].copy_from_slice(&list[..counted]);
        Ok(Self::new(store, journal, recovered, step))
    }

    /// Begins an empty journal, whose first counter is 1, in a file that is not there yet. It is for its owner alone. The list of senders is
    /// emptied.
    ///
    /// A gateway does this once, when it is installed or when it gets a network key that was never used: under an old key the counters
    /// would come a second time.
    ///
    /// # Errors
    ///
    /// [`JournalError::Exists`] if there is a file of this name, and an error of the system. No file is left then that was not there,
    /// and the list has not changed.
    pub fn create<Places: AsMut<[SenderRecord]>>(
        path: impl AsRef<Path>,
        step: u32,
        senders: &mut Senders<Places>,
    ) -> Result<Self, JournalError> {
        let store = Store::create(path.as_ref())?;
        let recovered = recover(&[], senders)?;
        Ok(Self::new(store, Vec::new(), recovered, step))
    }

    fn new(store: Store, journal: Vec<u8>, recovered: Recovered, step: u32) -> Self {
        let Recovered { ceiling, key_number, .. } = recovered;
        let (step, covering) = (step.max(1), first_ceiling(&journal));
        Self { store, journal, step, last: ceiling, ceiling, covering, key_number, longest: LONGEST }
    }

    /// The next outgoing counter, one more than the last. A ceiling that covers it is on disk when this returns; where there is none
    /// yet, one is reserved first.
    ///
    /// # Errors
    ///
    /// Refusal 26 if the last counter is `0xFFFF_FFFE` or above: the network then needs another key. An error of the system, or one of
    /// those after which nothing is handed out: [`JournalError::Stopped`], [`JournalError::Lost`], [`JournalError::Forked`].
    pub fn next_counter(&mut self) -> Result<u32, JournalError> {
        self.store.ready()?;
        let next = match self.covered() {
            Err(Refusal::NO_CEILING) => {
                self.reserve()?;
                self.covered()?
            }
            answer => answer?,
        };
        self.last = next;
        Ok(next)
    }

    /// What the codec says of the counter behind the last one, over the record of the largest ceiling alone: no other could cover it.
    fn covered(&self) -> Result<u32, Refusal> {
        crate::next_counter(self.journal.get(self.covering.clone()).unwrap_or_default(), self.last)
    }

    /// Reserves counters up to a step ahead of the last one now, so that [`Self::next_counter`] need not wait for the disk. Nothing is
    /// written if so many are reserved already.
    ///
    /// # Errors
    ///
    /// Those of [`Self::next_counter`].
    pub fn reserve(&mut self) -> Result<(), JournalError> {
        if self.last >= LAST_COUNTER {
            return Err(Refusal::COUNTERS_USED_UP.into());
        }
        match self.last.saturating_add(self.step).min(LAST_COUNTER) {
            ceiling if ceiling <= self.ceiling => self.store.ready(),
            ceiling => self.append(&[JournalRecord::Ceiling(ceiling)]),
        }
    }

    /// Notes the last counter of a sender. It is on disk when this returns. One that is noted here comes back at each start, until
    /// [`Self::forget`].
    ///
    /// # Errors
    ///
    /// Refusal 24 if the journal names 64 other senders. Else those of [`Self::next_counter`] but 26.
    pub fn note_sender(&mut self, sender: Eui64, counter: u32) -> Result<(), JournalError> {
        self.note_senders(&[(sender, counter)])
    }

    /// Notes the last counters of several senders, as those of a burst, in this order. They are on disk when this returns, and sixteen
    /// wait for it no longer than one. A cut leaves all of them or none, of more than sixteen the first sixteen, and so on.
    ///
    /// # Errors
    ///
    /// Refusal 24 if the journal would name more than 64 senders: none of them is noted. Else those of [`Self::note_sender`].
    pub fn note_senders(&mut self, notes: &[(Eui64, u32)]) -> Result<(), JournalError> {
        self.store.usable()?;
        let records = notes.iter().map(|&(address, counter)| JournalRecord::Sender { address, counter });
        let records = records.collect::<Vec<_>>();
        if records.len() > MAX_BURST {
            let before = self.journal.len();
            let written = self.write(&records);
            self.journal.truncate(before);
            written?;
        }
        records.chunks(MAX_BURST).try_for_each(|burst| self.append(burst))
    }

    /// Sets the number of the active key. It is on disk when this returns.
    ///
    /// # Errors
    ///
    /// Those of [`Self::note_sender`] but 24.
    pub fn set_key_number(&mut self, number: u8) -> Result<(), JournalError> {
        self.append(&[JournalRecord::KeyNumber(number)])
    }

    /// Forgets a sender: the journal is replaced, in one step, by the shrunk one without it, and the next new sender can have its place.
    /// Gives whether the journal named it; if not, nothing is written. [`Senders::forget`] does the same to the list.
    ///
    /// What a forgotten sender sent before, and somebody recorded, is taken once more ([`shrink_without`]). So forget one that is gone for
    /// good.
    ///
    /// # Errors
    ///
    /// Those of [`Self::shrink`].
    pub fn forget(&mut self, sender: Eui64) -> Result<bool, JournalError> {
        let before = self.shrunk_without(&[])?.len();
        let without = self.shrunk_without(&[sender])?;
        let named = without.len() < before;
        if named {
            self.replace(without)?;
        }
        Ok(named)
    }

    /// Puts the shortest journal that recovers to the same in this one's place ([`shrink`](crate::shrink)), as opening does, and gives how
    /// many bytes that saves. Where it saves none nothing is written. The last counter stays what it was, and the next one goes on
    /// behind it. Nobody has to call this: a call that makes the journal longer than some kilobytes does, and succeeds also where
    /// shrinking fails.
    ///
    /// ```
    /// use store_reader::{Eui64, JournalError, JournalFile, Senders};
    ///
    /// let path = std::env::temp_dir().join(format!("store-reader-{}-shrunk.journal", std::process::id()));
    /// let mut journal = JournalFile::create(&path, 1000, &mut Senders::new())?;
    /// assert_eq!(journal.next_counter()?, 1);
    /// for counter in 1..=100 {
    ///     journal.note_sender(Eui64::from(7), counter)?;
    /// }
    ///
    /// // A ceiling and a hundred counters of one sender, of which the last one is left.
    /// assert_eq!(journal.records().len(), 5 + 100 * 13);
    /// assert_eq!(journal.shrink()?, 99 * 13);
    /// assert_eq!(journal.next_counter()?, 2);
    /// # drop(journal);
    /// # std::fs::remove_file(&path).unwrap();
    /// # Ok::<(), JournalError>(())
    /// ```
    ///
    /// # Errors
    ///
    /// An error of the system before the new file has the journal's name: the old one goes on being used. After one behind that, a cut
    /// could still bring the old one back, and from then on it is [`JournalError::Stopped`].
    pub fn shrink(&mut self) -> Result<usize, JournalError> {
        let shrunk = self.shrunk_without(&[])?;
        let saved = self.journal.len().saturating_sub(shrunk.len());
        if saved > 0 {
            self.replace(shrunk)?;
        }
        Ok(saved)
    }

    /// The counter that was handed out last, or after opening the ceiling that was recovered.
    #[must_use]
    pub fn last_counter(&self) -> u32 {
        self.last
    }

    /// How many counters can be handed out before the next one waits for the disk.
    #[must_use]
    pub fn reserved(&self) -> u32 {
        self.ceiling.min(LAST_COUNTER).saturating_sub(self.last)
    }

    /// The last key number, or none.
    #[must_use]
    pub fn key_number(&self) -> Option<u8> {
        self.key_number
    }

    /// The records that are on disk.
    #[must_use]
    pub fn records(&self) -> &[u8] {
        &self.journal
    }

    /// Writes records behind the others, at most those of a burst, and counts them only when the disk has them.
    fn append(&mut self, records: &[JournalRecord]) -> Result<(), JournalError> {
        self.store.usable()?;
        let before = self.journal.len();
        let written = self.write(records).map_err(JournalError::from);
        let appended = written.and_then(|()| self.store.append(self.journal.get(before..).unwrap_or_default()));
        appended.inspect_err(|_| self.journal.truncate(before))?;
        records.iter().for_each(|record| self.note(*record, before));
        self.shrink_if_long();
        Ok(())
    }

    /// Puts records behind the journal in memory, as the codec writes them.
    fn write(&mut self, records: &[JournalRecord]) -> Result<(), Refusal> {
        for record in records {
            let mut bytes = [0; MAX_JOURNAL_RECORD];
            let length = write_record(&self.journal, *record, &mut bytes)?;
            self.journal.extend_from_slice(bytes.get(..length).ok_or(Refusal::INTERNAL)?);
        }
        Ok(())
    }

    /// Takes over what a record says that is on disk. A ceiling is appended alone, at this place.
    fn note(&mut self, record: JournalRecord, at: usize) {
        match record {
            JournalRecord::Ceiling(ceiling) if ceiling > self.ceiling => {
                (self.ceiling, self.covering) = (ceiling, at..self.journal.len());
            }
            JournalRecord::KeyNumber(number) => self.key_number = Some(number),
            JournalRecord::Ceiling(_) | JournalRecord::Sender { .. } => {}
        }
    }

    /// A longer journal than need be is shrunk. Where that fails it is tried again when as much again has been appended.
    fn shrink_if_long(&mut self) {
        if self.journal.len() > self.longest {
            self.longest = self.journal.len() + LONGEST;
            let _ = self.shrink();
        }
    }

    /// The shrunk journal without these senders.
    fn shrunk_without(&mut self, senders: &[Eui64]) -> Result<Vec<u8>, JournalError> {
        self.store.ready()?;
        let mut out = [0; MAX_SHRUNK_JOURNAL];
        let length = shrink_without(&self.journal, senders, &mut out)?;
        Ok(out.get(..length).ok_or(Refusal::INTERNAL)?.to_vec())
    }

    /// Puts a file of these records, which are shrunk, in the journal's place.
    fn replace(&mut self, records: Vec<u8>) -> Result<(), JournalError> {
        self.store.replace(&records)?;
        (self.covering, self.longest) = (first_ceiling(&records), LONGEST);
        self.journal = records;
        Ok(())
    }
}

/// Where a shrunk journal has its ceiling: behind the key number, if there is one. Without a ceiling nothing stands there, or a sender,
/// over which the codec hands out no counter.
fn first_ceiling(shrunk: &[u8]) -> Range<usize> {
    let start = if shrunk.first() == Some(&3) { KEY_NUMBER_RECORD } else { 0 };
    start..start + CEILING_RECORD
}

/// Lengths and not bytes: a journal may have some thousands.
impl fmt::Debug for JournalFile {
    fn fmt(&self, f: &mut fmt::Formatter<'_>) -> fmt::Result {
        let mut shown = f.debug_struct("JournalFile");
        shown.field("path", &self.store.path()).field("bytes", &self.journal.len()).field("step", &self.step);
        shown.field("last_counter", &self.last).field("ceiling", &self.ceiling);
        shown.field("key_number", &self.key_number).finish_non_exhaustive()
    }
}
