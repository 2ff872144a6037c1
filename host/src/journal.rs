//! The journal: counters, senders and the key number as records that survive a power cut.
use crate::refusal::{is_known, key_number, length};
use crate::{sys, Eui64, Refusal, SenderRecord, Senders, MAX_JOURNAL_APPEND, MAX_JOURNAL_RECORD, MAX_SHRUNK_JOURNAL};

/// A record of a journal.
#[derive(Debug, Clone, Copy, PartialEq, Eq)]
pub enum JournalRecord {
    /// Counters up to this one may be handed out. A lower ceiling than an earlier one changes nothing.
    Ceiling(u32),
    /// The last counter of a sender whose frames arrive.
    Sender {
        /// Its long address.
        address: Eui64,
        /// The counter that was noted last.
        counter: u32,
    },
    /// The number of the active network key.
    KeyNumber(u8),
}

impl JournalRecord {
    /// The kind byte, and the fields as the C function takes them: sender, counter, key number.
    fn parts(self) -> (u8, u64, u32, u8) {
        match self {
            Self::Ceiling(ceiling) => (1, 0, ceiling, 0),
            Self::Sender { address, counter } => (2, address.into(), counter, 0),
            Self::KeyNumber(number) => (3, 0, 0, number),
        }
    }
}

/// What a journal says, beside the senders.
#[derive(Debug, Clone, Copy, PartialEq, Eq)]
pub struct Recovered {
    /// The largest ceiling; 0 if there is none. It is the last counter from which the next ones are handed out.
    pub ceiling: u32,
    /// The last key number, or none.
    pub key_number: Option<u8>,
    /// The length of the complete records. What is behind them is an incomplete one, to be cut off before anything is appended.
    pub complete: usize,
}

/// Recovers what a journal says, after each start. An incomplete last record counts for nothing.
///
/// The list of senders is filled anew: each sender once, by first appearance, with its last counter. The places that are left over
/// among the first [`MAX_SENDERS`](crate::MAX_SENDERS) become free. No record says that a sender was forgotten, so one that was comes
/// back.
///
/// ```
/// use store_reader::{next_counter, recover, write_record, JournalRecord, Refusal, Senders, MAX_JOURNAL_RECORD};
///
/// let mut journal = Vec::new();
/// let mut record = [0; MAX_JOURNAL_RECORD];
/// let n = write_record(&journal, JournalRecord::Ceiling(3), &mut record)?;
/// journal.extend(&record[..n]);
/// assert_eq!(journal, [1, 3, 0, 0, 0]);
///
/// // Counters up to the ceiling are handed out, and none above it.
/// assert_eq!(next_counter(&journal, 0), Ok(1));
/// assert_eq!(next_counter(&journal, 1), Ok(2));
/// assert_eq!(next_counter(&journal, 3), Err(Refusal::NO_CEILING));
///
/// // A cut while the next ceiling was being written: the first one counts, and counter 2 does not come again.
/// journal.extend([1, 6, 0]);
/// let recovered = recover(&journal, &mut Senders::new())?;
/// assert_eq!((recovered.ceiling, recovered.key_number, recovered.complete), (3, None, 5));
/// journal.truncate(recovered.complete);
/// assert_eq!(next_counter(&journal, recovered.ceiling), Err(Refusal::NO_CEILING));
/// # Ok::<(), Refusal>(())
/// ```
///
/// # Errors
///
/// Refusal 25 if a record's kind is not 1 to 3, also that of an incomplete last one, then 24 for a 65th sender or one past the places
/// of the list. The list has then not changed.
pub fn recover<Places: AsMut<[SenderRecord]>>(
    journal: &[u8],
    senders: &mut Senders<Places>,
) -> Result<Recovered, Refusal> {
    let places = senders.places();
    let mut complete = 0;
    // SAFETY: each pointer goes with the length of its slice, a place has the layout of a sender record, and the three do not
    // overlap.
    let answer = unsafe {
        sys::nwk_recover_journal(
            journal.as_ptr(),
            journal.len(),
            places.as_mut_ptr(),
            places.len(),
            core::ptr::from_mut(&mut complete),
        )
    };
    // A ceiling has the 32 bits of a length.
    let ceiling = length(answer)? as u32;
    let complete = usize::try_from(complete).ok().filter(|complete| *complete <= journal.len());
    let key_number = is_known(answer).then_some(key_number(answer));
    Ok(Recovered { ceiling, key_number, complete: complete.ok_or(Refusal::INTERNAL)? })
}

/// Writes the record that is to be appended next to the front of `out`, and gives its length: 5, 13 or 2. The host then shortens
/// the journal to its complete records and appends it.
///
/// # Errors
///
/// Refusal 25 if a record of the journal is of another kind than 1 to 3, then 24 if the journal with the new record names more than
/// 64 senders, then 18 if `out` is shorter than the record.
pub fn write_record(journal: &[u8], record: JournalRecord, out: &mut [u8]) -> Result<usize, Refusal> {
    let (kind, sender, counter, number) = record.parts();
    // SAFETY: each pointer goes with the length of its slice, and the two do not overlap.
    let answer = unsafe {
        sys::nwk_write_journal_record(
            journal.as_ptr(),
            journal.len(),
            kind,
            sender,
            counter,
            number,
            out.as_mut_ptr(),
            out.len(),
        )
    };
    length(answer)
}

/// The bytes of a ceiling's record and of a key number's. That of a sender is the longest.
pub(crate) const CEILING_RECORD: usize = 5;
pub(crate) const KEY_NUMBER_RECORD: usize = 2;

/// The bytes of a record by its kind; none for another kind than 1 to 3.
fn record_length(kind: u8) -> Option<usize> {
    match kind {
        1 => Some(CEILING_RECORD),
        2 => Some(MAX_JOURNAL_RECORD),
        3 => Some(KEY_NUMBER_RECORD),
        _ => None,
    }
}

/// Where the complete records of a journal end, and whether a byte stands there that is no kind, by which it is refused by 25.
#[doc(hidden)]
#[must_use]
pub fn complete_records(journal: &[u8]) -> (usize, bool) {
    let mut end = 0;
    while let Some(kind) = journal.get(end) {
        match record_length(*kind) {
            Some(length) if length <= journal.len() - end => end += length,
            known => return (end, known.is_none()),
        }
    }
    (end, false)
}

/// A journal without the append that a power cut left unfinished, if there is one.
///
/// A store that shows a length before its bytes, or tears between them, cannot append a record in one step. So a host appends with 0 in
/// place of the first kind byte, waits for the store, writes that kind byte and waits again: a cut leaves the whole, or a tail that
/// begins with 0. Such a tail counts for nothing if it has at most [`MAX_JOURNAL_APPEND`] bytes. A longer one is no append: it
/// stays, and the journal is refused by 25.
///
/// ```
/// use store_reader::{finished, recover, Refusal, Senders};
///
/// // Ceiling 3, and an append of which the store has the length alone.
/// let journal = [1, 3, 0, 0, 0, 0, 0, 0, 0, 0];
/// assert_eq!(recover(&journal, &mut Senders::new()), Err(Refusal::JOURNAL_KIND));
/// assert_eq!(finished(&journal), [1, 3, 0, 0, 0]);
/// ```
#[must_use]
pub fn finished(journal: &[u8]) -> &[u8] {
    let (end, unknown) = complete_records(journal);
    match journal.split_at_checked(end) {
        Some((records, tail)) if unknown && is_unfinished(tail) => records,
        _ => journal,
    }
}

/// Whether this can be what a cut left of an append.
pub(crate) fn is_unfinished(tail: &[u8]) -> bool {
    tail.first() == Some(&0) && tail.len() <= MAX_JOURNAL_APPEND
}

/// Writes a journal that recovers to the same but for these senders, which are left out: the key number, the ceiling, and the others
/// by first appearance.
pub(crate) fn restate(journal: &[u8], without: &[Eui64], out: &mut [u8]) -> Result<usize, Refusal> {
    let mut senders = Senders::new();
    let recovered = recover(journal, &mut senders)?;
    without.iter().for_each(|sender| senders.forget(*sender));
    let ceiling = Some(recovered.ceiling).filter(|ceiling| *ceiling > 0).map(JournalRecord::Ceiling);
    let noted = senders.records().iter().filter_map(SenderRecord::noted);
    let noted = noted.map(|(address, counter)| JournalRecord::Sender { address, counter });
    let mut length = 0;
    for record in recovered.key_number.map(JournalRecord::KeyNumber).into_iter().chain(ceiling).chain(noted) {
        let mut bytes = [0; MAX_JOURNAL_RECORD];
        let n = write_record(out.get(..length).ok_or(Refusal::INTERNAL)?, record, &mut bytes)?;
        let place = out.get_mut(length..length + n).ok_or(Refusal::NO_ROOM)?;
        place.copy_from_slice(bytes.get(..n).ok_or(Refusal::INTERNAL)?);
        length += n;
    }
    Ok(length)
}

/// Shrinks a journal and leaves these senders out: no record says that a sender was forgotten, so a journal forgets one by being
/// replaced by what this writes. One that it does not name changes nothing.
///
/// What a forgotten sender sent before, and somebody recorded, is taken once more, since the counter of an unknown sender is not
/// compared. So forget one that is gone for good, or that has another key by now.
///
/// ```
/// use store_reader::{shrink_without, Eui64, Refusal, MAX_SHRUNK_JOURNAL};
///
/// // Ceiling 3, sender 7 with counter 50, sender 8 with counter 1.
/// let journal = [
///     1, 3, 0, 0, 0, 2, 7, 0, 0, 0, 0, 0, 0, 0, 50, 0, 0, 0, 2, 8, 0, 0, 0, 0, 0, 0, 0, 1, 0, 0, 0,
/// ];
/// let mut out = [0; MAX_SHRUNK_JOURNAL];
/// let n = shrink_without(&journal, &[Eui64::from(7)], &mut out)?;
/// assert_eq!(out[..n], [1, 3, 0, 0, 0, 2, 8, 0, 0, 0, 0, 0, 0, 0, 1, 0, 0, 0]);
/// # Ok::<(), Refusal>(())
/// ```
///
/// # Errors
///
/// Those of [`shrink`].
pub fn shrink_without(journal: &[u8], senders: &[Eui64], out: &mut [u8]) -> Result<usize, Refusal> {
    let mut restated = [0; MAX_SHRUNK_JOURNAL];
    let length = restate(journal, senders, &mut restated)?;
    shrink(restated.get(..length).ok_or(Refusal::INTERNAL)?, out)
}

/// The next outgoing counter, one more than the last. After each recovery the last one is the recovered ceiling, then the one that was
/// handed out last.
///
/// # Errors
///
/// Refusal 25 if a record's kind is not 1 to 3, then 26 if the last counter is `0xFFFF_FFFE` or above, then 27 if no complete ceiling
/// record of the journal covers the next one.
pub fn next_counter(journal: &[u8], last: u32) -> Result<u32, Refusal> {
    // SAFETY: the pointer goes with the length of its slice.
    let answer = unsafe { sys::nwk_next_counter(journal.as_ptr(), journal.len(), last) };
    // A counter has the 32 bits of a length.
    Ok(length(answer)? as u32)
}

/// Shrinks a journal: writes the shortest one that recovers to the same to the front of `out`, and gives its length, at most
/// [`MAX_SHRUNK_JOURNAL`](crate::MAX_SHRUNK_JOURNAL) and never more than that of the complete records. It has the key number, if there
/// is one, the ceiling, if it is above 0, and the senders by rising address bytes, the first byte on the wire compared first. An
/// incomplete last record is left out.
///
/// It may take the journal's place if nothing was appended meanwhile: no counter is handed out twice then either.
///
/// ```
/// use store_reader::{recover, shrink, Refusal, Senders, MAX_SHRUNK_JOURNAL};
///
/// // Ceilings 3 and 6, key number 1, and the first two bytes of another ceiling.
/// let journal = [1, 3, 0, 0, 0, 1, 6, 0, 0, 0, 3, 1, 1, 9];
/// let mut out = [0; MAX_SHRUNK_JOURNAL];
/// let n = shrink(&journal, &mut out)?;
/// assert_eq!(out[..n], [3, 1, 1, 6, 0, 0, 0]);
///
/// let recovered = recover(&out[..n], &mut Senders::new())?;
/// assert_eq!((recovered.ceiling, recovered.key_number, recovered.complete), (6, Some(1), n));
/// # Ok::<(), Refusal>(())
/// ```
///
/// # Errors
///
/// Refusal 25 if a record's kind is not 1 to 3, also that of an incomplete last one, then 24 if the journal names more than 64
/// senders, then 18 if `out` is shorter than what is to be written. Nothing has then changed.
pub fn shrink(journal: &[u8], out: &mut [u8]) -> Result<usize, Refusal> {
    // SAFETY: each pointer goes with the length of its slice, and the two do not overlap.
    let answer = unsafe { sys::nwk_shrink_journal(journal.as_ptr(), journal.len(), out.as_mut_ptr(), out.len()) };
    length(answer)
}
