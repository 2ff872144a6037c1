//! A journal read piece by piece, so that a file of any length takes little memory.
use crate::journal::{is_unfinished, restate};
use crate::{complete_records, Refusal, MAX_JOURNAL_APPEND, MAX_SHRUNK_JOURNAL};
use std::io::{self, Read};
use std::vec::Vec;

/// How many bytes are read at once.
const PIECE: usize = 1 << 16;

/// A journal as it was read, up to its end or to the first record of no known kind.
#[derive(Debug, Default)]
pub struct JournalReading {
    /// The complete records, or where they are longer than a piece fewer that recover to the same.
    pub records: Vec<u8>,
    /// The bytes of the complete records.
    pub complete: u64,
    /// The bytes read behind them: those of an append that a cut hit, or the first ones of damage.
    pub behind: u64,
    /// Whether what is behind them is damage, for which a journal is refused by 25.
    pub damaged: bool,
    /// Why the records could not be made fewer: they name more than 64 senders, and have none to recover. 25 comes before that.
    pub refused: Option<Refusal>,
}

impl JournalReading {
    /// Reads a journal.
    ///
    /// # Errors
    ///
    /// That of the input.
    pub fn of(input: &mut impl Read) -> io::Result<Self> {
        let mut reading = Self::default();
        loop {
            let end = reading.piece(input, PIECE)?;
            let (length, unknown) = complete_records(&reading.records);
            if unknown && !end && reading.records.len() - length <= MAX_JOURNAL_APPEND {
                // How long the tail is decides what it is.
                reading.piece(input, MAX_JOURNAL_APPEND)?;
            }
            if unknown || end {
                reading.end(length, unknown);
                return Ok(reading);
            }
            if let Err(refusal) = reading.shorten(length) {
                reading.refused = reading.refused.or(Some(refusal));
                reading.records.drain(..length);
            }
        }
    }

    /// Reads so many bytes more, and tells whether the input has ended.
    fn piece(&mut self, input: &mut impl Read, most: usize) -> io::Result<bool> {
        let read = input.take(most as u64).read_to_end(&mut self.records)?;
        self.complete += read as u64;
        Ok(read < most)
    }

    /// Takes what is behind the complete records off.
    fn end(&mut self, length: usize, unknown: bool) {
        let tail = self.records.split_off(length);
        self.damaged = unknown && !is_unfinished(&tail);
        self.behind = tail.len() as u64;
        self.complete -= self.behind;
    }

    /// Puts fewer records that recover to the same in the place of those read so far.
    fn shorten(&mut self, length: usize) -> Result<(), Refusal> {
        let mut fewer = [0; MAX_SHRUNK_JOURNAL];
        let kept = restate(self.records.get(..length).ok_or(Refusal::INTERNAL)?, &[], &mut fewer)?;
        self.records.splice(..length, fewer.iter().copied().take(kept));
        Ok(())
    }
}
