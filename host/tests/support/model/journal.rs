//! The journal (document 02, requests 6 and 7): what recovery, writing a record, the next counter and shrinking answer,
//! and what they leave in the buffers.
use crate::support::journals::{Left, Request, KEY_NUMBER_SHIFT};
use crate::support::senders::{Record, KNOWN_BIT};
use std::collections::BTreeMap;

/// "For a 65th sender": only the first 64 places of a list count.
pub const MOST: usize = 64;

/// "`0xFFFFFFFE` or above."
const USED_UP: u32 = 0xFFFF_FFFE;

/// A record: its kind and its body.
#[derive(Clone, Copy, PartialEq, Eq, Debug)]
pub enum Entry {
    Ceiling(u32),
    Sender(u64, u32),
    KeyNumber(u8),
}

impl Entry {
    /// "One kind byte and a body of the length the kind fixes": numbers least significant byte first.
    pub fn bytes(self) -> Vec<u8> {
        match self {
            Self::Ceiling(ceiling) => [&[1][..], &ceiling.to_le_bytes()].concat(),
            Self::Sender(sender, counter) => [&[2][..], &sender.to_le_bytes(), &counter.to_le_bytes()].concat(),
            Self::KeyNumber(number) => vec![3, number],
        }
    }

    /// The record of this kind and body; none if the body is not whole.
    fn of(kind: u8, body: &[u8]) -> Option<Self> {
        match kind {
            1 => Some(Self::Ceiling(u32::from_le_bytes(body.try_into().ok()?))),
            2 => {
                let (sender, counter) = body.split_at_checked(8)?;
                let sender = u64::from_le_bytes(sender.try_into().ok()?);
                Some(Self::Sender(sender, u32::from_le_bytes(counter.try_into().ok()?)))
            }
            _ => body.first().map(|&number| Self::KeyNumber(number)),
        }
    }
}

/// "1, a 4-byte ceiling; 2, an 8-byte sender and its 4-byte counter; 3, a 1-byte active key number."
fn body_length(kind: u8) -> Option<usize> {
    BTreeMap::from([(1, 4), (2, 8 + 4), (3, 1)]).get(&kind).copied()
}

/// What a journal's bytes are: its complete records and their length, or that a kind is none of the three.
pub struct Journal {
    pub entries: Vec<Entry>,
    pub complete: usize,
    /// "25 if a record's kind, even the last one's, is not 1 to 3."
    pub bad_kind: bool,
}

impl Journal {
    pub fn of(bytes: &[u8]) -> Self {
        let mut journal = Self { entries: Vec::new(), complete: 0, bad_kind: false };
        let mut rest = bytes;
        while let Some((&kind, behind)) = rest.split_first() {
            let Some(length) = body_length(kind) else {
                journal.bad_kind = true;
                break;
            };
            // "Ignores an incomplete last record."
            let Some((body, next)) = behind.split_at_checked(length) else { break };
            journal.entries.extend(Entry::of(kind, body));
            journal.complete += 1 + length;
            rest = next;
        }
        journal
    }

    /// "The largest ceiling (0 if none)."
    pub fn ceiling(&self) -> u32 {
        let ceilings = self.entries.iter().filter_map(|entry| match entry {
            Entry::Ceiling(ceiling) => Some(*ceiling),
            _ => None,
        });
        ceilings.max().unwrap_or(0)
    }

    /// "The last key number, or none."
    pub fn key_number(&self) -> Option<u8> {
        self.entries.iter().rev().find_map(|entry| match entry {
            Entry::KeyNumber(number) => Some(*number),
            _ => None,
        })
    }

    /// "Each sender's last counter", "by first appearance".
    pub fn senders(&self) -> Vec<(u64, u32)> {
        let named = self.entries.iter().enumerate().filter_map(|(at, entry)| match entry {
            Entry::Sender(sender, counter) => Some((at, *sender, *counter)),
            _ => None,
        });
        let mut known: BTreeMap<u64, (usize, u32)> = BTreeMap::new();
        for (at, sender, counter) in named {
            known.entry(sender).and_modify(|(_, last)| *last = counter).or_insert((at, counter));
        }
        let mut senders: Vec<(usize, u64, u32)> =
            known.iter().map(|(&sender, &(at, last))| (at, sender, last)).collect();
        senders.sort_unstable();
        senders.iter().map(|&(_, sender, last)| (sender, last)).collect()
    }

    /// "A journal that recovers to the same ceiling, senders with their counters, and key number or none. Order: key
    /// number if any, ceiling if above 0, then senders by rising address bytes, the first compared first."
    pub fn shrunk(&self) -> Vec<u8> {
        let key_number = self.key_number().map(Entry::KeyNumber);
        let ceiling = Some(self.ceiling()).filter(|ceiling| *ceiling > 0).map(Entry::Ceiling);
        let mut senders = self.senders();
        senders.sort_unstable_by_key(|(sender, _)| sender.to_le_bytes());
        let senders = senders.iter().map(|&(sender, last)| Entry::Sender(sender, last));
        key_number.into_iter().chain(ceiling).chain(senders).flat_map(Entry::bytes).collect()
    }
}

/// The answer as the C functions give it, and what they leave in the buffers lent.
pub fn run(request: &Request, journal: &[u8], list: &[Record]) -> (u64, Left) {
    let read = Journal::of(journal);
    let (answer, written) = match *request {
        Request::Recover => return recover(&read, list),
        Request::Write { kind, sender, counter, number, room } => {
            write(&read, new_entry(kind, sender, counter, number), room)
        }
        Request::Next { last } => (next(&read, last), Vec::new()),
        Request::Shrink { room } => shrink(&read, room),
    };
    (answer, Left { list: list.to_vec(), complete: None, written })
}

fn refused(number: u64) -> u64 {
    number << 32
}

/// "On recovery 25 .. then 24 for a 65th sender or one past the list's places."
fn recover(journal: &Journal, list: &[Record]) -> (u64, Left) {
    let senders = journal.senders();
    let counted = list.len().min(MOST);
    if journal.bad_kind {
        return (refused(25), Left::nothing(list));
    }
    if senders.len() > counted {
        return (refused(24), Left::nothing(list));
    }
    // "It fills the sender list anew by first appearance, counted places left over being zeroed."
    let filled = senders.iter().map(|&(address, counter)| Record { used: 1, address, counter });
    let zeros = std::iter::repeat(Record { used: 0, address: 0, counter: 0 });
    let after = filled.chain(zeros).take(counted).chain(list[counted..].iter().copied()).collect();
    let number = journal.key_number().map_or(0, |number| 1 << KNOWN_BIT | u64::from(number) << KEY_NUMBER_SHIFT);
    let answer = u64::from(journal.ceiling()) | number;
    (answer, Left { list: after, complete: Some(journal.complete as u64), written: Vec::new() })
}

/// The record to be written; none if its kind is none of the three.
fn new_entry(kind: u8, sender: u64, counter: u32, number: u8) -> Option<Entry> {
    match kind {
        1 => Some(Entry::Ceiling(counter)),
        2 => Some(Entry::Sender(sender, counter)),
        3 => Some(Entry::KeyNumber(number)),
        _ => None,
    }
}

/// "On writing a record 25, for the journal's records or the new one, then 24 if the journal with it names more than 64 senders,
/// then 18."
fn write(journal: &Journal, new: Option<Entry>, room: usize) -> (u64, Vec<u8>) {
    let Some(new) = new.filter(|_| !journal.bad_kind) else {
        return (refused(25), Vec::new());
    };
    let with_it = Journal { entries: [&journal.entries[..], &[new]].concat(), complete: 0, bad_kind: false };
    if with_it.senders().len() > MOST {
        return (refused(24), Vec::new());
    }
    fitted(new.bytes(), room)
}

/// "Then 18": the output is shorter than what is to be written.
fn fitted(bytes: Vec<u8>, room: usize) -> (u64, Vec<u8>) {
    match bytes.len() > room {
        true => (refused(18), Vec::new()),
        false => (bytes.len() as u64, bytes),
    }
}

/// "For the next counter 25, then 26 if the last one is `0xFFFFFFFE` or above, then 27 if no complete ceiling covers it", "being no
/// lower".
fn next(journal: &Journal, last: u32) -> u64 {
    if journal.bad_kind {
        return refused(25);
    }
    if last >= USED_UP {
        return refused(26);
    }
    let next = last + 1;
    let covers = |entry: &Entry| matches!(entry, Entry::Ceiling(ceiling) if *ceiling >= next);
    match journal.entries.iter().any(covers) {
        true => u64::from(next),
        false => refused(27),
    }
}

/// "25, then 24 if the journal names more than 64 senders, then 18."
fn shrink(journal: &Journal, room: usize) -> (u64, Vec<u8>) {
    if journal.bad_kind {
        return (refused(25), Vec::new());
    }
    if journal.senders().len() > MOST {
        return (refused(24), Vec::new());
    }
    fitted(journal.shrunk(), room)
}
