//! Journals and what is asked of them: random bytes, whole records, cuts inside the last one, kinds that are none, few senders and
//! more than 64, journals that are shrunk already, and a few thousand records.
use crate::support::journals::Request;
use crate::support::model::journal::{Entry, Journal, MOST};
use crate::support::random::Random;
use crate::support::senders::Record;

/// The longest output that is tried for a record: one more than the longest record.
pub const LONGEST_ROOM: usize = 14;

/// The longest shrunk journal: a key number, a ceiling and 64 senders.
pub const LONGEST_SHRUNK: usize = 2 + 5 + MOST * 13;

/// A journal.
pub fn journal(random: &mut Random) -> Vec<u8> {
    match random.below(20) {
        0 => random_bytes(random),
        1..=8 => damaged(&few(random), random),
        9 => {
            let records = if random.bit() { few(random) } else { many(random) };
            Journal::of(&bytes_of(&records)).shrunk()
        }
        _ => damaged(&many(random), random),
    }
}

/// A journal of a few thousand records.
pub fn long(random: &mut Random) -> Vec<u8> {
    let names = addresses(random.between(1, MOST + 4), random);
    let records: Vec<Entry> = (0..random.between(2000, 4000)).map(|_| entry(&names, random)).collect();
    damaged(&records, random)
}

/// Bytes of which many are kinds.
fn random_bytes(random: &mut Random) -> Vec<u8> {
    let n = random.below(40);
    (0..n).map(|_| if random.percent(60) { random.between(0, 4) as u8 } else { random.byte() }).collect()
}

/// Up to 24 records that name up to four senders.
pub fn few(random: &mut Random) -> Vec<Entry> {
    let names = addresses(random.below(5), random);
    let records = (0..random.below(25)).map(|_| entry(&names, random)).collect();
    lowered(records, random)
}

/// Records that name about 64 senders, each at least once and in any order, or fewer.
fn many(random: &mut Random) -> Vec<Entry> {
    let near = [MOST - 2, MOST - 1, MOST - 1, MOST, MOST, MOST + 1, MOST + 3];
    let count = if random.percent(85) { random.pick(&near) } else { random.below(MOST + 20) };
    let names = addresses(count, random);
    let mut records: Vec<Entry> = names.iter().map(|&name| Entry::Sender(name, number(random))).collect();
    for _ in 0..random.below(30) {
        records.insert(random.below(records.len() + 1), entry(&names, random));
    }
    lowered(records, random)
}

/// The records with their ceilings as they are, low ones, 0, or none.
fn lowered(records: Vec<Entry>, random: &mut Random) -> Vec<Entry> {
    let below = random.pick(&[0, 1, 6, u64::MAX]);
    let lower = |record: Entry| match record {
        Entry::Ceiling(ceiling) => u64::from(ceiling).checked_rem(below).map(|lower| Entry::Ceiling(lower as u32)),
        other => Some(other),
    };
    records.into_iter().filter_map(lower).collect()
}

pub fn bytes_of(records: &[Entry]) -> Vec<u8> {
    records.iter().flat_map(|record| record.bytes()).collect()
}

/// Different addresses: the lowest and the highest, some that differ in one bit, and others.
fn addresses(count: usize, random: &mut Random) -> Vec<u64> {
    let near = random.number();
    let mut addresses = vec![near, near ^ 1 << random.below(64), 0, u64::MAX, near.swap_bytes()];
    while addresses.len() < count {
        addresses.push(random.number());
    }
    addresses.sort_unstable();
    addresses.dedup();
    while addresses.len() > count {
        addresses.remove(random.below(addresses.len()));
    }
    for i in (1..addresses.len()).rev() {
        addresses.swap(i, random.below(i + 1));
    }
    addresses
}

/// A record that names one of these senders, if it names one.
pub fn entry(names: &[u64], random: &mut Random) -> Entry {
    match random.below(8) {
        0..=2 => Entry::Ceiling(number(random)),
        4.. if !names.is_empty() => Entry::Sender(random.pick(names), number(random)),
        _ => Entry::KeyNumber(if random.percent(30) { 0 } else { random.byte() }),
    }
}

/// A ceiling or counter: the ends, small ones, and any.
fn number(random: &mut Random) -> u32 {
    match random.below(10) {
        0 => 0,
        1..=3 => random.below(6) as u32,
        4 => u32::MAX - random.below(4) as u32,
        _ => random.number() as u32,
    }
}

/// The records' bytes: whole, cut inside the last one, with a part of one more behind them, or with a byte put in whose kind is none,
/// at the end, at the front or between two records.
fn damaged(records: &[Entry], random: &mut Random) -> Vec<u8> {
    let mut bytes = bytes_of(records);
    let last = records.last().map_or(0, |record| record.bytes().len());
    match random.below(12) {
        0..=3 => {}
        4..=6 => bytes.truncate(bytes.len() - random.below(last + 1)),
        7 => bytes.push(no_kind(random)),
        8 if !records.is_empty() => {
            let front = random.below(records.len());
            bytes.insert(bytes_of(&records[..front]).len(), no_kind(random));
        }
        9 => bytes.extend(Entry::Ceiling(random.number() as u32 | 0xFF_0000).bytes().iter().take(random.between(1, 4))),
        _ => {
            let record = entry(&[random.number()], random).bytes();
            bytes.extend(&record[..random.between(1, record.len() - 1)]);
        }
    }
    bytes
}

/// A byte that is no kind.
pub fn no_kind(random: &mut Random) -> u8 {
    match random.below(4) {
        0 => 0,
        1 => 4,
        2 => 0xFF,
        _ => random.between(4, 255) as u8,
    }
}

/// A list of so many places with something in most of them.
pub fn list(places: usize, random: &mut Random) -> Vec<Record> {
    let used = random.pick(&[100, 60, 0]);
    let record = |random: &mut Random| match random.percent(90) {
        true => Record {
            used: if random.percent(used) { random.byte().max(1) } else { 0 },
            address: random.number(),
            counter: random.number() as u32,
        },
        false => Record { used: 0, address: 0, counter: 0 },
    };
    (0..places).map(|_| record(random)).collect()
}

/// A number of places: often what the journal needs, one less or one more, and often around 64.
pub fn places(journal: &[u8], random: &mut Random) -> usize {
    let needed = Journal::of(journal).senders().len();
    match random.below(6) {
        0 => needed,
        1 => needed.saturating_sub(1),
        2 => needed + 1,
        3 => random.between(MOST - 1, MOST + 2),
        4 => MOST,
        _ => random.below(MOST + 7),
    }
}

/// A record to be written, of any kind, with any room.
pub fn write(journal: &[u8], random: &mut Random) -> Request {
    let senders = Journal::of(journal).senders();
    let known = !senders.is_empty() && random.percent(50);
    let sender = if known { random.pick(&senders).0 } else { random.number() };
    let kind = if random.percent(85) { random.pick(&[1, 2, 2, 2, 3]) } else { no_kind(random) };
    let room = if random.bit() { random.between(12, LONGEST_ROOM) } else { random.below(LONGEST_ROOM + 1) };
    Request::Write { kind, sender, counter: number(random), number: random.byte(), room }
}

/// A last counter: beside one of the journal's ceilings, complete or not, near the end, or any.
pub fn next(journal: &[u8], random: &mut Random) -> Request {
    let read = Journal::of(journal);
    let ceilings: Vec<u32> = read
        .entries
        .iter()
        .filter_map(|entry| match entry {
            Entry::Ceiling(ceiling) => Some(*ceiling),
            _ => None,
        })
        .collect();
    let around = if ceilings.is_empty() || random.percent(60) { read.ceiling() } else { random.pick(&ceilings) };
    let last = match random.below(10) {
        0..=2 => around.wrapping_sub(1),
        3..=5 => around,
        6 => around.wrapping_sub(2),
        7 => random.pick(&[0xFFFF_FFFC, 0xFFFF_FFFD, 0xFFFF_FFFE, 0xFFFF_FFFF]),
        8 => 0,
        // What an incomplete ceiling would cover.
        _ if journal[read.complete..].first() == Some(&1) => 0x00FF_0000 | random.below(0xFFFF) as u32,
        _ => number(random),
    };
    Request::Next { last }
}

/// An output for the shrunk journal: often as long as that is, one byte shorter or longer, or none; about the longest,
/// or any.
pub fn shrink(journal: &[u8], random: &mut Random) -> Request {
    let needed = Journal::of(journal).shrunk().len();
    let room = match random.below(9) {
        0..=2 => needed,
        3 => needed.saturating_sub(1),
        4 => needed + 1,
        5 => 0,
        6 => LONGEST_SHRUNK,
        7 => random.between(LONGEST_SHRUNK - 1, LONGEST_SHRUNK + 40),
        _ => random.below(journal.len() + 40),
    };
    Request::Shrink { room }
}
