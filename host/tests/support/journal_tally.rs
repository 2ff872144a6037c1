//! What the generated calls over journals met: every size of a list, every cut inside a record, and each case of
//! recovery, writing, the next counter and shrinking that document 02's requests 6 and 7 tell apart.
use super::generate::journals::LONGEST_SHRUNK;
use super::journals::{Done, Request};
use super::model::journal::{Entry, Journal, MOST};
use super::senders::Record;
use std::collections::BTreeMap;

/// The longest list.
pub const LONGEST: usize = 70;

/// A case, and whether a call met it.
type Case = (String, bool);

#[derive(Default)]
pub struct JournalTally {
    sizes: BTreeMap<usize, usize>,
    met: BTreeMap<String, usize>,
    calls: usize,
}

impl JournalTally {
    pub fn count(&mut self, request: &Request, journal: &[u8], list: &[Record], done: &Done) {
        self.calls += 1;
        let found = Found::of(journal, list);
        let cases = match *request {
            Request::Recover => {
                *self.sizes.entry(list.len()).or_default() += 1;
                [found.recovered(list, done), found.cut("recovered", done), found.no_kind("recovered", done)].concat()
            }
            Request::Write { kind, sender, room, .. } => found.written(kind, sender, room, done),
            Request::Next { last } => found.next(last, done),
            Request::Shrink { room } => {
                let cases = [found.shrunk(journal, room, done), found.state(done), found.near(done)].concat();
                [cases, found.cut("shrunk", done), found.no_kind("shrunk", done)].concat()
            }
        };
        for (name, met) in cases {
            *self.met.entry(name).or_default() += usize::from(met);
        }
    }

    pub fn calls(&self) -> usize {
        self.calls
    }

    /// Every size of a list and every case was met at least so often.
    pub fn check(&self, at_least: usize) {
        for size in 0..=LONGEST {
            let met = self.sizes.get(&size).copied().unwrap_or(0);
            assert!(met >= at_least, "a list of {size} was met only {met} times");
        }
        for (name, met) in &self.met {
            assert!(*met >= at_least, "{name}: met only {met} times");
        }
        for function in ["recovered", "written", "next", "shrunk"] {
            assert!(self.met.keys().any(|name| name.starts_with(function)), "nothing was {function}");
        }
    }

    pub fn report(&self) -> String {
        let lines: Vec<String> = self.met.iter().map(|(name, met)| format!("{met:>6}  {name}")).collect();
        format!("{} calls over journals\n{}", self.calls, lines.join("\n"))
    }
}

/// What is in a journal, as the request speaks of it.
struct Found {
    read: Journal,
    senders: Vec<(u64, u32)>,
    ceilings: Vec<u32>,
    key_numbers: Vec<u8>,
    /// What is behind the complete records.
    tail: Vec<u8>,
    /// The places of the list that count.
    counted: usize,
}

impl Found {
    fn of(journal: &[u8], list: &[Record]) -> Self {
        let read = Journal::of(journal);
        let (mut ceilings, mut key_numbers) = (Vec::new(), Vec::new());
        for entry in &read.entries {
            match entry {
                Entry::Ceiling(ceiling) => ceilings.push(*ceiling),
                Entry::KeyNumber(number) => key_numbers.push(*number),
                Entry::Sender(..) => {}
            }
        }
        Self {
            senders: read.senders(),
            ceilings,
            key_numbers,
            tail: journal[read.complete..].to_vec(),
            counted: list.len().min(MOST),
            read,
        }
    }

    /// The incomplete last record is of this kind.
    fn incomplete(&self, kind: u8) -> bool {
        !self.read.bad_kind && self.tail.first() == Some(&kind)
    }

    /// The sender that an incomplete last record names in full.
    fn half_noted(&self) -> Option<u64> {
        let name = self.tail.get(1..9).filter(|_| self.incomplete(2))?;
        name.try_into().ok().map(u64::from_le_bytes)
    }

    /// An incomplete last record names a sender in full that no complete one names.
    fn half_new(&self) -> bool {
        self.half_noted().is_some_and(|sender| !self.knows(sender))
    }

    fn knows(&self, sender: u64) -> bool {
        self.senders.iter().any(|(known, _)| *known == sender)
    }

    fn recovered(&self, list: &[Record], done: &Done) -> Vec<Case> {
        let (given, at_24, at_25) = (done.refusal() == 0, done.refusal() == 24, done.refusal() == 25);
        let (count, top) = (self.senders.len(), self.read.ceiling());
        let named: Vec<u64> = self.names();
        let left = || list[count.min(self.counted)..self.counted].iter();
        let past = || list.iter().skip(MOST);
        let again = named.len() > count;
        let half_new = self.half_new();
        let cases = [
            ("an empty journal", given && self.read.entries.is_empty() && self.tail.is_empty()),
            ("no ceiling", given && self.ceilings.is_empty() && count > 0),
            ("only the ceiling 0", given && !self.ceilings.is_empty() && top == 0),
            ("the last ceiling is not the largest", given && self.ceilings.last().is_some_and(|last| *last < top)),
            ("the first ceiling is not the largest", given && self.ceilings.first().is_some_and(|first| *first < top)),
            ("the ceiling FFFFFFFF", given && top == u32::MAX),
            ("a ceiling above 7FFFFFFF is the largest", given && top > 0x7FFF_FFFF && self.ceilings.len() > 1),
            ("no key number", given && self.key_numbers.is_empty() && count > 0),
            ("the key number 0", given && self.key_numbers.last() == Some(&0)),
            ("the first key number is another", given && self.key_numbers.first() != self.key_numbers.last()),
            ("a sender again", given && again),
            ("a sender again with a lower counter", given && self.lower_again()),
            ("the last record's sender is not the last by first appearance", given && again && self.order_matters()),
            ("the sender 0", given && self.knows(0)),
            ("as many senders as places", given && count == list.len() && (1..MOST).contains(&count)),
            ("64 senders in 64 places", given && count == MOST && list.len() == MOST),
            ("64 senders in more places", given && count == MOST && list.len() > MOST),
            ("a place left over is used", given && left().any(|record| record.used != 0)),
            ("a place left over is free and not zeros", given && left().any(|r| r.used == 0 && r.address != 0)),
            ("the 64th place is left over", given && list.len() >= MOST && count < MOST),
            ("a place past the 64th is used", given && past().any(|record| record.used != 0)),
            (
                "an incomplete ceiling above all",
                given && self.incomplete(1) && self.tail.get(3) == Some(&0xFF) && top < 0xFF_FFFF,
            ),
            ("an incomplete record of a new sender", given && half_new),
            ("64 senders and an incomplete record of a new one", given && half_new && count == MOST),
            ("an incomplete key number", given && self.incomplete(3)),
            ("24, a 65th sender in 64 places", at_24 && count > MOST && list.len() == MOST),
            ("24, a 65th sender in more places", at_24 && count == MOST + 1 && list.len() > MOST),
            ("24, one past the places", at_24 && count == list.len() + 1 && count < MOST),
            ("24, no places", at_24 && list.is_empty()),
            ("25 with 24 for a 65th sender", at_25 && count > MOST),
            ("25 with 24 for the list's places", at_25 && count > list.len() && count <= MOST),
        ];
        named_cases("recovered", &cases)
    }

    /// Each cut of each kind, by the bytes that are there.
    fn cut(&self, front: &str, done: &Done) -> Vec<Case> {
        let cuts = [(1, 5), (2, 13), (3, 2)].into_iter().flat_map(|(kind, length)| (1..length).map(move |n| (kind, n)));
        let met = |kind: u8, n: usize| done.refusal() == 0 && self.incomplete(kind) && self.tail.len() == n;
        cuts.map(|(kind, n)| (format!("{front}, kind {kind} cut after {n} bytes"), met(kind, n))).collect()
    }

    /// Where the kind that is none stands.
    fn no_kind(&self, front: &str, done: &Done) -> Vec<Case> {
        let at_25 = done.refusal() == 25;
        let cases = [
            ("25, the first kind", at_25 && self.read.complete == 0),
            ("25, a later kind", at_25 && self.read.complete > 0 && self.tail.len() > 1),
            ("25, the last byte is 0", at_25 && self.tail == [0]),
            ("25, the last byte is 4", at_25 && self.tail == [4]),
            ("25, the last byte is FF", at_25 && self.tail == [0xFF]),
        ];
        named_cases(front, &cases)
    }

    fn written(&self, kind: u8, sender: u64, room: usize, done: &Done) -> Vec<Case> {
        let (given, at_18) = (done.refusal() == 0, done.refusal() == 18);
        let (at_24, at_25) = (done.refusal() == 24, done.refusal() == 25);
        let count = self.senders.len();
        let (known, no_kind) = (self.knows(sender), !(1..=3).contains(&kind));
        let is_new = kind == 2 && !known;
        let length = [0, 5, 13, 2].get(usize::from(kind)).copied().unwrap_or(0);
        let (too_short, too_many) = (room < length, count + usize::from(is_new) > MOST);
        let cases = [
            ("a known sender beside 63 others", given && kind == 2 && known && count == MOST),
            ("a 64th sender", given && is_new && count == MOST - 1),
            ("beside 64 senders, another kind", given && kind != 2 && count == MOST),
            ("behind an incomplete record", given && !self.tail.is_empty()),
            (
                "a 64th sender behind the incomplete record of another",
                given && is_new && count == MOST - 1 && self.half_noted().is_some(),
            ),
            ("18, no room", at_18 && room == 0),
            ("18 beside a known sender of 64", at_18 && kind == 2 && known && count == MOST),
            ("24, a 65th sender", at_24 && is_new && count == MOST),
            ("24, a ceiling where there are 65", at_24 && kind == 1 && count > MOST),
            ("24, a known sender where there are 65", at_24 && kind == 2 && known && count > MOST),
            ("24, a new sender where there are 65", at_24 && is_new && count > MOST),
            ("24, a key number where there are 65", at_24 && kind == 3 && count > MOST),
            ("24 with 18", at_24 && too_short),
            ("25, the journal's", at_25 && self.read.bad_kind && !no_kind && !too_many && !too_short),
            ("25, the journal's last byte", at_25 && self.read.bad_kind && !no_kind && self.tail.len() == 1),
            ("25, kind 0", at_25 && kind == 0 && !self.read.bad_kind),
            ("25, kind 4", at_25 && kind == 4 && !self.read.bad_kind),
            ("25, kind FF", at_25 && kind == 0xFF && !self.read.bad_kind),
            ("25, both", at_25 && no_kind && self.read.bad_kind),
            ("25 of the journal with 24", at_25 && self.read.bad_kind && !no_kind && too_many),
            ("25 of the kind with 24", at_25 && no_kind && !self.read.bad_kind && count > MOST),
            ("25 of the journal with 18", at_25 && self.read.bad_kind && !no_kind && too_short),
            ("25 of the kind with no room", at_25 && no_kind && !self.read.bad_kind && room == 0),
            ("25 with 24 and 18", at_25 && !no_kind && too_many && too_short),
        ];
        let mut cases = named_cases("written", &cases);
        let met = |asked: u8, n: usize| (given || at_18) && kind == asked && room == n;
        let rooms = (1..=3).flat_map(|kind| (0..=14).map(move |n| (kind, n)));
        cases.extend(rooms.map(|(kind, n)| (format!("written, kind {kind} with room {n:>2}"), met(kind, n))));
        cases
    }

    fn next(&self, last: u32, done: &Done) -> Vec<Case> {
        let given = done.refusal() == 0;
        let (at_25, at_26, at_27) = (done.refusal() == 25, done.refusal() == 26, done.refusal() == 27);
        let top = self.read.ceiling();
        let above = |n: u32| self.ceilings.last().is_some_and(|ceiling| *ceiling > n);
        let half = self.tail.get(1..).filter(|body| self.incomplete(1) && body.len() == 3);
        let half = half.map(|body| u32::from_le_bytes([body[0], body[1], body[2], 0]));
        let cases = [
            ("the ceiling itself", given && last + 1 == top),
            ("below the ceiling", given && last + 1 < top),
            ("1 after 0", given && last == 0),
            ("covered, but not by the last ceiling", given && !above(last)),
            ("FFFFFFFE after FFFFFFFD", given && last == 0xFFFF_FFFD),
            ("where there are 65 senders", given && self.senders.len() > MOST),
            ("behind an incomplete record", given && !self.tail.is_empty()),
            ("25 alone", at_25 && top > last && last < 0xFFFF_FFFE),
            ("25 for the last byte", at_25 && self.tail.len() == 1),
            ("25 with 26", at_25 && last >= 0xFFFF_FFFE),
            ("25 with 27", at_25 && last < 0xFFFF_FFFE && top <= last),
            ("26 at FFFFFFFE", at_26 && last == 0xFFFF_FFFE),
            ("26 at FFFFFFFF", at_26 && last == 0xFFFF_FFFF),
            ("26 with the ceiling FFFFFFFF", at_26 && last == 0xFFFF_FFFE && top == u32::MAX),
            ("26 with 27", at_26 && top <= last),
            ("27, no ceiling", at_27 && self.ceilings.is_empty()),
            ("27, the ceiling is the last counter", at_27 && top == last && last > 0),
            ("27, the ceiling 0 after 0", at_27 && !self.ceilings.is_empty() && top == 0 && last == 0),
            ("27, the ceiling is lower", at_27 && top < last && !self.ceilings.is_empty()),
            ("27, an incomplete ceiling would cover", at_27 && half.is_some_and(|half| half > last)),
            ("27 where there are 65 senders", at_27 && self.senders.len() > MOST),
        ];
        named_cases("next", &cases)
    }

    fn shrunk(&self, journal: &[u8], room: usize, done: &Done) -> Vec<Case> {
        let (given, at_18) = (done.refusal() == 0, done.refusal() == 18);
        let (at_24, at_25) = (done.refusal() == 24, done.refusal() == 25);
        let (count, top, shrunk) = (self.senders.len(), self.read.ceiling(), self.read.shrunk());
        let needed = shrunk.len();
        let (too_many, too_short) = (count > MOST, room < needed);
        let in_order = self.senders.is_sorted_by_key(|(sender, _)| sender.to_le_bytes());
        let one_short = at_18 && room + 1 == needed;
        let cases = [
            ("an empty journal", given && journal.is_empty()),
            ("an incomplete record alone", given && !journal.is_empty() && self.read.complete == 0),
            ("the last ceiling is not the largest", given && self.ceilings.last().is_some_and(|last| *last < top)),
            ("the first ceiling is not the largest", given && self.ceilings.first().is_some_and(|first| *first < top)),
            ("the ceiling FFFFFFFF", given && top == u32::MAX),
            ("the first key number is another", given && self.key_numbers.first() != self.key_numbers.last()),
            ("a sender again with a lower counter", given && self.lower_again()),
            ("the sender 0", given && self.knows(0)),
            ("the sender FFFFFFFFFFFFFFFF", given && self.knows(u64::MAX)),
            ("a counter of 0", given && self.senders.iter().any(|(_, last)| *last == 0)),
            ("a counter of FFFFFFFF", given && self.senders.iter().any(|(_, last)| *last == u32::MAX)),
            ("the wire's order is not that of first appearance", given && !in_order),
            ("the wire's order is not the numbers'", given && self.wire_order_matters()),
            ("64 senders and an incomplete record of a new one", given && count == MOST && self.half_new()),
            ("shrunk already", given && !journal.is_empty() && journal == shrunk),
            ("64 senders, shrunk already", given && count == MOST && journal == shrunk),
            ("the length stays and the order does not", given && journal.len() == needed && journal != shrunk),
            ("room exactly enough", given && room == needed && needed > 0),
            ("room exactly enough for the longest", given && room == needed && needed == LONGEST_SHRUNK),
            ("no room needed and none lent", given && room == 0),
            ("one byte more than enough", given && room == needed + 1),
            ("room for the longest", given && room == LONGEST_SHRUNK && needed < room),
            ("more room than for the longest", given && room > LONGEST_SHRUNK),
            ("less room than the complete records have", given && room < self.read.complete),
            ("18, one byte short", one_short && room > 0),
            ("18, one byte short of 64 senders", one_short && count == MOST),
            ("18, one byte short of the longest", one_short && needed == LONGEST_SHRUNK),
            ("18, no room", at_18 && room == 0),
            ("24 alone, a 65th sender", at_24 && count == MOST + 1 && !too_short),
            ("24 alone, more senders", at_24 && count > MOST + 1 && !too_short),
            ("24 with 18", at_24 && too_short && room > 0),
            ("24 with no room", at_24 && room == 0),
            ("25 alone", at_25 && !too_many && !too_short),
            ("25 with 18", at_25 && !too_many && too_short),
            ("25 with 24", at_25 && too_many && !too_short),
            ("25 with 24 and 18", at_25 && too_many && too_short),
        ];
        named_cases("shrunk", &cases)
    }

    /// No key number, 0 or another, beside no ceiling, 0 alone or another, beside no sender, some or 64.
    fn state(&self, done: &Done) -> Vec<Case> {
        let numbers = ["no key number", "key number 0", "a key number"];
        let ceilings = ["no ceiling", "ceiling 0", "a ceiling"];
        let senders = ["no sender", "senders", "64 senders"];
        let number = self.key_numbers.last().map_or(0, |number| 1 + usize::from(*number > 0));
        let ceiling = self.ceilings.iter().max().map_or(0, |top| 1 + usize::from(*top > 0));
        let sender = usize::from(!self.senders.is_empty()) + usize::from(self.senders.len() == MOST);
        let is = [numbers[number], ceilings[ceiling], senders[sender]];
        let each = (0..27).map(|n| [numbers[n / 9], ceilings[n / 3 % 3], senders[n % 3]]);
        each.map(|state| (format!("shrunk, {}", state.join(", ")), done.refusal() == 0 && state == is)).collect()
    }

    /// Two addresses that differ in one byte alone, for each byte, and in the highest bit of one alone.
    fn near(&self, done: &Done) -> Vec<Case> {
        let (given, differences) = (done.refusal() == 0, self.differences());
        let within = |byte: usize, bits: u64| differences.iter().any(|found| found & !(bits << (8 * byte)) == 0);
        let bytes = (0..8).map(|byte| (format!("differ in byte {byte} alone"), within(byte, 0xFF)));
        let highest = ("differ in a highest bit alone".to_string(), (0..8).any(|byte| within(byte, 0x80)));
        bytes.chain([highest]).map(|(name, met)| (format!("shrunk, two addresses {name}"), given && met)).collect()
    }

    /// The bits in which two senders' addresses differ, where they are of one byte alone.
    fn differences(&self) -> Vec<u64> {
        let mut differences = Vec::new();
        for (n, (sender, _)) in self.senders.iter().enumerate() {
            let others = self.senders[..n].iter().map(|(other, _)| sender ^ other);
            differences.extend(others.filter(|bits| bits >> (bits.trailing_zeros() / 8 * 8) <= 0xFF));
        }
        differences
    }

    /// The senders of the records, one after the other.
    fn names(&self) -> Vec<u64> {
        let names = self.read.entries.iter().filter_map(|entry| match entry {
            Entry::Sender(sender, _) => Some(*sender),
            _ => None,
        });
        names.collect()
    }

    /// A sender's last counter is lower than an earlier one.
    fn lower_again(&self) -> bool {
        let higher = |sender: u64, last: u32| {
            self.read.entries.iter().any(|entry| matches!(entry, Entry::Sender(s, c) if *s == sender && *c > last))
        };
        self.senders.iter().any(|&(sender, last)| higher(sender, last))
    }

    fn order_matters(&self) -> bool {
        self.names().last().copied() != self.senders.last().map(|(sender, _)| *sender)
    }

    /// The senders by rising address bytes are not those by rising number.
    fn wire_order_matters(&self) -> bool {
        let mut addresses: Vec<u64> = self.senders.iter().map(|(sender, _)| *sender).collect();
        addresses.sort_unstable();
        !addresses.is_sorted_by_key(|address| address.to_le_bytes())
    }
}

fn named_cases(front: &str, cases: &[(&str, bool)]) -> Vec<Case> {
    cases.iter().map(|(name, met)| (format!("{front}, {name}"), *met)).collect()
}
