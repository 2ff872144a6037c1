//! What the generated calls over lists of senders met: every size of a list, and each case of asking, noting and forgetting that
//! document 02's request 5 tells apart.
use super::model::senders::COUNTED;
use super::senders::{Done, Record, Request};
use std::collections::BTreeMap;

/// The longest list.
pub const LONGEST: usize = 70;

const LAST: u32 = u32::MAX;

/// What asking can meet.
const ASKED: [&str; 15] = [
    "the key, unknown sender",
    "the key, unknown sender with counter 0",
    "the key, named only past the 64th place and not above that counter",
    "the key, left in a free place and not above that counter",
    "the key, one above the stored counter",
    "the key, above the first of two records and not above the second",
    "22",
    "22 with FFFFFFFF",
    "22 with a counter not above the stored one",
    "23, FFFFFFFF of an unknown sender",
    "23, FFFFFFFF above the stored counter",
    "23, the stored counter",
    "23, one below the stored counter",
    "23, after FFFFFFFF was noted",
    "23, above the second of two records and not above the first",
];

/// What noting can meet.
const NOTED: [&str; 16] = [
    "noted, known",
    "noted, known, with the same counter",
    "noted, known, with a lower counter",
    "noted, known, with FFFFFFFF",
    "noted, known, the earlier one 0",
    "noted, known by a mark other than 1",
    "noted, named twice",
    "noted, new in the first place",
    "noted, new in a later place",
    "noted, new in a place where it was left",
    "noted, new in a place where another was left",
    "noted, new though named past the 64th place",
    "noted, new with address 0",
    "24, every place used",
    "24, a place past the 64th free",
    "24, no places",
];

/// What forgetting can meet.
const FORGOTTEN: [&str; 7] = [
    "forgotten, one place",
    "forgotten, several places",
    "forgotten, address 0",
    "forgotten, and named past the 64th place too",
    "unknown to forgetting",
    "unknown to forgetting, left in a free place",
    "unknown to forgetting, named past the 64th place",
];

#[derive(Default)]
pub struct SenderTally {
    sizes: BTreeMap<usize, usize>,
    met: BTreeMap<&'static str, usize>,
    calls: usize,
}

impl SenderTally {
    pub fn count(&mut self, request: &Request, list: &[Record], done: &Done) {
        self.calls += 1;
        *self.sizes.entry(list.len()).or_default() += 1;
        let found = Found::of(request.sender(), list);
        let cases = match *request {
            Request::Ask { counter, .. } => found.asked(counter, done),
            Request::Note { counter, .. } => found.noted(counter, done),
            Request::Forget { .. } => found.forgotten(),
        };
        for (name, _) in cases.into_iter().filter(|(_, met)| *met) {
            *self.met.entry(name).or_default() += 1;
        }
    }

    pub fn calls(&self) -> usize {
        self.calls
    }

    /// Everything was met at least so often, and nothing that has no name here.
    pub fn check(&self, at_least: usize) {
        for size in 0..=LONGEST {
            let met = self.sizes.get(&size).copied().unwrap_or(0);
            assert!(met >= at_least, "a list of {size} was met only {met} times");
        }
        for name in ASKED.iter().chain(&NOTED).chain(&FORGOTTEN) {
            let met = self.met.get(name).copied().unwrap_or(0);
            assert!(met >= at_least, "{name}: met only {met} times");
        }
        assert_eq!(self.met.len(), ASKED.len() + NOTED.len() + FORGOTTEN.len(), "a case has another name");
    }

    pub fn report(&self) -> String {
        let lines: Vec<String> = self.met.iter().map(|(name, met)| format!("{met:>6}  {name}")).collect();
        format!("{} calls over lists of senders\n{}", self.calls, lines.join("\n"))
    }
}

/// A case, and whether it was met.
type Case = (&'static str, bool);

/// What a list has with a sender's address.
struct Found {
    sender: u64,
    /// The records that count and name it.
    named: Vec<Record>,
    /// What is left of it in free places that count, and the records past the 64th place that name it.
    left: Vec<Record>,
    behind: Vec<Record>,
    /// The first free place that counts, and what is in it.
    free: Option<(usize, Record)>,
    free_behind: bool,
    no_places: bool,
}

impl Found {
    fn of(sender: u64, list: &[Record]) -> Self {
        let (counted, behind) = list.split_at(list.len().min(COUNTED));
        let with = |records: &[Record], used: bool| {
            let its = records.iter().filter(|record| record.address == sender && (record.used != 0) == used);
            its.copied().collect::<Vec<_>>()
        };
        Self {
            sender,
            named: with(counted, true),
            left: with(counted, false),
            behind: with(behind, true),
            free: counted.iter().copied().enumerate().find(|(_, record)| record.used == 0),
            free_behind: behind.iter().any(|record| record.used == 0),
            no_places: list.is_empty(),
        }
    }

    /// The counter that counts.
    fn stored(&self) -> Option<u32> {
        self.named.first().map(|record| record.counter)
    }

    fn asked(&self, counter: u32, done: &Done) -> Vec<Case> {
        let (given, known) = (done.refusal() == 0, !self.named.is_empty());
        let stored = self.stored();
        let not_above = |records: &[Record]| records.iter().any(|record| counter <= record.counter);
        let second = self.named.get(1).map(|record| record.counter);
        let (at_22, at_23) = (done.refusal() == 22, done.refusal() == 23);
        vec![
            (ASKED[0], given && !known),
            (ASKED[1], given && !known && counter == 0),
            (ASKED[2], given && !known && not_above(&self.behind)),
            (ASKED[3], given && !known && not_above(&self.left)),
            (ASKED[4], given && stored.is_some_and(|stored| stored.checked_add(1) == Some(counter))),
            (ASKED[5], given && second.is_some_and(|second| counter <= second)),
            (ASKED[6], at_22),
            (ASKED[7], at_22 && counter == LAST),
            (ASKED[8], at_22 && stored.is_some_and(|stored| counter <= stored)),
            (ASKED[9], at_23 && counter == LAST && !known),
            (ASKED[10], at_23 && counter == LAST && stored.is_some_and(|stored| stored < LAST)),
            (ASKED[11], at_23 && counter != LAST && stored == Some(counter)),
            (ASKED[12], at_23 && counter.checked_add(1).is_some_and(|next| stored == Some(next))),
            (ASKED[13], at_23 && counter != LAST && stored == Some(LAST)),
            (ASKED[14], at_23 && counter != LAST && second.is_some_and(|second| counter > second)),
        ]
    }

    fn noted(&self, counter: u32, done: &Done) -> Vec<Case> {
        let (known, new) = (done.known(), done.refusal() == 0 && !done.known());
        let at_24 = done.refusal() == 24;
        let first = self.named.first();
        let into = self.free.filter(|_| new);
        let was_left = |record: Record| record.address != 0 || record.counter != 0;
        vec![
            (NOTED[0], known),
            (NOTED[1], known && self.stored() == Some(counter)),
            (NOTED[2], known && self.stored().is_some_and(|stored| counter < stored)),
            (NOTED[3], known && counter == LAST),
            (NOTED[4], known && self.stored() == Some(0)),
            (NOTED[5], known && first.is_some_and(|first| first.used != 1)),
            (NOTED[6], known && self.named.len() > 1),
            (NOTED[7], into.is_some_and(|(place, _)| place == 0)),
            (NOTED[8], into.is_some_and(|(place, _)| place > 0)),
            (NOTED[9], into.is_some_and(|(_, record)| was_left(record) && record.address == self.sender)),
            (NOTED[10], into.is_some_and(|(_, record)| was_left(record) && record.address != self.sender)),
            (NOTED[11], new && !self.behind.is_empty()),
            (NOTED[12], new && self.sender == 0),
            (NOTED[13], at_24 && !self.no_places && !self.free_behind),
            (NOTED[14], at_24 && self.free_behind),
            (NOTED[15], at_24 && self.no_places),
        ]
    }

    fn forgotten(&self) -> Vec<Case> {
        let unknown = self.named.is_empty();
        vec![
            (FORGOTTEN[0], self.named.len() == 1),
            (FORGOTTEN[1], self.named.len() > 1),
            (FORGOTTEN[2], !unknown && self.sender == 0),
            (FORGOTTEN[3], !unknown && !self.behind.is_empty()),
            (FORGOTTEN[4], unknown),
            (FORGOTTEN[5], unknown && !self.left.is_empty()),
            (FORGOTTEN[6], unknown && !self.behind.is_empty()),
        ]
    }
}
