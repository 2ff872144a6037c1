//! The inbound counters (document 02, request 5): what asking, noting and forgetting answer, and the list afterwards. The list is
//! taken apart into a map of senders and the set of free places, which is how the request speaks of it.
use crate::support::senders::{Record, Request, KNOWN_BIT};
use std::collections::{BTreeMap, BTreeSet};

/// "Of which only the first 64 count."
pub const COUNTED: usize = 64;

/// What a list says.
struct Known {
    /// The places that name a sender, by its address. "Where a list names a sender twice, the first record counts."
    senders: BTreeMap<u64, BTreeSet<usize>>,
    /// "Without the mark it is free and names nobody."
    free: BTreeSet<usize>,
}

impl Known {
    fn of(list: &[Record]) -> Self {
        let mut known = Self { senders: BTreeMap::new(), free: BTreeSet::new() };
        for (place, record) in list.iter().enumerate().take(COUNTED) {
            match record.used {
                0 => known.free.insert(place),
                _ => known.senders.entry(record.address).or_default().insert(place),
            };
        }
        known
    }

    fn first(&self, sender: u64) -> Option<usize> {
        self.senders.get(&sender)?.first().copied()
    }
}

/// The answer as the C functions give it, the list afterwards, and the key that asking gives.
pub fn run(request: &Request, list: &[Record]) -> (u64, Vec<Record>, Option<[u8; 16]>) {
    let known = Known::of(list);
    let mut after = list.to_vec();
    match *request {
        Request::Ask { key, active, sender, number, counter } => {
            let stored = known.first(sender).map(|place| list[place].counter);
            match ask(active, stored, number, counter) {
                // "Asking changes nothing and, if not refused, gives the active key."
                0 => (16, after, Some(key)),
                refusal => (u64::from(refusal) << 32, after, None),
            }
        }
        Request::Note { sender, counter } => {
            let answer = note(&known, &mut after, sender, counter);
            (answer, after, None)
        }
        Request::Forget { sender } => {
            // "Frees every counted place that names it, leaving zeros there." "Forgetting an unknown sender changes nothing."
            for &place in known.senders.get(&sender).into_iter().flatten() {
                after[place] = Record { used: 0, address: 0, counter: 0 };
            }
            (0, after, None)
        }
    }
}

/// "22 if the key sequence number is not the active one, then 23 if the counter is `FFFFFFFF` or not above the sender's stored
/// one"; "an unknown sender's counter is not compared".
fn ask(active: u8, stored: Option<u32>, number: u8, counter: u32) -> u8 {
    if number != active {
        return 22;
    }
    let too_low = stored.is_some_and(|stored| counter <= stored);
    if counter == 0xFFFF_FFFF || too_low {
        return 23;
    }
    0
}

/// "A new sender takes the first free place." "Noting overwrites, even with a lower number, and gives the earlier one, or none."
/// "24 if the sender is new and no place is free."
fn note(known: &Known, after: &mut [Record], sender: u64, counter: u32) -> u64 {
    let noted = Record { used: 1, address: sender, counter };
    match (known.first(sender), known.free.first()) {
        (Some(place), _) => {
            let earlier = after[place].counter;
            after[place] = noted;
            u64::from(earlier) | 1 << KNOWN_BIT
        }
        (None, Some(&place)) => {
            after[place] = noted;
            0
        }
        (None, None) => 24 << 32,
    }
}
