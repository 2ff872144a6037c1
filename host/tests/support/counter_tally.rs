//! What the generated calls of sealing met of the last counter: 21 by itself, the numbers that come before it and those that come
//! behind it; and, sealed, counters that differ from the last one in one byte.
use super::calls::{Call, Outcome};
use super::model::{self, LAST_COUNTER, MAX_FRAME, MAX_PAYLOAD};
use super::operations::{Operation, AUXILIARY_COUNTER};
use std::collections::BTreeMap;

/// What can be met with the last counter in the auxiliary record.
const REFUSED: [&str; 7] = [
    "13 before 21",
    "14 before 21",
    "15 before 21",
    "21 and no other",
    "21 before 17",
    "21 before 18",
    "21 before 17 and 18",
];

/// Counters that are sealed, by the byte in which they differ from the last one; and the one before it.
const SEALED: [&str; 4] =
    ["all but byte 0 of it", "all but byte 1 of it", "all but byte 2 of it", "all but byte 3 of it"];
const BEFORE_IT: &str = "the one before it";

#[derive(Default)]
pub struct CounterTally {
    met: BTreeMap<&'static str, usize>,
}

impl CounterTally {
    /// Counts a call of sealing; no other refuses a counter.
    pub fn count(&mut self, call: &Call, outcome: &Outcome) {
        if call.operation != Operation::Seal {
            return;
        }
        let Some(counter) = call.inputs[1].get(AUXILIARY_COUNTER) else {
            return;
        };
        let names = match outcome.refusal() {
            0 => sealed(counter),
            number if counter == LAST_COUNTER => [refused(number, call), None],
            _ => [None, None],
        };
        names.into_iter().flatten().for_each(|name| *self.met.entry(name).or_default() += 1);
    }

    /// Everything was met at least so often.
    pub fn check(&self, at_least: usize) {
        for name in REFUSED.into_iter().chain(SEALED).chain([BEFORE_IT]) {
            let met = self.met.get(name).copied().unwrap_or(0);
            assert!(met >= at_least, "{name}: met only {met} times");
        }
    }

    pub fn report(&self) -> String {
        format!("the last counter: {:?}", self.met)
    }
}

/// The one byte in which a sealed counter differs from the last one, and whether it is the one before it.
fn sealed(counter: &[u8]) -> [Option<&'static str>; 2] {
    let others: Vec<usize> = (0..4).filter(|&place| counter[place] != 0xFF).collect();
    let one = match others[..] {
        [place] => Some(SEALED[place]),
        _ => None,
    };
    [one, (counter == [0xFE, 0xFF, 0xFF, 0xFF]).then_some(BEFORE_IT)]
}

/// The number that the last counter was refused by, and for 21 what else was met.
fn refused(number: u8, call: &Call) -> Option<&'static str> {
    match number {
        13 => Some("13 before 21"),
        14 => Some("14 before 21"),
        15 => Some("15 before 21"),
        21 => behind(call),
        _ => None,
    }
}

fn behind(call: &Call) -> Option<&'static str> {
    let length = model::written_length(call)?;
    let too_long = call.inputs[2].len() > MAX_PAYLOAD || length > MAX_FRAME;
    Some(match (too_long, call.rooms[0] < length) {
        (false, false) => "21 and no other",
        (true, false) => "21 before 17",
        (false, true) => "21 before 18",
        (true, true) => "21 before 17 and 18",
    })
}
