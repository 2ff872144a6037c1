//! What the generated calls met of clear frames: payloads of every length, alone and in bursts, outputs of every length, records
//! that are too short and not, and sealed frames whose security bit was turned off.
use super::calls::{length_of, Call, Outcome, SECURITY_BIT};
use super::generate::LONGEST_UNNEEDED;
use super::model::header::MIN_HEADER;
use super::model::{opening, MAX_PAYLOAD};
use super::operations::{Operation, MARK_CLEAR, MARK_SEALED, OPENED_MARK, OPENED_RECORD};
use std::collections::BTreeMap;

/// The bits of a frame's second byte without which its header is the shortest and it is not secured.
const FIELD_BITS: u8 = 0x1F;

/// What can be met beside the lengths. The first two records are refused by 18, 109 and 110 bytes by 12, 111 by 1.
const NAMES: [&str; 11] = [
    "no record",
    "a record of 181 bytes",
    "a record of 182 bytes",
    "a longer record",
    "a payload, and no output",
    "an output shorter than the payload",
    "a sealed frame with its security bit off",
    "a sealed frame with its security bit off, in a burst",
    "109 bytes behind the shortest header",
    "110 bytes behind the shortest header",
    "111 bytes behind the shortest header",
];

/// How often each number was met.
type Counts = BTreeMap<usize, usize>;

#[derive(Default)]
pub struct ClearTally {
    /// Clear frames that were opened, by the length of the payload.
    alone: Counts,
    in_bursts: Counts,
    /// Those opened alone, by the length of the output.
    rooms: Counts,
    /// How often opening alone and in a burst gave each mark.
    marks: [Counts; 2],
    /// By the names above.
    met: BTreeMap<&'static str, usize>,
}

fn count_one(counts: &mut Counts, number: usize) {
    *counts.entry(number).or_default() += 1;
}

impl ClearTally {
    /// Counts a call of opening alone or in a burst; other calls have no clear frames.
    pub fn count(&mut self, call: &Call, outcome: &Outcome) {
        match call.operation {
            Operation::Open => self.count_alone(call, outcome),
            Operation::OpenBurst => self.count_burst(call, outcome),
            _ => {}
        }
    }

    fn count_alone(&mut self, call: &Call, outcome: &Outcome) {
        self.count_names(call, outcome);
        if outcome.refusal() != 0 {
            return;
        }
        count_one(&mut self.marks[0], usize::from(outcome.outputs[0][OPENED_MARK]));
        if outcome.clear() {
            count_one(&mut self.alone, outcome.length());
            count_one(&mut self.rooms, call.rooms[1]);
        }
    }

    fn count_burst(&mut self, call: &Call, outcome: &Outcome) {
        if outcome.refusal() != 0 {
            return;
        }
        for ((record, _), frame) in outcome.frames().zip(call.frames()).filter(|((record, _), _)| record[0] == 0) {
            count_one(&mut self.marks[1], usize::from(record[OPENED_MARK]));
            if record[OPENED_MARK] == MARK_CLEAR {
                count_one(&mut self.in_bursts, length_of(record));
                let turned_off = turned_off(call, frame);
                self.count_name(turned_off.then_some("a sealed frame with its security bit off, in a burst"));
            }
        }
    }

    fn count_names(&mut self, call: &Call, outcome: &Outcome) {
        let turned_off = outcome.clear() && turned_off(call, &call.inputs[0]);
        self.count_name(turned_off.then_some("a sealed frame with its security bit off"));
        self.count_name(too_long(call, outcome));
        self.count_name(record(call, outcome));
        self.count_name(output(call, outcome));
    }

    fn count_name(&mut self, name: Option<&'static str>) {
        if let Some(name) = name {
            *self.met.entry(name).or_default() += 1;
        }
    }

    /// Everything was met at least so often.
    pub fn check(&self, at_least: usize) {
        let check = |what: &str, counts: &Counts, number: usize| {
            let met = counts.get(&number).copied().unwrap_or(0);
            assert!(met >= at_least, "{what} {number}: met only {met} times");
        };
        for length in 0..=MAX_PAYLOAD {
            check("opening alone, a clear payload of", &self.alone, length);
            check("a burst, a clear payload of", &self.in_bursts, length);
        }
        (0..=LONGEST_UNNEEDED).for_each(|room| check("a clear frame, an output of", &self.rooms, room));
        for mark in [MARK_CLEAR, MARK_SEALED] {
            check("opening alone, the mark", &self.marks[0], usize::from(mark));
            check("a burst, the mark", &self.marks[1], usize::from(mark));
        }
        for name in NAMES {
            let met = self.met.get(name).copied().unwrap_or(0);
            assert!(met >= at_least, "{name}: met only {met} times");
        }
    }

    /// The marks and the names that were met, and the rarest length of a clear payload alone and in bursts.
    pub fn report(&self) -> String {
        let rarest = |counts: &Counts| counts.values().copied().min().unwrap_or(0);
        let (alone, in_bursts) = (rarest(&self.alone), rarest(&self.in_bursts));
        let Self { marks, met, .. } = self;
        format!("marks alone and in bursts: {marks:?}, rarest clear length: {alone} and {in_bursts}, clear: {met:?}")
    }
}

/// More than 108 bytes behind the shortest header.
fn too_long(call: &Call, outcome: &Outcome) -> Option<&'static str> {
    let frame = &call.inputs[0];
    let plain = frame.len() > MIN_HEADER && frame[1] & FIELD_BITS == 0;
    match (outcome.refusal(), frame.len().saturating_sub(MIN_HEADER)) {
        (12, 109) if plain => Some("109 bytes behind the shortest header"),
        (12, 110) if plain => Some("110 bytes behind the shortest header"),
        (1, 111) if plain => Some("111 bytes behind the shortest header"),
        _ => None,
    }
}

/// The length of the record that is lent beside a clear frame.
fn record(call: &Call, outcome: &Outcome) -> Option<&'static str> {
    opening::clear_payload(&call.inputs[0])?;
    match (outcome.refusal(), call.rooms[0]) {
        (18, 0) => Some("no record"),
        (18, room) if room + 1 == OPENED_RECORD => Some("a record of 181 bytes"),
        (0, OPENED_RECORD) => Some("a record of 182 bytes"),
        (0, _) => Some("a longer record"),
        _ => None,
    }
}

/// An output that a sealed frame with that payload would not fit into.
fn output(call: &Call, outcome: &Outcome) -> Option<&'static str> {
    match call.rooms[1] {
        room if !outcome.clear() || room >= outcome.length() => None,
        0 => Some("a payload, and no output"),
        _ => Some("an output shorter than the payload"),
    }
}

/// Whether a clear frame opens as a sealed one with its security bit on: all behind its header, MIC and all, is its payload.
fn turned_off(call: &Call, frame: &[u8]) -> bool {
    let mut sealed = frame.to_vec();
    sealed[1] |= SECURITY_BIT;
    opening::open(call.level, &call.key, &sealed, &[OPENED_RECORD, MAX_PAYLOAD]).is_ok()
}
