//! What the generated calls met of presence bits (document 02, request 8): 28 by each bit alone, on without its field and off with
//! it, and beside each other number whose condition held too; and what is accepted, because a bit agrees or is not looked at.
use super::calls::{Call, Outcome};
use super::model::auxiliary::{self, Auxiliary};
use super::model::header::Header;
use super::model::{self, frame, LAST_COUNTER, MAX_FRAME, MAX_PAYLOAD};
use super::operations::Operation;
use std::collections::BTreeMap;

/// The presence bits of a header record: the bit's place, and that of the field's presence byte.
const HEADER_BITS: [(&str, usize, usize); 4] =
    [("bit 8", 3, 34), ("bit 10", 5, 36), ("bit 11", 6, 16), ("bit 12", 7, 25)];
const SECURITY: (&str, usize) = ("bit 9", 4);
/// That of an auxiliary record, whose first byte says whether there is an auxiliary header.
const EXTENDED_NONCE: (&str, usize, usize) = ("extended nonce", 3, 9);
/// How many relays a source route has.
const RELAY_COUNT: usize = 37;

/// The operations that answer 28, and the numbers whose conditions can hold beside it.
const WRITERS: [(Operation, &[u8]); 3] = [
    (Operation::WriteHeader, &[13, 17, 18]),
    (Operation::WriteFrame, &[13, 17, 18]),
    (Operation::Seal, &[13, 14, 15, 21, 17, 18]),
];

/// What is counted of an operation and a bit that alone disagrees, or of something accepted.
#[derive(Clone, Copy, PartialEq, Eq, PartialOrd, Ord, Debug)]
enum Met {
    /// 28, and no other condition held: the bit was on, or off.
    Alone(bool),
    /// The condition of this number held too.
    Beside(u8),
    /// The bit was on, or off, and nothing was refused.
    Accepted(bool),
}

#[derive(Default)]
pub struct PresenceTally {
    met: BTreeMap<(&'static str, &'static str, Met), usize>,
}

impl PresenceTally {
    /// Counts a call of one of the writers; no other function looks at a presence bit.
    pub fn count(&mut self, call: &Call, outcome: &Outcome) {
        let bits = match call.operation {
            Operation::WriteHeader | Operation::WriteFrame | Operation::Seal => disagreeing(call),
            Operation::WriteAuxiliary => Vec::from_iter(extended_nonce(&call.inputs[0])),
            _ => return,
        };
        let mut one = |bit, met| *self.met.entry((call.operation.shape().name, bit, met)).or_default() += 1;
        match (&bits[..], outcome.refusal()) {
            // A level that is none is refused before all else.
            (_, 29) => {}
            ([], 0) => accepted(call).into_iter().for_each(|(bit, on)| one(bit, Met::Accepted(on))),
            ([(bit, on)], 0) => one(bit, Met::Accepted(*on)),
            ([(bit, on)], number) if call.operation != Operation::WriteAuxiliary => {
                let beside = beside(call);
                assert_eq!(number, expected(bit, &beside), "{bit} disagrees, beside {beside:?}: {}", call.line());
                beside.iter().for_each(|other| one(bit, Met::Beside(*other)));
                if beside.is_empty() {
                    one(bit, Met::Alone(*on));
                }
            }
            _ => {}
        }
    }

    /// Everything was met at least so often.
    pub fn check(&self, at_least: usize) {
        for (operation, others) in WRITERS {
            let name = operation.shape().name;
            for (bit, states) in bits_of(operation) {
                states.iter().for_each(|on| self.check_one((name, bit, Met::Alone(*on)), at_least));
                others.iter().for_each(|other| self.check_one((name, bit, Met::Beside(*other)), at_least));
            }
            self.check_one((name, "empty source route", Met::Accepted(true)), at_least);
        }
        for on in [false, true] {
            self.check_one(("nwk_write_header", SECURITY.0, Met::Accepted(on)), at_least);
            self.check_one(("nwk_write_frame", SECURITY.0, Met::Accepted(on)), at_least);
            self.check_one(("nwk_write_auxiliary", EXTENDED_NONCE.0, Met::Accepted(on)), at_least);
        }
    }

    fn check_one(&self, what: (&'static str, &'static str, Met), at_least: usize) {
        let met = self.met.get(&what).copied().unwrap_or(0);
        assert!(met >= at_least, "{what:?}: met only {met} times");
    }

    pub fn report(&self) -> String {
        format!("presence bits: {:?}", self.met)
    }
}

/// The bits of an operation, and which of on and off disagrees.
fn bits_of(operation: Operation) -> Vec<(&'static str, &'static [bool])> {
    let mut bits: Vec<(&str, &[bool])> = HEADER_BITS.map(|(name, _, _)| (name, &[false, true][..])).to_vec();
    if operation == Operation::Seal {
        bits.extend([(SECURITY.0, &[false][..]), (EXTENDED_NONCE.0, &[false, true])]);
    }
    bits
}

/// The bits that disagree, and whether each is on; none where a bit or presence byte is missing or neither 0 nor 1. A record of
/// another length has them too, and so has an auxiliary record without an auxiliary header.
fn disagreeing(call: &Call) -> Vec<(&'static str, bool)> {
    let record = &call.inputs[0];
    let mut places = HEADER_BITS.iter().flat_map(|&(_, bit, field)| [bit, field]).chain([SECURITY.1]);
    if !places.all(|place| is_bit(record, place)) {
        return Vec::new();
    }
    let of_fields = HEADER_BITS.iter().filter(|(_, bit, field)| record[*bit] != record[*field]);
    let mut bits: Vec<(&str, bool)> = of_fields.map(|&(name, bit, _)| (name, record[bit] == 1)).collect();
    if call.operation == Operation::Seal {
        bits.extend((record[SECURITY.1] == 0).then_some((SECURITY.0, false)));
        bits.extend(extended_nonce(&call.inputs[1]));
    }
    bits
}

fn extended_nonce(record: &[u8]) -> Option<(&'static str, bool)> {
    let (name, bit, field) = EXTENDED_NONCE;
    let disagrees = is_bit(record, bit) && is_bit(record, field) && record[bit] != record[field];
    disagrees.then(|| (name, record[bit] == 1))
}

fn is_bit(record: &[u8], place: usize) -> bool {
    record.get(place).is_some_and(|&byte| byte <= 1)
}

/// The number that is answered where one bit disagrees and the conditions of these numbers hold.
fn expected(bit: &str, beside: &[u8]) -> u8 {
    match beside {
        [13, ..] => 13,
        [14, ..] if bit == EXTENDED_NONCE.0 => 14,
        _ => 28,
    }
}

/// The other numbers whose conditions hold: 13 by itself, since of a record that is refused no more is known.
fn beside(call: &Call) -> Vec<u8> {
    let Ok(header) = Header::of_record(&call.inputs[0]) else {
        return vec![13];
    };
    let mut numbers = match call.operation {
        Operation::Seal => match auxiliary::of_record(&call.inputs[1]) {
            Ok(auxiliary) => in_sealing(&header, auxiliary),
            Err(_) => return vec![13],
        },
        _ => Vec::new(),
    };
    if let Some(length) = model::written_length(call) {
        let payload = call.inputs.last().filter(|_| call.operation != Operation::WriteHeader);
        let too_long = length > MAX_FRAME || payload.is_some_and(|payload| payload.len() > MAX_PAYLOAD);
        numbers.extend(too_long.then_some(17));
        numbers.extend((call.rooms[0] < length).then_some(18));
    }
    numbers
}

fn in_sealing(header: &Header, auxiliary: Option<Auxiliary>) -> Vec<u8> {
    let Some(auxiliary) = auxiliary else {
        return vec![14];
    };
    let no_ieee = frame::nonce_ieee(header, &auxiliary).is_none();
    let last = auxiliary.counter == LAST_COUNTER;
    no_ieee.then_some(15).into_iter().chain(last.then_some(21)).collect()
}

/// What an accepted call of a writer shows: bit 9 as it was, and a present source route of no relays.
fn accepted(call: &Call) -> Vec<(&'static str, bool)> {
    let (_, bit, field) = HEADER_BITS[1];
    let record = match call.operation {
        Operation::WriteAuxiliary => return Vec::new(),
        _ => &call.inputs[0],
    };
    let empty = record[bit] == 1 && record[field] == 1 && record[RELAY_COUNT] == 0;
    let route = empty.then_some(("empty source route", true));
    [(SECURITY.0, record[SECURITY.1] == 1)].into_iter().chain(route).collect()
}
