//! Generated commands, as records and as bytes, by the model's tables of fields.
use super::headers::{scatter, sized};
use crate::support::model::commands::{fields, write, Field, List};
use crate::support::operations::COMMAND_RECORD;
use crate::support::random::Random;

const UNPARSED_LENGTH: usize = 426;

/// A command record, typed or unparsed. The places that are not read are 0, or in half of the records anything.
pub fn record(random: &mut Random) -> Vec<u8> {
    let mut record = if random.bit() { vec![0; COMMAND_RECORD] } else { random.bytes(COMMAND_RECORD) };
    record[0] = if random.percent(12) { 0 } else { random.between(1, 15) as u8 };
    match fields(record[0]) {
        Some(fields) => fill(fields, &mut record, 0, random),
        None => unparsed(&mut record, random),
    }
    record
}

fn unparsed(record: &mut [u8], random: &mut Random) {
    record[UNPARSED_LENGTH] = if random.percent(85) { random.below(109) } else { random.between(109, 255) } as u8;
    scatter(&mut record[UNPARSED_LENGTH + 1..], random);
}

/// Values that the fields can take. An IEEE has its bytes also where it is absent and they are not read.
fn fill(fields: &[Field], record: &mut [u8], base: usize, random: &mut Random) {
    for field in fields {
        match *field {
            Field::Reserved(_) => {}
            Field::Bits(width, at) => record[base + at] = random.below(1 << width) as u8,
            Field::Code(_, at, declared) => record[base + at] = random.pick(declared),
            Field::Bytes(n, at) => scatter(&mut record[base + at..base + at + n], random),
            Field::Ieee(at) => scatter(&mut record[base + at + 1..base + at + 9], random),
            Field::Count(_, list) => record[list.count_at] = count(list, random) as u8,
            Field::Entries(list) => {
                for i in 0..usize::from(record[list.count_at]) {
                    fill(list.entry, record, list.count_at + 1 + i * list.size, random);
                }
            }
        }
    }
}

/// Mostly few entries, sometimes any number of them or all.
fn count(list: &List, random: &mut Random) -> usize {
    match random.below(10) {
        0 => list.places,
        1..=3 => random.between(0, list.places),
        _ => random.between(0, 4),
    }
}

/// A command's bytes, with more or fewer behind, brought to the length wanted.
pub fn bytes(wanted: Option<usize>, random: &mut Random) -> Vec<u8> {
    if random.percent(8) {
        return any_bytes(wanted, random);
    }
    let mut bytes = write(&record(random)).expect("a record of values that the fields can take");
    if wanted.is_none() {
        match random.below(4) {
            0 => bytes.truncate(bytes.len().saturating_sub(random.between(1, 3))),
            1 => bytes.extend(random.array::<2>()),
            _ => {}
        }
    }
    // reserved bits, counts and codes stand in the first bytes
    if random.percent(30) && !bytes.is_empty() {
        let at = random.below(bytes.len().min(4));
        bytes[at] ^= 1 << random.below(8);
    }
    sized(bytes, wanted, random)
}

/// Any bytes behind an identifier that may be declared.
fn any_bytes(wanted: Option<usize>, random: &mut Random) -> Vec<u8> {
    let n = wanted.unwrap_or_else(|| random.below(40));
    let mut bytes = random.bytes(n);
    if let Some(identifier) = bytes.first_mut() {
        *identifier = random.below(20) as u8;
    }
    bytes
}
