//! Damage to a call's inputs: bits flipped, bytes cut, records of wrong length or with bytes out of range.
use super::{bursts, LONG, NO_LEVELS};
use crate::support::calls::{Call, SECURITY_BIT};
use crate::support::model::level::LEVELS;
use crate::support::operations::Operation;
use crate::support::random::Random;

/// Values at the edges of what some field can take.
const EDGES: [u8; 24] = [0, 1, 2, 3, 4, 5, 7, 8, 14, 15, 16, 20, 21, 31, 32, 35, 36, 53, 54, 55, 108, 109, 0x80, 0xF0];

/// Where a command record's counts stand, and its list entries that can be out of range.
const COMMAND_COUNTS: [usize; 5] = [25, 132, 257, 320, 426];
const LINK_STATUS_PLACES: usize = 133;

pub fn call(call: &mut Call, random: &mut Random) {
    use Operation::*;
    if random.below(200) == 0 {
        if let Some(input) = slice(call.operation, random) {
            return prolong(&mut call.inputs[input], random);
        }
    }
    match call.operation {
        ReadHeader | ReadAuxiliary | ReadCommand => bytes(&mut call.inputs[0], random),
        ReadFrame | Open => frame(&mut call.inputs[0], random),
        WriteHeader | WriteFrame => record(&mut call.inputs[0], 40, random),
        WriteAuxiliary => record(&mut call.inputs[0], 19, random),
        Seal => {
            record(&mut call.inputs[0], 40, random);
            record(&mut call.inputs[1], 19, random);
        }
        WriteCommand => command_record(&mut call.inputs[0], random),
        DecryptCcm => {
            if random.percent(30) {
                let at = random.below(4);
                flip(&mut call.inputs[at], random);
            }
        }
        OpenBurst => bursts::misfit(call, random),
        PayloadKind | TimeoutSeconds | EncryptCcm | SplitMic | EncryptBlock => {}
    }
}

/// A level that is none in some of the calls that take one, and in some any of the three, whatever the inputs were sealed at.
pub fn level(call: &mut Call, random: &mut Random) {
    match random.below(20) {
        0 | 1 if call.operation.levelled() => call.level = random.pick(&NO_LEVELS),
        2 if call.operation.levelled() => call.level = random.pick(&LEVELS).number.into(),
        _ => {}
    }
}

/// An input that is a slice of bytes, and not a number or an array, which have no length, or a list of numbers.
fn slice(operation: Operation, random: &mut Random) -> Option<usize> {
    use Operation::*;
    match operation {
        PayloadKind | TimeoutSeconds | EncryptBlock => None,
        EncryptCcm | DecryptCcm => Some(random.between(1, 2)),
        OpenBurst => Some(0),
        other => Some(random.below(other.shape().inputs.len())),
    }
}

/// Makes an input far too long, by a length whose lowest bits are 0.
fn prolong(bytes: &mut Vec<u8>, random: &mut Random) {
    let more = random.pick(&LONG);
    bytes.resize(bytes.len() + more, 0);
}

/// Bytes read from the air: mostly left alone.
pub fn bytes(bytes: &mut Vec<u8>, random: &mut Random) {
    match random.below(20) {
        0..=3 => (0..random.between(1, 3)).for_each(|_| flip(bytes, random)),
        4 => {
            // frame control, security control or the command identifier
            let front = bytes.len().min(2);
            let random_front = random.bytes(front);
            bytes[..front].copy_from_slice(&random_front);
        }
        5 => {
            let cut = random.between(1, 20);
            bytes.truncate(bytes.len().saturating_sub(cut));
        }
        6 => *bytes = random.bytes(bytes.len()),
        _ => {}
    }
}

/// A frame: its security bit turned in some, so that a sealed one is read as clear, or a clear one as sealed; else as any bytes.
pub fn frame(frame: &mut Vec<u8>, random: &mut Random) {
    if frame.len() > 1 && random.percent(8) {
        frame[1] ^= SECURITY_BIT;
        return;
    }
    bytes(frame, random);
}

/// Flips one bit.
pub fn flip(bytes: &mut [u8], random: &mut Random) {
    if !bytes.is_empty() {
        bytes[random.below(bytes.len())] ^= 1 << random.below(8);
    }
}

/// A record of another length, or one of its first bytes changed.
fn record(record: &mut Vec<u8>, front: usize, random: &mut Random) {
    match random.below(20) {
        0 => wrong_length(record, random),
        1..=3 => change(&mut record[random.below(front)], random),
        _ => {}
    }
}

fn command_record(record: &mut Vec<u8>, random: &mut Random) {
    match random.below(20) {
        0 => wrong_length(record, random),
        1..=3 => change(&mut record[random.below(25)], random),
        4 => change(&mut record[random.pick(&COMMAND_COUNTS)], random),
        5 => {
            let entry = random.below(usize::from(record[132]).clamp(1, 31));
            change(&mut record[LINK_STATUS_PLACES + 4 * entry + random.between(2, 3)], random);
        }
        _ => {}
    }
}

fn change(byte: &mut u8, random: &mut Random) {
    *byte = if random.bit() { random.byte() } else { random.pick(&EDGES) };
}

fn wrong_length(record: &mut Vec<u8>, random: &mut Random) {
    let size = record.len();
    let other = random.pick(&[0, 1, size - 1, size + 1, size / 2, size + 40]);
    record.resize(other, 1);
}
