//! Generated calls: mostly valid inputs, then damage, then outputs of a room around the one that is needed.
pub mod bursts;
pub mod commands;
pub mod damage;
pub mod headers;
pub mod journals;
pub mod sealed;
pub mod senders;

use super::calls::Call;
use super::model::level::{FIVE, LEVELS};
use super::model::{self, opening};
use super::operations::{Extent, Operation, BLOCK};
use super::random::Random;
use super::tally::{AROUND, LONGEST};

/// A call, and how many bytes each of its outputs needs.
pub struct Generated {
    pub call: Call,
    pub exact: Vec<usize>,
}

/// Room that is never short.
const ROOMY: usize = 1000;
/// What is lent, more or less, where nothing can be written anyway.
const ANY_ROOM: usize = 30;
/// The longest output that is lent beside a clear frame, which has no need of one.
pub const LONGEST_UNNEEDED: usize = 120;
/// Numbers that are no level of a network: the other security levels, and larger numbers, some with the lowest bits of a level.
pub const NO_LEVELS: [u64; 10] = [0, 1, 2, 3, 4, 8, 255, 0x105, 0x1_0000_0005, u64::MAX];
/// Lengths whose lowest bits are all 0: a length cut to 8 or 16 bits would be short.
pub const LONG: [usize; 3] = [256, 512, 65_536];

/// The call of a number. Half of the numbers go through the lengths 0 to 130 of the bytes read, the others take the length
/// that the content has of itself.
pub fn call(operation: Operation, number: usize, random: &mut Random) -> Generated {
    let wanted = (number / (LONGEST + 1) % 2 == 0).then_some(number % (LONGEST + 1));
    let mut call = undamaged(operation, wanted, random);
    let before = needed(&call).unwrap_or_else(|| fallback(operation));
    damage::call(&mut call, random);
    damage::level(&mut call, random);
    let exact = needed(&call).unwrap_or(before);
    call.rooms = rooms(operation, &exact, random);
    if operation == Operation::Open && opening::clear_payload(&call.inputs[0]).is_some() {
        call.rooms[1] = random.below(LONGEST_UNNEEDED + 1);
    }
    Generated { call, exact }
}

fn undamaged(operation: Operation, wanted: Option<usize>, random: &mut Random) -> Call {
    use Operation::*;
    let key = random.array();
    let level = if operation.levelled() { random.pick(&LEVELS) } else { FIVE };
    let inputs = match operation {
        ReadHeader => vec![headers::header_bytes(wanted, random)],
        WriteHeader => vec![headers::any_header_record(50, random)],
        ReadAuxiliary => vec![headers::auxiliary_bytes(wanted, random)],
        WriteAuxiliary => vec![headers::any_auxiliary_record(random)],
        ReadFrame | Open => vec![sealed::frame(level, &key, wanted, random)],
        WriteFrame => vec![headers::any_header_record(50, random), payload(wanted, random)],
        Seal => {
            vec![headers::any_header_record(92, random), headers::any_auxiliary_record(random), payload(wanted, random)]
        }
        OpenBurst => bursts::inputs(level, &key, random),
        PayloadKind => vec![code(5, random)],
        ReadCommand => vec![commands::bytes(wanted, random)],
        WriteCommand => vec![commands::record(random)],
        TimeoutSeconds => vec![code(16, random)],
        EncryptCcm => sealed::ccm_inputs(wanted, random),
        DecryptCcm => sealed::ccm_sealed_inputs(level, &key, wanted, random),
        SplitMic => vec![payload(wanted, random)],
        EncryptBlock => vec![random.bytes(BLOCK)],
    };
    Call::new(operation, key, inputs, Vec::new()).at(level.number)
}

/// A level of a network, or a number that is none.
pub fn any_level(random: &mut Random) -> u64 {
    match random.below(8) {
        0 => random.pick(&NO_LEVELS),
        _ => u64::from(random.pick(&LEVELS).number),
    }
}

/// A code below the bound, or any byte.
fn code(bound: usize, random: &mut Random) -> Vec<u8> {
    vec![if random.bit() { random.below(bound) as u8 } else { random.byte() }]
}

fn payload(wanted: Option<usize>, random: &mut Random) -> Vec<u8> {
    let n = wanted.unwrap_or_else(|| random.below(60));
    random.bytes(n)
}

/// What each output needs, none where the call is refused however much is lent. For a burst its lengths' number says it, and for
/// writing and sealing the records and the payload, whatever else is refused.
fn needed(call: &Call) -> Option<Vec<usize>> {
    match call.operation {
        Operation::OpenBurst => return Some(bursts::needed(call)),
        Operation::WriteHeader | Operation::WriteFrame | Operation::Seal => {
            return Some(vec![model::written_length(call)?]);
        }
        _ => {}
    }
    let rooms = vec![ROOMY; call.operation.shape().outputs.len()];
    let done = model::run(&Call { rooms, ..call.clone() }).ok()?;
    Some(done.written.iter().map(Vec::len).collect())
}

fn fallback(operation: Operation) -> Vec<usize> {
    let size = |extent: &Extent| match *extent {
        Extent::Fixed(size) | Extent::Array(size) => size,
        Extent::Length | Extent::Records(_) | Extent::Parts(_) => ANY_ROOM,
    };
    operation.shape().outputs.iter().map(size).collect()
}

/// One slice takes any room around the exact one, the others mostly enough; an array has its size, a list whole records.
fn rooms(operation: Operation, exact: &[usize], random: &mut Random) -> Vec<usize> {
    let outputs = operation.shape().outputs;
    let slices = outputs.iter().filter(|extent| !matches!(extent, Extent::Array(_))).count();
    let narrow = random.below(slices.max(1));
    let lent = outputs.iter().zip(exact).enumerate().map(|(i, (extent, &needed))| match *extent {
        Extent::Array(size) => size,
        _ => extent.unit() * room(needed / extent.unit(), i == narrow, random),
    });
    lent.collect()
}

fn room(needed: usize, narrow: bool, random: &mut Random) -> usize {
    if random.below(200) == 0 {
        return random.pick(&LONG) + random.below(3);
    }
    match random.below(20) {
        0 if narrow => 0,
        1..=8 if narrow => (needed + random.below(2 * AROUND as usize + 1)).saturating_sub(AROUND as usize),
        9..=12 => needed,
        _ => needed + random.between(AROUND as usize + 1, 40),
    }
}
