//! Generated bursts: sealed, clear, refused, damaged, empty and over-long frames end to end, and lengths that do not add up.
use super::damage;
use super::sealed::{clear_frame, frame, secured_frame};
use crate::support::calls::{lengths_of, list_of, Call};
use crate::support::model::level::Level;
use crate::support::model::MAX_FRAME;
use crate::support::operations::{MAX_BURST, OPENED_RECORD, PART};
use crate::support::random::Random;
use crate::support::tally::LONGEST;

/// Twice this is 65,536, which a sum cut to 16 bits does not show.
const HALF: u16 = 0x8000;
/// More lengths by this number are no more in a count cut to 8 bits.
const MANY: usize = 256;

/// The frames end to end, and the list of their lengths: 0 to 17 of them.
pub fn inputs(level: Level, key: &[u8; 16], random: &mut Random) -> Vec<Vec<u8>> {
    let count = random.below(MAX_BURST + 2);
    let frames: Vec<Vec<u8>> = (0..count).map(|_| one(level, key, random)).collect();
    let lengths: Vec<u16> = frames.iter().map(|frame| frame.len() as u16).collect();
    vec![frames.concat(), list_of(&lengths)]
}

/// A frame: good ones, sealed or clear, and all that is handed to opening alone.
fn one(level: Level, key: &[u8; 16], random: &mut Random) -> Vec<u8> {
    match random.below(20) {
        0 => Vec::new(),
        1 => too_long(random),
        2 | 3 => damaged(level, key, random),
        4..=11 => secured_frame(level, key, None, random),
        12..=14 => clear_frame(false, random),
        _ => {
            let wanted = random.bit().then(|| random.below(LONGEST + 1));
            let mut bytes = frame(level, key, wanted, random);
            damage::frame(&mut bytes, random);
            bytes
        }
    }
}

/// Bytes over the longest frame: a few, or so many that the sum of two such lengths does not fit into 16 bits.
fn too_long(random: &mut Random) -> Vec<u8> {
    let n = if random.percent(20) { random.between(0x8000, 0xFFFF) } else { random.between(MAX_FRAME + 1, 300) };
    random.bytes(n)
}

/// A sealed frame with one bit of its MIC flipped.
fn damaged(level: Level, key: &[u8; 16], random: &mut Random) -> Vec<u8> {
    let mut bytes = secured_frame(level, key, None, random);
    let mic = bytes.len() - level.mic;
    damage::flip(&mut bytes[mic..], random);
    bytes
}

/// A list of so many answers, and an output of a part for each frame.
pub fn needed(call: &Call) -> Vec<usize> {
    let count = lengths_of(&call.inputs[1]).len();
    vec![OPENED_RECORD * count, PART * count]
}

/// Lengths that do not add up to the bytes, in some of the bursts; or more lengths, which add nothing.
pub fn misfit(call: &mut Call, random: &mut Random) {
    let [frames, list] = &mut call.inputs[..] else {
        panic!("a burst has frames and lengths");
    };
    let count = list.len() / 2;
    match random.below(40) {
        0 => frames.push(random.byte()),
        1 => drop(frames.pop()),
        2 if count > 0 => add(list, 1, random.below(count)),
        3 if count > 0 => add(list, u16::MAX, random.below(count)),
        4 | 5 if count > 1 => {
            add(list, HALF, 0);
            add(list, HALF, random.between(1, count - 1));
        }
        6 => list.resize(2 * (count + random.between(1, 30)), 0),
        7 => list.resize(2 * (count + MANY), 0),
        8 => list.clear(),
        _ => {}
    }
}

/// Adds to a length in 16 bits, so that the highest number takes one away.
fn add(list: &mut [u8], more: u16, at: usize) {
    let number = u16::from_le_bytes([list[2 * at], list[2 * at + 1]]).wrapping_add(more);
    list[2 * at..2 * at + 2].copy_from_slice(&number.to_le_bytes());
}
