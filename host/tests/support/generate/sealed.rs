//! Generated frames, most of them sealed under the call's key and level and others clear, and inputs of CCM alone.
use super::headers;
use crate::support::model::level::Level;
use crate::support::model::{ccm, frame, MAX_FRAME, MAX_PAYLOAD};
use crate::support::operations::MIC_PLACES;
use crate::support::random::Random;
use crate::support::tally::LONGEST;

const NONCE: usize = 13;

/// A frame's bytes, brought to the length wanted. Most are secured and carry the right MIC.
pub fn frame(level: Level, key: &[u8; 16], wanted: Option<usize>, random: &mut Random) -> Vec<u8> {
    let near_longest = wanted.unwrap_or(0) > MAX_FRAME - 4;
    if random.percent(if near_longest { 40 } else { 25 }) {
        let bytes = clear_frame(near_longest, random);
        return headers::sized(bytes, wanted, random);
    }
    let bytes = secured_frame(level, key, wanted, random);
    headers::sized(bytes, wanted, random)
}

/// A frame without auxiliary header, its security bit off. Behind the shortest header the payload has 0 to 111 bytes, of which
/// 109 and 110 are too many for a payload and 111 for a frame; behind other headers as many as a frame can have.
pub fn clear_frame(shortest: bool, random: &mut Random) -> Vec<u8> {
    let behind = random.below(MAX_PAYLOAD + 4);
    if shortest || random.bit() {
        return [headers::plain_header(random).bytes(), random.bytes(behind)].concat();
    }
    let front = headers::header(0, random).bytes();
    let payload = random.bytes(behind.min(MAX_FRAME.saturating_sub(front.len())));
    [front, payload].concat()
}

/// A frame with auxiliary header; its payload is as long as the length wanted allows. The control's level and bit 7 are
/// sometimes not 0, which opening does not mind.
pub fn secured_frame(level: Level, key: &[u8; 16], wanted: Option<usize>, random: &mut Random) -> Vec<u8> {
    let header = headers::header(100, random);
    let auxiliary = headers::auxiliary(random);
    let front = header.bytes().len();
    let overhead = front + auxiliary.bytes().len() + level.mic;
    let natural = random.below(60).min(MAX_FRAME.saturating_sub(overhead));
    let n = wanted.map_or(natural, |wanted| wanted.saturating_sub(overhead));
    let payload = random.bytes(n);
    let mut bytes = match frame::nonce_ieee(&header, &auxiliary) {
        Some(ieee) => frame::seal(level, key, &header, &auxiliary, &ieee, &payload),
        None => [header.bytes(), auxiliary.bytes(), payload, random.bytes(level.mic)].concat(),
    };
    if random.percent(30) {
        bytes[front] |= random.byte() & 0x87;
    }
    bytes
}

/// Nonce, authenticated data and payload. One of the last two has the length wanted.
pub fn ccm_inputs(wanted: Option<usize>, random: &mut Random) -> Vec<Vec<u8>> {
    let nonce = random.bytes(NONCE);
    let other = match random.below(10) {
        0 => 0,
        1 => random.between(100, LONGEST),
        _ => random.below(60),
    };
    let wanted = wanted.unwrap_or_else(|| random.below(40));
    let (auth, payload) = if random.bit() { (wanted, other) } else { (other, wanted) };
    vec![nonce, random.bytes(auth), random.bytes(payload)]
}

/// Nonce, authenticated data, ciphertext and the right MIC, with any bytes in the places past its length.
pub fn ccm_sealed_inputs(level: Level, key: &[u8; 16], wanted: Option<usize>, random: &mut Random) -> Vec<Vec<u8>> {
    let inputs = ccm_inputs(wanted, random);
    let (ciphertext, mut mic) = ccm::encrypt(level.mic, key, &inputs[0], &inputs[1], &inputs[2]);
    mic.extend(random.bytes(MIC_PLACES - level.mic));
    vec![inputs[0].clone(), inputs[1].clone(), ciphertext, mic]
}
