//! The sealing law of document 01, both halves, on generated data through the C boundary. It speaks of sealed frames only, and has no
//! premise on the security bit or the presence bits, "since sealing ensures them" (document 02, requests 3 and 8). One level is taken
//! "for both calls" (request 9).
#[allow(dead_code)]
mod support;

use support::calls::{check_boundary, perform, Call, Outcome};
use support::generate::headers::{any_auxiliary_record, any_header_record};
use support::generate::sealed::{clear_frame, secured_frame};
use support::model::auxiliary::{self, record as auxiliary_record};
use support::model::header::{self, Header};
use support::model::level::{Level, LEVELS};
use support::model::{frame, LAST_COUNTER, MAX_FRAME, MAX_PAYLOAD};
use support::operations::{
    Operation, AUXILIARY_COUNTER, HEADER_RECORD, MARK_CLEAR, MARK_SEALED, OPENED_HEADER, OPENED_MARK,
};
use support::random::Random;

const SEED: u64 = 0x5EA1_1A17;
const ROUNDS: usize = 20_000;
const FILL: u8 = 0xA5;
/// The control's level and bit 7, which sealing sends as 0.
const UNAUTHENTICATED: u8 = 0x87;
/// The bit of a frame that is bit 9 of frame control, and its place in a header record.
const SECURITY: usize = 9;
const SECURITY_BYTE: usize = 4;

fn made(call: &Call) -> Outcome {
    let outcome = perform(call, FILL, 0x3C);
    check_boundary(call, &outcome, FILL);
    outcome
}

fn seal(level: Level, key: [u8; 16], header: &[u8], auxiliary: &[u8], payload: &[u8]) -> Outcome {
    let inputs = vec![header.to_vec(), auxiliary.to_vec(), payload.to_vec()];
    made(&Call::new(Operation::Seal, key, inputs, vec![MAX_FRAME]).at(level.number))
}

fn open(level: Level, key: [u8; 16], bytes: &[u8], room: usize) -> Outcome {
    made(&Call::open(key, bytes, room).at(level.number))
}

/// The mark of an opened record; none beside a refusal.
fn mark(opened: &Outcome) -> Option<u8> {
    (opened.refusal() == 0).then(|| opened.outputs[0][OPENED_MARK])
}

/// The header record and the auxiliary record in an opened record.
fn records(opened: &Outcome) -> (&[u8], &[u8]) {
    opened.outputs[0][OPENED_HEADER..].split_at(HEADER_RECORD)
}

/// The first half: opening what sealing wrote gives the same headers, the level now 0, and the same payload, marked sealed. The
/// records that are handed over have any bits: what is sealed has its security bit set and presence bits that agree.
#[test]
fn sealed_frames_open_to_what_was_sealed() {
    let mut random = Random::new(SEED);
    let (mut accepted, mut disagreed) = (0, 0);
    for round in 0..ROUNDS {
        let level = LEVELS[round % 3];
        let (key, handed) = (random.array(), any_header_record(92, &mut random));
        let handed_auxiliary = any_auxiliary_record(&mut random);
        let n = random.below(90);
        let payload = random.bytes(n);
        let header = Header::of_record(&handed).expect("a header's record");
        let auxiliary = auxiliary::of_record(&handed_auxiliary).expect("an auxiliary header's record");

        let sealed = seal(level, key, &handed, &handed_auxiliary, &payload);
        if sealed.refusal() != 0 {
            assert!([28, 14, 15, 21, 17].contains(&sealed.refusal()));
            let last = auxiliary.is_some_and(|auxiliary| auxiliary.counter == LAST_COUNTER);
            assert!(!last || sealed.refusal() != 17, "21 is before 17");
            disagreed += usize::from(sealed.refusal() == 28);
            continue;
        }
        let auxiliary = auxiliary.expect("an auxiliary header");
        assert!(header.agrees() && header.bits[header::SECURITY] && auxiliary.agrees(), "{handed:02X?}");
        let opened = open(level, key, &sealed.outputs[0][..sealed.length()], n + random.below(3));
        assert_eq!((mark(&opened), opened.clear(), opened.length()), (Some(MARK_SEALED), false, n));
        let (header_record, auxiliary_given) = records(&opened);
        assert_eq!(header_record, header.record());
        assert_eq!(auxiliary_given, auxiliary_record(&Some(auxiliary.at_level(0))));
        assert_eq!(opened.outputs[1][..n], payload);
        accepted += 1;
    }
    println!("{accepted} frames sealed and opened, {disagreed} refused by 28");
    assert!(accepted >= ROUNDS / 3 && disagreed >= ROUNDS / 10);
}

/// The second half, of frames that were sealed: sealing afresh what opening returned writes exactly the frame's bytes, if its
/// control arrived with level and bit 7 zero; else the frame with these bits 0. It "leaves out frames with" the last counter:
/// opening accepts them, and sealing them afresh is 21 (document 02, request 4).
#[test]
fn opened_frames_seal_to_their_bytes() {
    let mut random = Random::new(SEED + 1);
    let (mut plain, mut other, mut last) = (0, 0, 0);
    for round in 0..ROUNDS {
        let (level, key) = (LEVELS[round % 3], random.array());
        let wanted = (round % 2 == 0).then_some(round / 2 % (MAX_FRAME + 1));
        let bytes = secured_frame(level, &key, wanted, &mut random);
        let opened = open(level, key, &bytes, MAX_PAYLOAD);
        if opened.refusal() != 0 {
            continue;
        }
        assert_eq!(mark(&opened), Some(MARK_SEALED));
        let (header, auxiliary) = records(&opened);
        let sealed = seal(level, key, header, auxiliary, &opened.outputs[1][..opened.length()]);
        if auxiliary[AUXILIARY_COUNTER] == LAST_COUNTER {
            assert_eq!(sealed.answer, 21 << 32);
            last += 1;
            continue;
        }
        assert_eq!((sealed.refusal(), sealed.length()), (0, bytes.len()));
        let expected = with_plain_control(&bytes);
        assert_eq!(sealed.outputs[0][..sealed.length()], expected);
        if expected == bytes {
            plain += 1;
        } else {
            other += 1;
        }
    }
    println!("{plain} frames opened and sealed, {other} more with level or bit 7 set, {last} with the last counter");
    assert!(plain >= ROUNDS / 4 && other >= ROUNDS / 20 && last >= ROUNDS / 100);
}

/// "The sealing law speaks of sealed frames only": opening a clear frame returns a header with the security bit off, and sealing
/// that is 28; with the bit set it is 14, because there is no auxiliary header.
#[test]
fn opened_clear_frames_are_not_sealed_again() {
    let mut random = Random::new(SEED + 3);
    let mut clear = 0;
    for _ in 0..ROUNDS / 10 {
        let (level, key) = (random.pick(&LEVELS), random.array());
        let call = Call::open(key, &clear_frame(false, &mut random), MAX_PAYLOAD).at(level.number);
        let opened = made(&call);
        if opened.refusal() != 0 {
            assert!([1, 12].contains(&opened.refusal()));
            continue;
        }
        assert_eq!(mark(&opened), Some(MARK_CLEAR));
        let (header, auxiliary) = records(&opened);
        assert_eq!(seal(level, key, header, auxiliary, opened.payload(&call)).answer, 28 << 32);
        let mut secured = header.to_vec();
        secured[SECURITY_BYTE] = 1;
        assert_eq!(seal(level, key, &secured, auxiliary, opened.payload(&call)).answer, 14 << 32);
        clear += 1;
    }
    println!("{clear} clear frames opened");
    assert!(clear >= ROUNDS / 20);
}

/// Where the security control byte stands.
fn control_place(bytes: &[u8]) -> usize {
    let frame = frame::read(bytes).expect("a frame that was opened");
    frame.header.bytes().len()
}

fn with_plain_control(bytes: &[u8]) -> Vec<u8> {
    let mut plain = bytes.to_vec();
    plain[control_place(bytes)] &= !UNAUTHENTICATED;
    plain
}

/// Only the four bits that are not authenticated may be flipped; under another key nothing opens. Without its security bit the
/// frame is another one, and clear: all that is behind its header is its payload.
#[test]
fn no_other_bit_may_be_flipped() {
    let mut random = Random::new(SEED + 2);
    let mut frames = 0;
    for _ in 0..ROUNDS {
        if frames == 30 {
            break;
        }
        let (level, key) = (LEVELS[frames % 3], random.array());
        let bytes = secured_frame(level, &key, None, &mut random);
        if open(level, key, &bytes, MAX_PAYLOAD).refusal() != 0 {
            continue;
        }
        frames += 1;
        assert_eq!(open(level, random.array(), &bytes, MAX_PAYLOAD).refusal(), 19);
        let control = control_place(&bytes);
        for bit in 0..8 * bytes.len() {
            let mut flipped = bytes.clone();
            flipped[bit / 8] ^= 1 << (bit % 8);
            let free = bit / 8 == control && UNAUTHENTICATED >> (bit % 8) & 1 == 1;
            let call = Call::open(key, &flipped, MAX_PAYLOAD).at(level.number);
            let opened = made(&call);
            assert_eq!(mark(&opened) == Some(MARK_SEALED), free, "bit {bit} of {bytes:02X?}");
            assert_eq!(mark(&opened) == Some(MARK_CLEAR), bit == SECURITY, "bit {bit} of {bytes:02X?}");
            assert!(bit != SECURITY || opened.payload(&call) == &bytes[control..], "{bytes:02X?}");
        }
    }
    assert_eq!(frames, 30);
}
