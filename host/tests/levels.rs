//! Levels 5, 6 and 7, by the words of document 02, request 9: frames that another AES-CCM sealed, the largest payloads, a frame opened at
//! a level that is not its own, the places past a MIC, and 29 before all but 20. Each answer is the model's too.
#[allow(dead_code)]
mod support;

use support::calls::{Call, Outcome, LEVEL};
use support::compare::compare;
use support::generate::headers::{auxiliary, header};
use support::generate::NO_LEVELS;
use support::hex::unhex;
use support::model::level::{Level, LEVELS};
use support::model::{auxiliary as model_auxiliary, frame, MAX_FRAME};
use support::operations::{
    Operation, AUXILIARY_RECORD, HEADER_RECORD, LEVELLED, MARK_SEALED, MIC_PLACES, NUMBER, OPENED_HEADER, OPENED_MARK,
    OPENED_RECORD, PART,
};
use support::outside::{EMPTY, READ, READING};
use support::random::Random;

const SEED: u64 = 0x001E_7E15;
const FILL: u8 = 0xA5;

const KEY: [u8; 16] = [0xC0, 0xC1, 0xC2, 0xC3, 0xC4, 0xC5, 0xC6, 0xC7, 0xC8, 0xC9, 0xCA, 0xCB, 0xCC, 0xCD, 0xCE, 0xCF];

fn bytes(text: &str) -> Vec<u8> {
    unhex(text).expect("hexadecimal digits")
}

fn asked(call: &Call) -> Outcome {
    compare(call, FILL, 0x96)
}

fn open(level: Level, frame: &[u8], room: usize) -> Outcome {
    asked(&Call::open(KEY, frame, room).at(level.number))
}

fn seal(level: Level, inputs: &[&[u8]], room: usize) -> Outcome {
    let inputs = inputs.iter().map(|input| input.to_vec()).collect();
    asked(&Call::new(Operation::Seal, KEY, inputs, vec![room]).at(level.number))
}

/// What another AES-CCM sealed opens to its payload, and what opening gave is sealed to its bytes, "with one level for both calls".
#[test]
fn frames_of_another_ccm_at_each_level() {
    for (frames, payload) in [(READING, bytes(READ)), (EMPTY, Vec::new())] {
        for (level, frame) in LEVELS.into_iter().zip(frames.map(bytes)) {
            let opened = open(level, &frame, payload.len());
            assert_eq!((opened.answer, opened.outputs[0][OPENED_MARK]), (payload.len() as u64, MARK_SEALED));
            assert_eq!(opened.outputs[1], payload);
            let (header, auxiliary) = opened.outputs[0][OPENED_HEADER..].split_at(HEADER_RECORD);
            assert_eq!(auxiliary[1], 0, "the level received");
            for said in 0..=7 {
                let mut auxiliary = auxiliary.to_vec();
                auxiliary[1] = said;
                let sealed = seal(level, &[header, &auxiliary, &payload], MAX_FRAME);
                assert_eq!(sealed.outputs[0][..sealed.length()], frame, "level {said} handed over");
            }
        }
    }
}

/// "With one long address the largest payloads are 92, 88 and 80": the address in either header. One byte more is 17, and with both
/// addresses eight bytes fewer fit.
#[test]
fn the_largest_payloads() {
    let mut header = vec![0; HEADER_RECORD];
    header[4] = 1;
    let mut with_source = header.clone();
    (with_source[7], with_source[25]) = (1, 1);
    let auxiliary = bytes("01000101004523010001010203040506070800");
    let mut without = vec![0; AUXILIARY_RECORD];
    (without[0], without[2]) = (1, 1);
    for (level, largest) in LEVELS.into_iter().zip([92, 88, 80]) {
        for (header, auxiliary, n) in
            [(&header, &auxiliary, largest), (&with_source, &without, largest), (&with_source, &auxiliary, largest - 8)]
        {
            let answer = |n: usize, room: usize| seal(level, &[header, auxiliary, &vec![0x55; n]], room).answer;
            assert_eq!(answer(n, MAX_FRAME), MAX_FRAME as u64, "level {}", level.number);
            assert_eq!(answer(n + 1, MAX_FRAME), 17 << 32, "level {}", level.number);
            assert_eq!(answer(n, MAX_FRAME - 1), 18 << 32, "level {}", level.number);
            let sealed = seal(level, &[header, auxiliary, &vec![0x55; n]], MAX_FRAME);
            assert_eq!(open(level, &sealed.outputs[0], n).answer, n as u64);
        }
    }
}

/// 16 "now reads 'fewer bytes than the tag'": of every number of bytes behind the headers, at each level.
#[test]
fn every_length_behind_the_headers() {
    for (level, mic) in LEVELS.into_iter().zip([4, 8, 16]) {
        for n in 0..=40 {
            let front = bytes("08020000107A1E072845230100C3B2A11C004B120000");
            let expected = if n < mic { 16 } else { 19 };
            assert_eq!(open(level, &[front, vec![7; n]].concat(), PART).answer, expected << 32, "{n}");
            let split = Call::new(Operation::SplitMic, KEY, vec![vec![7; n]], vec![MIC_PLACES, NUMBER]);
            let answer = asked(&split.at(level.number)).answer;
            assert_eq!(answer, if n < mic { 16 << 32 } else { mic as u64 }, "{n}");
        }
    }
}

/// A frame sealed at one level is refused at each other, by 16 where fewer bytes than that level's MIC stand behind its headers and
/// else by 19; `compare` sees to it that no byte changes. Payloads of 0 to 12 bytes and longer ones.
#[test]
fn no_frame_opens_at_another_level() {
    let mut random = Random::new(SEED);
    let mut met = [0; 2];
    for round in 0..3_000 {
        let (header, auxiliary) = (header(100, &mut random), auxiliary(&mut random));
        let Some(ieee) = frame::nonce_ieee(&header, &auxiliary) else {
            continue;
        };
        let n = if round % 2 == 0 { random.below(13) } else { random.below(60) };
        let payload = random.bytes(n);
        for own in LEVELS {
            let sealed = frame::seal(own, &KEY, &header, &auxiliary, &ieee, &payload);
            if sealed.len() > MAX_FRAME {
                continue;
            }
            for level in LEVELS {
                let expected = match level {
                    level if level == own => 0,
                    level if n + own.mic < level.mic => 16,
                    _ => 19,
                };
                assert_eq!(open(level, &sealed, PART).refusal(), expected);
                met[usize::from(expected == 16)] += usize::from(expected != 0);
            }
        }
    }
    assert!(met[0] >= 1_000 && met[1] >= 500, "{met:?}");
}

/// The places of a MIC past its length: sealing and splitting give 0 there, and opening does not read them, whichever bit is set. A bit
/// within its length is 19.
#[test]
fn places_past_the_mic() {
    let mut random = Random::new(SEED + 1);
    let (nonce, auth, payload) = (random.bytes(13), random.bytes(20), random.bytes(24));
    for level in LEVELS {
        let inputs = vec![nonce.clone(), auth.clone(), payload.clone()];
        let sealed = asked(&Call::new(Operation::EncryptCcm, KEY, inputs, vec![24, MIC_PLACES]).at(level.number));
        let mic = &sealed.outputs[1];
        assert!(mic[level.mic..].iter().all(|byte| *byte == 0), "{mic:02X?}");
        let whole = [&sealed.outputs[0][..], &mic[..level.mic]].concat();
        let split = asked(&Call::new(Operation::SplitMic, KEY, vec![whole], vec![MIC_PLACES, NUMBER]).at(level.number));
        assert_eq!((&split.outputs[0], &split.outputs[1][..]), (mic, &24u64.to_le_bytes()[..]));
        for bit in 0..8 * MIC_PLACES {
            let mut changed = mic.clone();
            changed[bit / 8] ^= 1 << (bit % 8);
            let inputs = vec![nonce.clone(), auth.clone(), sealed.outputs[0].clone(), changed];
            let opened = asked(&Call::new(Operation::DecryptCcm, KEY, inputs, vec![24]).at(level.number));
            let expected = if bit < 8 * level.mic { 19 << 32 } else { 24 };
            assert_eq!(opened.answer, expected, "level {}, bit {bit}", level.number);
        }
    }
}

/// Calls that are accepted at level 5, one of each operation that takes a level.
fn accepted() -> Vec<Call> {
    let opened = open(LEVELS[0], &bytes(READING[0]), PART);
    let (header, auxiliary) = opened.outputs[0][OPENED_HEADER..].split_at(HEADER_RECORD);
    let reading = bytes(READING[0]);
    let sealing = Call::new(Operation::EncryptCcm, KEY, vec![vec![1; 13], vec![2; 9], vec![3; 5]], vec![5, MIC_PLACES]);
    let sealed = asked(&sealing).outputs;
    let to_open = vec![vec![1; 13], vec![2; 9], sealed[0].clone(), sealed[1].clone()];
    vec![
        Call::new(Operation::Seal, KEY, vec![header.to_vec(), auxiliary.to_vec(), bytes(READ)], vec![MAX_FRAME]),
        Call::open(KEY, &reading, PART),
        Call::burst(KEY, &reading, &[reading.len() as u16], 1, PART),
        sealing,
        Call::new(Operation::DecryptCcm, KEY, to_open, vec![5]),
        Call::new(Operation::SplitMic, KEY, vec![reading.clone()], vec![MIC_PLACES, NUMBER]),
    ]
}

/// Each number of 16 bits, 5, 6 and 7 with each one of the 48 bits above, and some with many: only those three are levels, and all others
/// are 29 with no byte changed. A burst is accepted, and its frame has 29.
#[test]
fn only_three_numbers_are_levels() {
    let calls = accepted();
    assert_eq!(calls.iter().map(|call| call.operation).collect::<Vec<_>>(), LEVELLED);
    let above = (16..64).flat_map(|bit| LEVELS.map(|level| 1u64 << bit | u64::from(level.number)));
    let masks = [u64::MAX, u64::MAX << 3 | 5, 5 << 32 | 5].into_iter();
    for number in (0..=u64::from(u16::MAX)).chain(above).chain(masks) {
        let is_level = (5..=7).contains(&number);
        for call in &calls {
            let at = call.at(number);
            let outcome = asked(&at);
            let found = match call.operation {
                Operation::OpenBurst => outcome.outputs[0][0],
                _ => outcome.refusal(),
            };
            assert_eq!(found == 29, !is_level, "{}", at.line());
            assert!(number != LEVEL || found == 0, "{}", at.line());
        }
    }
}

/// 29 is "before all": before reading, before a record's 13, before 1 of CCM alone and 16 of the splitter, and of a clear frame.
#[test]
fn before_all_others() {
    let reading = bytes(READING[0]);
    let long = vec![0; 128];
    let record = [vec![0; HEADER_RECORD], vec![0; AUXILIARY_RECORD]];
    let calls = [
        (Call::open(KEY, &[], 0), 2),
        (Call::open(KEY, &[0; 119], PART), 1),
        (Call::open(KEY, &reading, 0), 18),
        (Call::open(KEY, &reading[..25], PART), 16),
        (Call::open(KEY, &bytes("0800FCFF34121E07AABBCC"), 0), 0),
        (Call::new(Operation::Seal, KEY, vec![Vec::new(), Vec::new(), Vec::new()], vec![0]), 13),
        (Call::new(Operation::Seal, KEY, vec![record[0].clone(), record[1].clone(), Vec::new()], vec![0]), 28),
        (Call::new(Operation::EncryptCcm, KEY, vec![vec![0; 13], long.clone(), Vec::new()], vec![0, MIC_PLACES]), 1),
        (Call::new(Operation::EncryptCcm, KEY, vec![vec![0; 13], Vec::new(), vec![0]], vec![0, MIC_PLACES]), 18),
        (Call::new(Operation::DecryptCcm, KEY, vec![vec![0; 13], Vec::new(), long, vec![0; MIC_PLACES]], vec![0]), 1),
        (Call::new(Operation::SplitMic, KEY, vec![vec![0; 3]], vec![MIC_PLACES, NUMBER]), 16),
    ];
    for (call, otherwise) in calls {
        assert_eq!(asked(&call).refusal(), otherwise, "{}", call.line());
        for number in NO_LEVELS {
            assert_eq!(asked(&call.at(number)).answer, 29 << 32, "{}", call.at(number).line());
        }
    }
}

/// In a burst 29 is "each frame's answer": of sealed, clear, damaged and empty ones, the records otherwise zeros and no part touched. 20 is
/// before it, and no frames are accepted with 0.
#[test]
fn a_burst_at_no_level() {
    let (reading, clear) = (bytes(READING[1]), bytes("0800FCFF34121E07AABBCC"));
    let frames = [&reading[..], &clear, &[], &reading[..29], &[0; 119]];
    let lengths = frames.map(|frame| frame.len() as u16);
    let call = Call::burst(KEY, &frames.concat(), &lengths, 6, 5 * PART + 1);
    let own = |outcome: &Outcome| outcome.frames().map(|(record, _)| record[0]).collect::<Vec<_>>();
    assert_eq!(own(&asked(&call.at(6u8))), [0, 0, 2, 16, 1]);
    for number in NO_LEVELS {
        let opened = asked(&call.at(number));
        assert_eq!((opened.answer, own(&opened)), (5, vec![29; 5]));
        assert!(opened.outputs[1].iter().all(|byte| *byte == FILL));
        assert_eq!(asked(&Call::burst(KEY, &[], &[], 0, 0).at(number)).answer, 0);
        for refused in [
            Call::burst(KEY, &[0], &[], 0, 0),
            Call::burst(KEY, &reading, &[reading.len() as u16], 0, PART),
            Call::burst(KEY, &reading, &[reading.len() as u16], 1, PART - 1),
            Call::burst(KEY, &[], &[0; 17], 17, 17 * PART),
        ] {
            assert_eq!(asked(&refused.at(number)).answer, 20 << 32);
        }
    }
}

/// Opening returns the level received, whatever the network's is, and the level sent is 0: the control's level is not authenticated.
#[test]
fn the_level_received_is_returned() {
    for (level, frame) in LEVELS.into_iter().zip(READING.map(bytes)) {
        for received in 0..=7 {
            let mut frame = frame.clone();
            frame[8] |= received;
            let opened = open(level, &frame, PART);
            assert_eq!(opened.answer, 16);
            let auxiliary = model_auxiliary::of_record(&opened.outputs[0][OPENED_RECORD - AUXILIARY_RECORD..]);
            assert_eq!(auxiliary.ok().flatten().map(|auxiliary| auxiliary.level), Some(received));
        }
    }
}
