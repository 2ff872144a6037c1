//! Bursts: each frame has the answer and leaves the bytes that the codec's own `nwk_open` gives for that frame alone, with
//! its part of the output lent; and the words of document 02, requests 1 and 3, case by case.
#[allow(dead_code)]
mod support;

use support::calls::{check_boundary, length_of, lengths_of, payload_of, perform, Call, Outcome};
use support::compare::compare;
use support::generate::{any_level, bursts};
use support::hex::unhex;
use support::model::level::LEVELS;
use support::operations::{Operation, MARK_CLEAR, MARK_SEALED, MAX_BURST, OPENED_MARK, OPENED_RECORD, PART};
use support::random::Random;

const SEED: u64 = 0xB0_0257;
const ROUNDS: usize = 12_000;
/// Bursts of every size, each own answer and each mark are compared at least this often.
const AT_LEAST: usize = 20;

const FILL: u8 = 0xA5;

/// The key of the sample, and records 2 and 3 of `samples/store.pcap`: a link status and a reading, each with its payload.
const KEY: [u8; 16] = [0xC0, 0xC1, 0xC2, 0xC3, 0xC4, 0xC5, 0xC6, 0xC7, 0xC8, 0xC9, 0xCA, 0xCB, 0xCC, 0xCD, 0xCE, 0xCF];
const LINK_STATUS: (&str, &str) =
    ("0902FCFF00001E1528626001000100A11C004B1200006097DE8F51EB4C425C218EC0", "0862213F31107A12");
const READING: (&str, &str) = (
    "08020000107A1E072845230100C3B2A11C004B1200004A795E1A8A4667BBD5BA56CF422AFA679EC3DFE1",
    "000102040401010118010A0000296608",
);

fn bytes(text: &str) -> Vec<u8> {
    unhex(text).expect("hexadecimal digits")
}

/// The codec's answer, which is the model's too.
fn asked(frames: &[u8], lengths: &[u16], answers: usize, room: usize) -> Outcome {
    compare(&Call::burst(KEY, frames, lengths, answers, room), FILL, 0x96)
}

/// The record that a burst has for a frame: opening's own, or its number and zeros.
fn answer(alone: &Outcome) -> Vec<u8> {
    match alone.refusal() {
        0 => alone.outputs[0].clone(),
        number => [vec![number], vec![0; OPENED_RECORD - 1]].concat(),
    }
}

/// Compares each frame with opening it alone into its part: the answer with its mark, the part, and where the payload is. Gives
/// the frames' own numbers and marks.
fn compare_with_open(call: &Call, opened: &Outcome, fill: u8) -> Vec<(u8, u8)> {
    let mut own = Vec::new();
    for (k, (frame, (record, part))) in call.frames().into_iter().zip(opened.frames()).enumerate() {
        let its_call = Call::open(call.key, frame, PART).at(call.level);
        let alone = perform(&its_call, fill, 0x69);
        assert_eq!(record, answer(&alone), "answer {k}: {}", call.line());
        assert_eq!(part, alone.outputs[1], "part {k}: {}", call.line());
        if alone.refusal() == 0 {
            assert_eq!(record[OPENED_MARK] == MARK_CLEAR, alone.clear(), "mark {k}: {}", call.line());
            assert_eq!(length_of(record), alone.length(), "length {k}: {}", call.line());
            assert_eq!(payload_of(record, frame, part), alone.payload(&its_call), "payload {k}: {}", call.line());
        }
        own.push((record[0], record[OPENED_MARK]));
    }
    own
}

/// How often each size of a burst, each own number of a frame and each mark was compared.
#[derive(Default, Debug)]
struct Compared {
    sizes: [usize; MAX_BURST + 1],
    numbers: [usize; 30],
    marks: [usize; 3],
}

impl Compared {
    fn count(&mut self, own: &[(u8, u8)]) {
        self.sizes[own.len()] += 1;
        for &(number, mark) in own {
            self.numbers[usize::from(number)] += 1;
            self.marks[usize::from(mark)] += 1;
        }
    }

    fn check(&self) {
        assert!(self.sizes.iter().chain(&self.marks).all(|&met| met >= AT_LEAST), "{self:?}");
        for number in (0..20).chain([29]) {
            let met = self.numbers[number];
            // A part has room for every payload, opening writes nothing from a record, and it never gives 14.
            let never = [13, 14, 17, 18].contains(&number);
            assert!(if never { met == 0 } else { met >= AT_LEAST }, "{number} was met {met} times");
        }
    }
}

#[test]
fn each_frame_is_as_opened_alone() {
    let mut random = Random::new(SEED);
    let mut compared = Compared::default();
    for _ in 0..ROUNDS {
        let (key, fill) = (random.array(), random.byte());
        let inputs = bursts::inputs(random.pick(&LEVELS), &key, &mut random);
        let count = lengths_of(&inputs[1]).len();
        let rooms = vec![OPENED_RECORD * (count + random.below(3)), PART * count + random.below(3)];
        let call = Call::new(Operation::OpenBurst, key, inputs, rooms).at(any_level(&mut random));
        let opened = perform(&call, fill, random.byte());
        check_boundary(&call, &opened, fill);
        let expected = if count <= MAX_BURST { count as u64 } else { 20 << 32 };
        assert_eq!(opened.answer, expected, "{}", call.line());
        let own = compare_with_open(&call, &opened, fill);
        assert_eq!(own.len(), opened.length());
        if count <= MAX_BURST {
            compared.count(&own);
        }
    }
    println!("{compared:?}");
    compared.check();
}

/// "Frame number k (from 0) writes its plaintext into its own 108-byte part of the output, starting at 108 × k", and "a
/// refused frame does not stop the next one": a damaged one answers 19, one of no bytes 2, one of 119 bytes 1.
#[test]
fn each_frame_has_its_own_part_and_answer() {
    let (reading, status) = (bytes(READING.0), bytes(LINK_STATUS.0));
    let mut damaged = reading.clone();
    damaged[41] ^= 1;
    let frames = [&reading[..], &damaged, &[], &status, &[0; 119], &reading];
    let lengths = frames.map(|frame| frame.len() as u16);
    let opened = asked(&frames.concat(), &lengths, 7, 6 * 108 + 5);
    assert_eq!(opened.answer, 6);

    let own: Vec<u8> = opened.frames().map(|(record, _)| record[0]).collect();
    assert_eq!(own, [0, 19, 2, 0, 1, 0]);
    let payloads = [READING.1, "-", "-", LINK_STATUS.1, "-", READING.1].map(bytes);
    let mut out = vec![FILL; 6 * 108 + 5];
    for (k, payload) in payloads.iter().enumerate() {
        out[108 * k..][..payload.len()].copy_from_slice(payload);
    }
    assert_eq!(opened.outputs[1], out);
    assert!(opened.outputs[0][6 * OPENED_RECORD..].iter().all(|&byte| byte == FILL), "the place past the frames");
}

/// A clear data frame without and with payload, and a clear command with a source IEEE.
const EMPTY_CLEAR: &str = "0800FCFF34121E07";
const BEACON: (&str, &str) = ("0800FCFF34121E07AABBCC", "AABBCC");
const CLEAR_COMMAND: (&str, &str) = ("0910FCFF34121E07C3B2A11C004B12000440", "0440");

/// "In a burst a clear frame writes nothing to its part, and its payload is the frame's last bytes." The reading without its
/// security bit is clear, all behind its header being payload; secured without an IEEE it is 15; and 109 clear bytes are 12.
#[test]
fn clear_frames_stand_beside_sealed_ones() {
    let (reading, beacon) = (bytes(READING.0), bytes(BEACON.0));
    let mut turned_off = reading.clone();
    turned_off[1] = 0x00;
    let no_ieee = bytes("08020000107A1E070845230100004A795E1A");
    let long = [&beacon[..8], &[7; 109]].concat();
    let (command, empty) = (bytes(CLEAR_COMMAND.0), bytes(EMPTY_CLEAR));
    let frames = [&beacon[..], &reading, &no_ieee, &turned_off, &long, &empty, &command, &reading];
    let lengths = frames.map(|frame| frame.len() as u16);
    let opened = asked(&frames.concat(), &lengths, 8, 8 * 108);
    assert_eq!(opened.answer, 8);

    let own: Vec<(u8, u8)> = opened.frames().map(|(record, _)| (record[0], record[1])).collect();
    let (clear, sealed) = ((0, MARK_CLEAR), (0, MARK_SEALED));
    assert_eq!(own, [clear, sealed, (15, 0), clear, (12, 0), clear, clear, sealed]);
    let behind = &READING.0[16..];
    let payloads = [BEACON.1, READING.1, "-", behind, "-", "-", CLEAR_COMMAND.1, READING.1].map(bytes);
    for (k, (record, part)) in opened.frames().enumerate() {
        assert_eq!(payload_of(record, frames[k], part), payloads[k], "frame {k}");
        let written = if own[k] == sealed { payloads[k].len() } else { 0 };
        assert!(part[written..].iter().all(|&byte| byte == FILL), "part {k}");
    }
}

/// A burst of so many readings, and by how much its bytes, first length, answers and output are more than fits.
#[derive(Clone, Copy, Default)]
struct Readings {
    count: usize,
    bytes: isize,
    length: isize,
    answers: isize,
    room: isize,
}

impl Readings {
    fn answer(self) -> u64 {
        let reading = bytes(READING.0);
        let mut frames = reading.repeat(self.count);
        frames.resize(frames.len().saturating_add_signed(self.bytes), 0);
        let mut lengths = vec![reading.len() as u16; self.count];
        lengths[0] = lengths[0].wrapping_add_signed(self.length as i16);
        let answers = self.count.saturating_add_signed(self.answers);
        asked(&frames, &lengths, answers, (108 * self.count).saturating_add_signed(self.room)).answer
    }
}

/// The four conditions of 20, each alone and at its edge.
#[test]
fn twenty_has_four_conditions() {
    for count in 1..=16 {
        let fits = Readings { count, ..Readings::default() };
        for accepted in [fits, Readings { answers: 1, ..fits }, Readings { room: 1, ..fits }] {
            assert_eq!(accepted.answer(), count as u64);
        }
        for one in [1, -1] {
            assert_eq!(Readings { bytes: one, ..fits }.answer(), 20 << 32);
            assert_eq!(Readings { length: one, ..fits }.answer(), 20 << 32);
        }
        assert_eq!(Readings { answers: -1, ..fits }.answer(), 20 << 32);
        assert_eq!(Readings { room: -1, ..fits }.answer(), 20 << 32);
    }
    assert_eq!(Readings { count: 17, ..Readings::default() }.answer(), 20 << 32);
}

/// "No frames at all is accepted", whatever is lent; bytes without lengths do not add up.
#[test]
fn no_frames_are_accepted() {
    for (answers, room) in [(0, 0), (0, 300), (20, 0), (3, 107)] {
        assert_eq!(asked(&[], &[], answers, room).answer, 0);
        assert_eq!(asked(&[0], &[], answers, room).answer, 20 << 32);
    }
}

/// 20 is first of all: a frame that would be refused by itself does not come before it.
#[test]
fn twenty_comes_before_a_frames_own_refusal() {
    assert_eq!(asked(&[0; 7], &[7], 1, 108).answer, 1);
    assert_eq!(asked(&[0; 7], &[6], 1, 108).answer, 20 << 32);
    assert_eq!(asked(&[0; 7], &[7], 0, 108).answer, 20 << 32);
    assert_eq!(asked(&[0; 7], &[7], 1, 107).answer, 20 << 32);
}

/// The sum is the true one: it may be above 16 bits, and lengths that add up in 16 bits only are refused.
#[test]
fn the_sum_is_never_cut() {
    let long = asked(&[0; 80_000], &[40_000; 2], 2, 216);
    assert_eq!((long.answer, long.outputs[0][0], long.outputs[0][OPENED_RECORD]), (2, 1, 1));
    let reading = bytes(READING.0);
    let n = reading.len() as u16;
    assert_eq!(asked(&reading, &[n + 0x8000, 0x8000], 2, 216).answer, 20 << 32);
    let prolonged = [&reading[..], &[0; 65_536]].concat();
    assert_eq!(asked(&prolonged, &[n], 1, 108).answer, 20 << 32);
}

/// Numbers of lengths whose lowest bits are those of a short list, and numbers of answers whose lowest bits are none.
#[test]
fn long_lists_are_counted_whole() {
    let reading = bytes(READING.0);
    for more in [256, 65_536] {
        let mut lengths = vec![0; 1 + more];
        lengths[0] = reading.len() as u16;
        assert_eq!(asked(&reading, &lengths, 1, 108).answer, 20 << 32, "{more} lengths more");
        assert_eq!(asked(&reading, &lengths[..1], more, 65_536).answer, 1, "{more} answers");
    }
}
