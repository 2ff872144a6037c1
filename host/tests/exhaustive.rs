//! Every value of every byte that decides something: frame control, auxiliary control, the bytes of the records, and the
//! lengths of a burst; and every length of a clear payload, of an output and of a record. The values do not come from the
//! model's tables, so a code missing there would show.
#[allow(dead_code)]
mod support;

use support::calls::{Call, Outcome};
use support::compare::compare;
use support::generate::{commands, headers};
use support::model::auxiliary::{record as auxiliary_record, Auxiliary};
use support::model::header::{self, Header, SourceRoute};
use support::model::level::FIVE;
use support::model::{frame, LAST_COUNTER};
use support::operations::{
    Operation, AUXILIARY_COUNTER, AUXILIARY_RECORD, COMMAND_RECORD, HEADER_RECORD, MARK_CLEAR, MARK_SEALED,
    OPENED_MARK, OPENED_NONCE_IEEE, OPENED_RECORD, PART,
};
use support::random::Random;

const SEED: u64 = 0xE4A0_571E;
const FILL: u8 = 0xA5;

fn asked(operation: Operation, input: Vec<u8>, room: usize) -> Outcome {
    compare(&Call::new(operation, [0; 16], vec![input], vec![room]), FILL, 0x5A)
}

/// Puts each value in turn at one place of an input, and counts how often the call is accepted.
fn accepted_values(operation: Operation, input: &[u8], at: usize, room: usize) -> usize {
    let accepted = |value: u8| {
        let mut changed = input.to_vec();
        changed[at] = value;
        asked(operation, changed, room).refusal() == 0
    };
    (0..=255).filter(|&value| accepted(value)).count()
}

/// A random command record with this identifier.
fn command_record(identifier: u8, random: &mut Random) -> Vec<u8> {
    loop {
        let record = commands::record(random);
        if record[0] == identifier && asked(Operation::WriteCommand, record.clone(), 108).refusal() == 0 {
            return record;
        }
    }
}

#[test]
fn every_frame_control() {
    let mut random = Random::new(SEED);
    let mut accepted = 0;
    for control in 0..=u16::MAX {
        let mut bytes = random.bytes(60);
        bytes[..2].copy_from_slice(&control.to_le_bytes());
        let route = 8 + 8 * (control >> 11 & 1) + 8 * (control >> 12 & 1) + (control >> 8 & 1);
        bytes[usize::from(route)] %= 16;
        let read = asked(Operation::ReadHeader, bytes, HEADER_RECORD);
        let written = asked(Operation::WriteHeader, read.outputs[0].clone(), 118);
        // a header that is read is written again with as many bytes
        assert!(read.refusal() != 0 || written.answer == read.answer);
        accepted += usize::from(read.refusal() == 0);
    }
    // three of four frame types and three of four discoveries
    assert_eq!(accepted, 65_536 / 16 * 9);
}

const KEY: [u8; 16] = [0; 16];
/// The shortest headers: of a clear data frame and of a secured one.
const CLEAR: [u8; 8] = [0x08, 0x00, 0, 0, 0x34, 0x12, 0x1E, 7];
const SECURED: [u8; 8] = [0x08, 0x02, 0, 0, 0x34, 0x12, 0x1E, 7];

fn opened(bytes: &[u8], room: usize) -> Outcome {
    compare(&Call::open(KEY, bytes, room), FILL, 0x5A)
}

/// A header of this frame control with the fields that its bits say, the relays three.
fn controlled(control: u16, random: &mut Random) -> Vec<u8> {
    let field = |bit: u16, n: usize| if control >> bit & 1 == 1 { n } else { 0 };
    let front = 6 + field(11, 8) + field(12, 8) + field(8, 1);
    let mut bytes = [control.to_le_bytes().to_vec(), random.bytes(front)].concat();
    if control >> 10 & 1 == 1 {
        bytes.push(3);
        bytes.extend(random.bytes(1 + 2 * 3));
    }
    bytes
}

/// This header sealed by the model with an auxiliary header that has an IEEE; none where the header is refused.
fn sealed(front: &[u8], payload: &[u8], random: &mut Random) -> Option<Vec<u8>> {
    let ieee = random.array();
    let auxiliary = Auxiliary { extended_nonce: true, ieee: Some(ieee), ..headers::auxiliary(random) };
    let (header, _) = header::read(front).ok()?;
    Some(frame::seal(FIVE, &KEY, &header, &auxiliary, &ieee, payload))
}

/// What opening makes of every frame control, the payload having 6 bytes: those refused, clear and sealed are counted.
#[test]
fn every_frame_control_opened() {
    let mut random = Random::new(SEED + 7);
    let mut counts = [0; 3];
    for control in 0..=u16::MAX {
        let (front, payload) = (controlled(control, &mut random), random.bytes(6));
        let secured = control >> 9 & 1 == 1;
        let written = secured.then(|| sealed(&front, &payload, &mut random)).flatten();
        let opened = opened(&written.unwrap_or([&front[..], &payload].concat()), 6);
        // three of four frame types and three of four discoveries are no refusal
        let refused = control & 3 == 2 || control >> 6 & 3 == 3;
        let (mark, left) = match (refused, secured) {
            (true, _) => (0, &[FILL; 6][..]),
            (false, false) => (MARK_CLEAR, &[FILL; 6][..]),
            (false, true) => (MARK_SEALED, &payload[..]),
        };
        assert_eq!((opened.refusal() != 0, opened.clear()), (refused, mark == MARK_CLEAR), "{control:04X}");
        assert_eq!(opened.outputs[0][OPENED_MARK], if refused { FILL } else { mark }, "{control:04X}");
        assert_eq!(opened.outputs[1], left, "{control:04X}");
        counts[usize::from(mark)] += 1;
    }
    assert_eq!(counts, [65_536 / 16 * 7, 32_768 / 16 * 9, 32_768 / 16 * 9]);
}

/// No security control makes a secured frame clear. Without an IEEE of the sender it is 15; with one a wrong MIC is 19, and a
/// frame whose control differs from the sealed one in level or bit 7 only is sealed.
#[test]
fn every_security_control_opened() {
    let mut random = Random::new(SEED + 8);
    let to_ieee = [&[0x08, 0x0A][..], &SECURED[2..], &[1, 2, 3, 4, 5, 6, 7, 8]].concat();
    for (front, control) in [&SECURED[..], &to_ieee].into_iter().flat_map(|front| (0..=255).map(move |c| (front, c))) {
        let extended = control >> 5 & 1 == 1;
        let auxiliary = random.bytes(if extended { 14 } else { 6 });
        let mut bytes = [front, &auxiliary, &[1, 2, 3, 4, 5, 6]].concat();
        bytes[front.len()] = control;
        let number = if extended { 19 } else { 15 };
        assert_eq!(opened(&bytes, 6).answer, number << 32, "{control:02X}");
        let read = frame::read(&bytes).expect("two headers");
        let (header, auxiliary) = (read.header, read.auxiliary.expect("an auxiliary header"));
        if let Some(ieee) = auxiliary.ieee {
            let mut bytes = frame::seal(FIVE, &KEY, &header, &auxiliary, &ieee, &[1, 2]);
            bytes[front.len()] = control;
            let opened = opened(&bytes, 2);
            assert_eq!((opened.answer, opened.outputs[0][OPENED_MARK]), (2, MARK_SEALED), "{control:02X}");
            assert_eq!(opened.outputs[0][OPENED_NONCE_IEEE], ieee, "{control:02X}");
        }
    }
}

/// Clear payloads of 0 to 111 bytes behind the shortest header, into outputs of 0 to 120: up to 108 bytes are given, whatever
/// is lent; 109 and 110 are 12, 111 is 1.
#[test]
fn every_clear_payload_into_every_output() {
    let mut random = Random::new(SEED + 9);
    for n in 0..=111u64 {
        let bytes = [&CLEAR[..], &random.bytes(n as usize)].concat();
        let expected = match n {
            0..=108 => 1 << 40 | n,
            109 | 110 => 12 << 32,
            _ => 1 << 32,
        };
        for room in 0..=120 {
            let call = Call::open(KEY, &bytes, room);
            let opened = compare(&call, FILL, room as u8);
            assert_eq!(opened.answer, expected, "{n} bytes into {room}");
            assert_eq!(opened.outputs[1], vec![FILL; room], "{n} bytes into {room}");
            assert!(n > 108 || opened.payload(&call) == &bytes[8..], "{n} bytes into {room}");
        }
    }
}

/// Each choice of the optional fields: the payload is what is behind all of them. In a burst it is the same, and the part stays.
#[test]
fn clear_frames_with_every_choice_of_fields() {
    let mut random = Random::new(SEED + 10);
    for choice in 0..16u16 {
        let control = 0x0008 | (choice & 1) << 8 | (choice >> 1) << 10;
        let front = controlled(control, &mut random);
        for n in 0..=118 - front.len() {
            let bytes = [&front[..], &random.bytes(n)].concat();
            let alone = Call::open(KEY, &bytes, 0);
            let opened = compare(&alone, FILL, n as u8);
            let in_burst = burst(&bytes, &[bytes.len() as u16], 1, PART);
            assert_eq!(in_burst.outputs[1], [FILL; PART]);
            if n > 108 {
                assert_eq!((opened.answer, in_burst.outputs[0][0]), (12 << 32, 12));
                continue;
            }
            assert_eq!(opened.answer, 1 << 40 | n as u64);
            assert_eq!(opened.payload(&alone), &bytes[front.len()..]);
            assert_eq!(in_burst.outputs[0], opened.outputs[0]);
        }
    }
}

/// A record of every length up to 200: below 182 it is 18 beside a clear frame, whatever the output, and beside a sealed one, its
/// MIC right or wrong. Reading's refusals, 15 and 16 come before.
#[test]
fn every_length_of_an_opened_record() {
    let mut random = Random::new(SEED + 11);
    let clear = [&CLEAR[..], &[1; 20]].concat();
    let sealed = sealed(&SECURED, &[1; 20], &mut random).expect("a header that is read");
    let wrong = [&sealed[..sealed.len() - 1], &[!sealed[sealed.len() - 1]]].concat();
    let no_ieee = [&SECURED[..], &[0x08, 1, 0, 0, 0, 9]].concat();
    for room in 0..=200 {
        let answer = |frame: &[u8], output: usize| {
            let mut call = Call::open(KEY, frame, output);
            call.rooms[0] = room;
            compare(&call, FILL, room as u8).answer
        };
        let unless_short = |answer: u64| if room < OPENED_RECORD { 18 << 32 } else { answer };
        for output in [0, 19, 20, 120] {
            assert_eq!(answer(&clear, output), unless_short(1 << 40 | 20));
        }
        assert_eq!(answer(&sealed, 20), unless_short(20));
        assert_eq!(answer(&sealed, 19), 18 << 32);
        assert_eq!(answer(&wrong, 20), unless_short(19 << 32));
        assert_eq!(answer(&clear[..7], 20), 2 << 32);
        assert_eq!(answer(&no_ieee, 20), 15 << 32);
        assert_eq!(answer(&sealed[..25], 20), 16 << 32);
    }
}

#[test]
fn every_auxiliary_control_at_every_length() {
    let mut random = Random::new(SEED + 1);
    let mut accepted = 0;
    for control in 0..=255 {
        for n in 0..=20 {
            let mut bytes = random.bytes(n);
            bytes.iter_mut().take(1).for_each(|first| *first = control);
            let read = asked(Operation::ReadAuxiliary, bytes, AUXILIARY_RECORD);
            accepted += usize::from(read.refusal() == 0);
        }
    }
    // 6 to 20 bytes without extended nonce, 14 to 20 with it
    assert_eq!(accepted, 128 * 15 + 128 * 7);
}

#[test]
fn every_byte_of_a_header_record() {
    let mut random = Random::new(SEED + 2);
    let mut full = Header {
        destination_ieee: Some(random.array()),
        source_ieee: Some(random.array()),
        multicast_control: Some(random.byte()),
        source_route: Some(SourceRoute { index: 1, relays: vec![random.array(); 3] }),
        ..headers::header(50, &mut random)
    };
    headers::agree(&mut full);
    let accepted = |at: usize| accepted_values(Operation::WriteHeader, &full.record(), at, 200);
    assert_eq!([0, 1, 2, 9].map(accepted), [3, 16, 3, 4]);
    // bits 8 to 13: of a presence bit, or of its field's presence byte, 1 alone is accepted; 0 is 28
    assert_eq!((3..9).map(accepted).collect::<Vec<_>>(), [1, 2, 1, 1, 1, 2]);
    assert_eq!([16, 25, 34, 36].map(accepted), [1; 4]);
    // 27 bytes stand before the relays: of the 54 places, 45 fit into 118 bytes
    assert_eq!(accepted(37), 46);
    let free = (0..HEADER_RECORD).filter(|&at| accepted(at) == 256).count();
    assert_eq!(free, HEADER_RECORD - 15);
}

/// A header with the fields of a choice and the bits 8 to 12 of another.
fn chosen(fields: u8, bits: u8, random: &mut Random) -> Header {
    let mut header = Header {
        multicast_control: (fields & 1 != 0).then(|| random.byte()),
        source_route: (fields & 2 != 0).then(|| SourceRoute { index: 0, relays: vec![[1, 2]; random.below(3)] }),
        destination_ieee: (fields & 4 != 0).then(|| random.array()),
        source_ieee: (fields & 8 != 0).then(|| random.array()),
        ..headers::plain_header(random)
    };
    (0..5).for_each(|bit| header.bits[bit] = bits >> bit & 1 == 1);
    header
}

/// Each choice of the four fields beside each choice of bits 8 to 12, for the three writers, and sealing with no auxiliary header and
/// with one with and without its IEEE and its bit (document 02, request 8).
#[test]
fn every_presence_bit_beside_every_field() {
    let mut random = Random::new(SEED + 12);
    for (fields, bits) in (0..16).flat_map(|fields| (0..32).map(move |bits| (fields, bits))) {
        let record = chosen(fields, bits, &mut random).record();
        // without bit 9, which only sealing looks at
        let agrees = fields == (bits & 1 | bits >> 1 & 14);
        let written = if agrees { 0 } else { 28 };
        assert_eq!(asked(Operation::WriteHeader, record.clone(), 118).refusal(), written, "{fields:X} {bits:02X}");
        let call = |operation, inputs| Call::new(operation, KEY, inputs, vec![118]);
        let frame = compare(&call(Operation::WriteFrame, vec![record.clone(), vec![7]]), FILL, 0x5A);
        assert_eq!(frame.refusal(), written, "{fields:X} {bits:02X}");
        for choice in [None, Some((false, false)), Some((false, true)), Some((true, false)), Some((true, true))] {
            let auxiliary = choice.map(|(extended_nonce, with_ieee)| {
                let ieee = with_ieee.then(|| random.array());
                Auxiliary { extended_nonce, ieee, counter: [1, 0, 0, 0], ..headers::auxiliary(&mut random) }
            });
            let expected = match choice {
                _ if !agrees || bits & 2 == 0 => 28,
                None => 14,
                Some((bit, ieee)) if bit != ieee => 28,
                Some((_, ieee)) if !ieee && fields & 8 == 0 => 15,
                Some(_) => 0,
            };
            let inputs = vec![record.clone(), auxiliary_record(&auxiliary), vec![7]];
            let sealed = compare(&call(Operation::Seal, inputs), FILL, 0x5A);
            assert_eq!(sealed.refusal(), expected, "{fields:X} {bits:02X} {choice:?}");
        }
    }
}

#[test]
fn every_byte_of_an_auxiliary_record() {
    let mut random = Random::new(SEED + 3);
    let record = auxiliary_record(&Some(headers::auxiliary(&mut random)));
    let accepted = |at: usize| accepted_values(Operation::WriteAuxiliary, &record, at, 14);
    assert_eq!([0, 1, 2, 3, 4, 9].map(accepted), [1, 8, 4, 2, 2, 2]);
    assert!((5..9).chain(10..AUXILIARY_RECORD).all(|at| accepted(at) == 256));
}

/// Each value of each byte of the counter, the other three being `FF`: only where all four are is sealing refused, by 21. Writing
/// the auxiliary header takes every value, as the test above has it.
#[test]
fn every_byte_beside_the_last_counter() {
    let mut random = Random::new(SEED + 9);
    let (header, _) = header::read(&SECURED).expect("the shortest header");
    let ieee = Some(random.array());
    for (at, value) in AUXILIARY_COUNTER.flat_map(|at| (0..=255).map(move |value| (at, value))) {
        let auxiliary =
            Auxiliary { counter: LAST_COUNTER, extended_nonce: true, ieee, ..headers::auxiliary(&mut random) };
        let mut record = auxiliary_record(&Some(auxiliary));
        record[at] = value;
        let inputs = vec![header.record(), record, random.bytes(2)];
        let sealed = compare(&Call::new(Operation::Seal, KEY, inputs, vec![118]), FILL, 0x5A);
        assert_eq!(sealed.answer, if value == 0xFF { 21 << 32 } else { 8 + 14 + 2 + 4 }, "{value:02X} at {at}");
    }
}

/// Identifier, offset in the record, and how many values document 01 declares.
const DECLARED: [(u8, usize, usize); 21] = [
    (1, 1, 4),
    (1, 6, 2),
    (2, 7, 2),
    (2, 16, 2),
    (3, 1, 21),
    (4, 1, 2),
    (5, 25, 54),
    (6, 5, 2),
    (7, 3, 6),
    (8, 1, 2),
    (9, 1, 1),
    (9, 257, 32),
    (10, 1, 32),
    (10, 2, 1),
    (11, 1, 15),
    (12, 1, 3),
    (12, 4, 2),
    (13, 1, 3),
    (14, 1, 2),
    (14, 9, 2),
    (15, 3, 6),
];

#[test]
fn every_declared_code_is_written() {
    let mut random = Random::new(SEED + 4);
    for (identifier, at, values) in DECLARED {
        let record = command_record(identifier, &mut random);
        let accepted = accepted_values(Operation::WriteCommand, &record, at, 108);
        assert_eq!(accepted, values, "identifier {identifier}, offset {at}");
    }
}

/// All bytes that some command reads as a field, the five counts, and the first link status.
#[test]
fn every_byte_of_a_command_record() {
    let mut random = Random::new(SEED + 5);
    for identifier in 0..=15 {
        let record = command_record(identifier, &mut random);
        for at in (0..26).chain(132..137).chain([257, 320, 426]) {
            let accepted = accepted_values(Operation::WriteCommand, &record, at, 108);
            assert!(accepted >= 1, "identifier {identifier}, offset {at}");
        }
    }
}

/// Every value of each of the first bytes of each command: reading always gives a record.
#[test]
fn every_byte_of_a_command() {
    let mut random = Random::new(SEED + 6);
    for identifier in 1..=15 {
        let record = command_record(identifier, &mut random);
        let written = asked(Operation::WriteCommand, record, 108);
        let bytes = &written.outputs[0][..written.length()];
        for at in 0..bytes.len().min(24) {
            assert_eq!(accepted_values(Operation::ReadCommand, bytes, at, COMMAND_RECORD), 256);
        }
        for n in 0..=bytes.len() {
            let cut = asked(Operation::ReadCommand, bytes[..n].to_vec(), COMMAND_RECORD);
            // cut short it is unparsed, whole it is typed
            assert_eq!(cut.outputs[0][0], if n < bytes.len() { 0 } else { identifier });
        }
    }
}

fn burst(frames: &[u8], lengths: &[u16], answers: usize, room: usize) -> Outcome {
    compare(&Call::burst([0; 16], frames, lengths, answers, room), FILL, 0x5A)
}

/// Of all the numbers a length can be, only the one that makes the sum is taken.
#[test]
fn every_length_of_a_burst() {
    let frames = [0x08; 20];
    for (front, right) in [(&[][..], 20), (&[7], 13), (&[20], 0), (&[9, 5], 6)] {
        let fits = |length: &u16| burst(&frames, &[front, &[*length]].concat(), 3, 3 * PART).refusal() == 0;
        assert_eq!((0..=u16::MAX).filter(fits).collect::<Vec<_>>(), [right]);
    }
}

/// Every number of frames, of answers and of parts up to 18; with the parts no byte more, one, and one less than a part.
#[test]
fn every_size_of_a_burst() {
    let rooms: Vec<usize> = (0..=18).flat_map(|parts| [0, 1, PART - 1].map(|more| PART * parts + more)).collect();
    for (count, answers) in (0..=18).flat_map(|count| (0..=18).map(move |answers| (count, answers))) {
        for &room in &rooms {
            let opened = burst(&[], &vec![0; count], answers, room);
            let fits = count <= 16 && answers >= count && room >= 108 * count;
            let expected = if fits { count as u64 } else { 20 << 32 };
            assert_eq!(opened.answer, expected, "{count} lengths, {answers} answers, {room} bytes");
            // Frames of no bytes: the own answer of each is 2.
            assert!(opened.frames().all(|(record, _)| record[0] == 2));
        }
    }
}
