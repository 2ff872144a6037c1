//! The cases that document 01 prints under "At the boundaries", those of document 02's requests 3, 4 and 8, and known answers of
//! FIPS 197 and of NIST's CCM validation set: each is asked of the codec and of the model.
#[allow(dead_code)]
mod support;

use support::calls::{Call, Outcome};
use support::compare::compare;
use support::hex::unhex;
use support::model::level::LEVELS;
use support::operations::{Operation, AUXILIARY_RECORD, COMMAND_RECORD, HEADER_RECORD, MIC_PLACES, OPENED_RECORD};

const FILL: u8 = 0xA5;

fn bytes(text: &str) -> Vec<u8> {
    unhex(&text.replace(' ', "")).expect("hexadecimal digits")
}

/// The outcome of a call, which codec and model agree on.
fn asked(operation: Operation, key: [u8; 16], inputs: Vec<Vec<u8>>, rooms: Vec<usize>) -> Outcome {
    compare(&Call::new(operation, key, inputs, rooms), FILL, 0x96)
}

fn read_header(text: &str) -> Outcome {
    asked(Operation::ReadHeader, [0; 16], vec![bytes(text)], vec![HEADER_RECORD])
}

fn read_frame(bytes: Vec<u8>) -> Outcome {
    asked(Operation::ReadFrame, [0; 16], vec![bytes], vec![HEADER_RECORD, AUXILIARY_RECORD])
}

fn open(bytes: Vec<u8>) -> Outcome {
    asked(Operation::Open, [0; 16], vec![bytes], vec![OPENED_RECORD, 118])
}

fn read_command(text: &str) -> Vec<u8> {
    let outcome = asked(Operation::ReadCommand, [0; 16], vec![bytes(text)], vec![COMMAND_RECORD]);
    assert_eq!(outcome.answer, COMMAND_RECORD as u64);
    outcome.outputs[0].clone()
}

#[test]
fn a_short_header_is_read() {
    let read = read_header("08 00 00 00 34 12 1E 07 AA");
    assert_eq!(read.answer, 8);
    let mut expected = vec![0; HEADER_RECORD];
    (expected[1], expected[12], expected[13], expected[14], expected[15]) = (2, 0x34, 0x12, 30, 7);
    assert_eq!(read.outputs[0], expected);
}

#[test]
fn wrong_headers_are_refused_in_order() {
    let cases = [
        ("08 00 00 00 34 12 1E", 2),
        ("0A 00 00 00 34 12 1E 07 AA", 3),
        ("C8 00 00 00 34 12 1E 07 AA", 4),
        ("CA 00 00 00 34 12 1E 07 AA", 3),
        ("08 04 00 00 34 12 1E 07 02 01 34 12 78", 8),
    ];
    for (text, refusal) in cases {
        assert_eq!(read_header(text).answer, refusal << 32, "{text}");
    }
}

#[test]
fn a_source_route_is_read() {
    let read = read_header("08 04 00 00 34 12 1E 07 02 01 34 12 78 56");
    assert_eq!(read.answer, 14);
    assert_eq!(read.outputs[0][36..43], [1, 2, 1, 0x34, 0x12, 0x78, 0x56]);
}

#[test]
fn an_unsecured_payload_has_at_most_108_bytes() {
    for (payload, answer) in [(108, 8), (109, 12 << 32), (110, 12 << 32), (111, 1 << 32)] {
        let mut frame = bytes("08 00 00 00 34 12 1E 07");
        frame.resize(8 + payload, 0xAA);
        assert_eq!(read_frame(frame).answer, answer, "{payload} bytes");
    }
}

/// The answer's mark of a clear frame.
const CLEAR: u64 = 1 << 40;

/// "Opening now accepts a frame whose security bit is off, marks the answer as clear and does not touch the output. The length
/// given is then the payload's": document 01's frame, with an output of every length up to the payload's and past it.
#[test]
fn a_clear_frame_is_opened_whatever_the_output() {
    let frame = bytes("08 00 00 00 34 12 1E 07 AA");
    for room in 0..3 {
        let opened = asked(Operation::Open, [0; 16], vec![frame.clone()], vec![OPENED_RECORD, room]);
        assert_eq!(opened.answer, CLEAR | 1, "{room} bytes");
        // The mark, the length, and behind the first 16 bytes the header as read.
        let mut expected = vec![0; OPENED_RECORD];
        (expected[1], expected[2]) = (1, 1);
        expected[16..16 + HEADER_RECORD].copy_from_slice(&read_header("08 00 00 00 34 12 1E 07 AA").outputs[0]);
        assert_eq!((&opened.outputs[0], &opened.outputs[1]), (&expected, &vec![FILL; room]));
    }
    let short = asked(Operation::Open, [0; 16], vec![frame], vec![OPENED_RECORD - 1, 108]);
    assert_eq!(short.answer, 18 << 32, "a record shorter than 182");
}

/// Reading's refusals hold for clear frames, and nothing else refuses one.
#[test]
fn a_clear_payload_has_at_most_108_bytes() {
    for (payload, answer) in [(0, CLEAR), (108, CLEAR | 108), (109, 12 << 32), (110, 12 << 32), (111, 1 << 32)] {
        let mut frame = bytes("08 00 00 00 34 12 1E 07");
        frame.resize(8 + payload, 0xAA);
        assert_eq!(open(frame).answer, answer, "{payload} bytes");
    }
    for (text, refusal) in [("08 00 00 00 34 12 1E", 2), ("0A 00 00 00 34 12 1E 07", 3), ("C8 00 00 00 34 12 1E 07", 4)]
    {
        assert_eq!(open(bytes(text)).answer, refusal << 32, "{text}");
    }
}

#[test]
fn an_auxiliary_header_with_extended_nonce_has_14_bytes() {
    for (n, answer) in [(5, 9 << 32), (12, 10 << 32), (13, 11 << 32), (14, 14)] {
        let mut given = vec![0x28; 1];
        given.resize(n, 7);
        let read = asked(Operation::ReadAuxiliary, [0; 16], vec![given], vec![AUXILIARY_RECORD]);
        assert_eq!(read.answer, answer, "{n} bytes");
    }
}

#[test]
fn ciphertext_with_mic_has_at_least_4_bytes() {
    let mut frame = bytes("08 02 00 00 34 12 1E 07 28 00 00 00 00 01 02 03 04 05 06 07 08 00");
    frame.extend([0; 3]);
    assert_eq!(open(frame.clone()).refusal(), 16);
    frame.push(0);
    assert_eq!(open(frame).refusal(), 19);
}

/// Ciphertext of 3: 16; of 4: the MIC alone, and the ciphertext in front of it is empty. There is no upper limit.
#[test]
fn the_mic_is_split_off() {
    let split = |n: usize| {
        let bytes = (0..n).map(|i| i as u8).collect();
        let outcome = asked(Operation::SplitMic, [0; 16], vec![bytes], vec![MIC_PLACES, 8]);
        (outcome.answer, outcome.outputs[0].clone(), outcome.outputs[1].clone())
    };
    let front = |n: u64| n.to_le_bytes().to_vec();
    let mic = |bytes: [u8; 4]| [&bytes[..], &[0; 12]].concat();
    assert_eq!(split(3), (16 << 32, vec![FILL; MIC_PLACES], vec![FILL; 8]));
    assert_eq!(split(4), (4, mic([0, 1, 2, 3]), front(0)));
    assert_eq!(split(6), (4, mic([2, 3, 4, 5]), front(2)));
    assert_eq!(split(70_000).2, front(69_996));
}

/// A record without an auxiliary header has no field: sealing is refused by 14 whatever its other bytes are, and by 13 only
/// for another length or a presence byte that is neither 0 nor 1. Written alone it is refused by 13.
#[test]
fn an_absent_auxiliary_header_has_no_fields() {
    let mut header = vec![0; HEADER_RECORD];
    header[4] = 1;
    let seal =
        |auxiliary: Vec<u8>| asked(Operation::Seal, [0; 16], vec![header.clone(), auxiliary, vec![1]], vec![118]);
    let mut absent = vec![0xFF; AUXILIARY_RECORD];
    absent[0] = 0;
    assert_eq!(seal(absent.clone()).refusal(), 14);
    assert_eq!(seal(vec![0; AUXILIARY_RECORD]).refusal(), 14);
    assert_eq!(asked(Operation::WriteAuxiliary, [0; 16], vec![absent.clone()], vec![14]).refusal(), 13);
    absent[0] = 2;
    assert_eq!(seal(absent).refusal(), 13);
    assert_eq!(seal(vec![0; AUXILIARY_RECORD - 1]).refusal(), 13);
}

/// 26 bytes of overhead with one IEEE in all: a payload of 92 fits, one of 93 does not. The empty payload opens again.
#[test]
fn sealing_fills_a_frame() {
    let mut header = vec![0; HEADER_RECORD];
    header[4] = 1;
    let auxiliary = bytes("01 00 01 01 00 45 23 01 00 01 01 02 03 04 05 06 07 08 00");
    let seal = |n: usize| {
        let inputs = vec![header.clone(), auxiliary.clone(), vec![0x55; n]];
        asked(Operation::Seal, [0; 16], inputs, vec![118])
    };
    assert_eq!(seal(92).answer, 118);
    assert_eq!(seal(93).answer, 17 << 32);
    let empty = seal(0);
    assert_eq!(empty.answer, 26);
    assert_eq!(open(empty.outputs[0][..26].to_vec()).answer, 0);
}

/// Document 02, 4: counters 0 to `FFFFFFFE` are sealed. 21 is after 15 and before 17 and 18; without an auxiliary header it is
/// 14. Opening accepts `FFFFFFFF`, and writing an auxiliary header alone takes it. The frame is another AES-CCM's.
#[test]
fn the_last_counter_is_not_sealed() {
    let mut header = vec![0; HEADER_RECORD];
    header[4] = 1;
    let seal = |front: &str, counter: &str, ieee: &str, n: usize, room: usize| {
        let auxiliary = bytes(&format!("{front} {counter} {ieee} 00"));
        asked(Operation::Seal, [0; 16], vec![header.clone(), auxiliary, vec![0x55; n]], vec![room]).answer
    };
    let (present, last) = ("01 00 01 01 00", "FF FF FF FF");
    let (ieee, none) = ("01 0D 6F 00 11 22 33 44 55", "00 00 00 00 00 00 00 00 00");
    assert_eq!(seal(present, "00 00 00 00", ieee, 2, 118), 28);
    assert_eq!(seal(present, "FE FF FF FF", ieee, 2, 118), 28);
    assert_eq!(seal(present, last, ieee, 2, 118), 21 << 32);
    assert_eq!(seal("00 00 01 01 00", last, ieee, 2, 118), 14 << 32);
    assert_eq!(seal("01 00 01 00 00", last, none, 2, 118), 15 << 32);
    assert_eq!((seal(present, last, ieee, 93, 118), seal(present, "FE FF FF FF", ieee, 93, 118)), (21 << 32, 17 << 32));
    assert_eq!((seal(present, last, ieee, 2, 27), seal(present, "FE FF FF FF", ieee, 2, 27)), (21 << 32, 18 << 32));

    let auxiliary = bytes(&format!("{present} {last} {ieee} 00"));
    let written = asked(Operation::WriteAuxiliary, [0; 16], vec![auxiliary], vec![14]);
    assert_eq!(written.outputs[0], bytes("28 FF FF FF FF 0D 6F 00 11 22 33 44 55 00"));
    let frame = bytes("08 02 00 00 34 12 1E 07 28 FF FF FF FF 0D 6F 00 11 22 33 44 55 00 3F 9E FE E1 97");
    let key = bytes("01 03 05 07 09 0B 0D 0F 00 02 04 06 08 0A 0C 0D").try_into().expect("a key");
    let opened = asked(Operation::Open, key, vec![frame], vec![OPENED_RECORD, 1]);
    assert_eq!((opened.answer, &opened.outputs[1][..]), (1, &[0xAA][..]));
}

/// Where the records have the presence bits, the presence bytes of their fields, the security bit and the counter.
const BITS: [(usize, usize); 4] = [(3, 34), (5, 36), (6, 16), (7, 25)];
const SECURITY: usize = 4;
const EXTENDED_NONCE: usize = 3;
const HAS_IEEE: usize = 9;
const COUNTER: usize = 5;

/// A record of zeros with these bytes in it.
fn record(size: usize, bytes: &[(usize, u8)]) -> Vec<u8> {
    let mut record = vec![0; size];
    bytes.iter().for_each(|(at, byte)| record[*at] = *byte);
    record
}

/// The refusals of `nwk_write_header` and of `nwk_write_frame` with a payload of so many bytes, into so much room.
fn written(header: &[u8], payload: usize, room: usize) -> [u8; 2] {
    let alone = asked(Operation::WriteHeader, [0; 16], vec![header.to_vec()], vec![room]);
    let inputs = vec![header.to_vec(), vec![0x55; payload]];
    [alone, asked(Operation::WriteFrame, [0; 16], inputs, vec![room])].map(|outcome| outcome.refusal())
}

fn sealed(header: &[u8], auxiliary: &[u8], payload: usize, room: usize) -> Outcome {
    let inputs = vec![header.to_vec(), auxiliary.to_vec(), vec![0x55; payload]];
    asked(Operation::Seal, [0; 16], inputs, vec![room])
}

/// Document 02, 8, as a new user meets it: records of zeros with an address and an auxiliary header marked as present. They are
/// not sealed until the bits are set, and then the frame opens as sealed.
#[test]
fn a_zeroed_record_with_an_address_is_not_sealed() {
    let (ieee, payload) = ([1, 2, 3, 4, 5, 6, 7, 8], [0x55; 2]);
    let mut header = vec![0; HEADER_RECORD];
    header[25] = 1;
    header[26..34].copy_from_slice(&ieee);
    let mut auxiliary = record(AUXILIARY_RECORD, &[(0, 1)]);
    assert_eq!(written(&header, 2, 118), [28, 28]);
    assert_eq!(sealed(&header, &auxiliary, 2, 118).answer, 28 << 32);
    header[7] = 1;
    assert_eq!(written(&header, 2, 118), [0, 0]);
    assert_eq!(sealed(&header, &auxiliary, 2, 118).answer, 28 << 32);
    header[SECURITY] = 1;
    assert_eq!(sealed(&header, &auxiliary, 2, 118).answer, 16 + 6 + 2 + 4);
    auxiliary[HAS_IEEE] = 1;
    assert_eq!(sealed(&header, &auxiliary, 2, 118).answer, 28 << 32);
    auxiliary[EXTENDED_NONCE] = 1;
    let frame = sealed(&header, &auxiliary, 2, 118);
    assert_eq!(frame.answer, 16 + 14 + 2 + 4);
    let opened = open(frame.outputs[0][..frame.length()].to_vec());
    assert_eq!((opened.answer, opened.outputs[0][1], &opened.outputs[1][..2]), (2, 2, &payload[..]));
    assert_eq!(opened.outputs[0][16..16 + HEADER_RECORD], header);
    assert_eq!(opened.outputs[0][16 + HEADER_RECORD..], auxiliary);
}

/// Document 02, 8: each of the four bits, on without its field and off with it, is 28, after 13 and before 17 and 18. A source route of
/// no relays is present, and only sealing looks at bit 9.
#[test]
fn a_presence_bit_that_disagrees_is_28() {
    let too_long = [(5, 1), (36, 1), (37, 54), (6, 1), (16, 1)];
    assert_eq!(written(&record(HEADER_RECORD, &too_long), 0, 200), [17, 17]);
    assert_eq!(written(&record(HEADER_RECORD, &[&too_long[..], &[(3, 1)]].concat()), 0, 200), [28, 28]);
    for ((bit, field), on) in BITS.into_iter().flat_map(|places| [0, 1].map(|on| (places, on))) {
        let refusals = |has_field: u8, more: (usize, u8), payload: usize, room: usize| {
            written(&record(HEADER_RECORD, &[(bit, on), (field, has_field), more]), payload, room)
        };
        for security in [0, 1] {
            assert_eq!(refusals(1 - on, (SECURITY, security), 2, 118), [28, 28], "byte {bit}: {on}");
            assert_eq!(refusals(on, (SECURITY, security), 2, 118), [0, 0], "byte {bit}: {on}");
        }
        assert_eq!(refusals(1 - on, (1, 2), 109, 0), [28, 28], "before 17 and 18, byte {bit}: {on}");
        assert_eq!(refusals(1 - on, (1, 16), 2, 118), [13, 13], "after 13, byte {bit}: {on}");
    }
}

/// Document 02, 8: "28 for the header's bits, bit 9 among them when sealing, after 13 and before 14; 28 for the extended nonce bit,
/// after 14 and before 15." Bit 9 off without an auxiliary header is 28, bits that agree are 14; the extended nonce bit set without
/// an address anywhere is 28, not set it is 15. Both are before 21, 17 and 18.
#[test]
fn sealing_refuses_presence_bits_in_their_places() {
    let refusal = |header: &[(usize, u8)], auxiliary: &[(usize, u8)], payload: usize, room: usize| {
        sealed(&record(HEADER_RECORD, header), &record(AUXILIARY_RECORD, auxiliary), payload, room).refusal()
    };
    let (secured, present) = ((SECURITY, 1), (0, 1));
    let last = [COUNTER, COUNTER + 1, COUNTER + 2, COUNTER + 3].map(|at| (at, 0xFF));
    let with_last = |bytes: &[(usize, u8)]| [bytes, &last].concat();
    let agreeing = [present, (EXTENDED_NONCE, 1), (HAS_IEEE, 1)];
    assert_eq!(refusal(&[secured], &agreeing, 2, 118), 0);
    for off in [vec![], vec![secured, (3, 1)], vec![secured, (36, 1)], vec![secured, (6, 1)], vec![secured, (25, 1)]] {
        assert_eq!(refusal(&off, &[], 2, 118), 28, "before 14: {off:?}");
        assert_eq!(refusal(&off, &[present, (1, 8)], 2, 118), 13, "after 13: {off:?}");
        assert_eq!(refusal(&[&off[..], &[(9, 4)]].concat(), &agreeing, 2, 118), 13, "after 13: {off:?}");
        assert_eq!(refusal(&off, &[present], 2, 118), 28, "before 15: {off:?}");
        assert_eq!(refusal(&off, &with_last(&agreeing), 93, 0), 28, "before 21, 17 and 18: {off:?}");
    }
    assert_eq!(refusal(&[secured], &[], 2, 118), 14);
    for bytes in [[present, (EXTENDED_NONCE, 1)], [present, (HAS_IEEE, 1)]] {
        assert_eq!(refusal(&[secured], &bytes[1..], 2, 118), 14, "after 14: {bytes:?}");
        assert_eq!(refusal(&[secured], &[&bytes[..], &[(2, 4)]].concat(), 2, 118), 13, "after 13: {bytes:?}");
        assert_eq!(refusal(&[secured], &with_last(&bytes), 93, 0), 28, "before 15, 21, 17 and 18: {bytes:?}");
        let auxiliary = record(AUXILIARY_RECORD, &bytes);
        let alone = asked(Operation::WriteAuxiliary, [0; 16], vec![auxiliary], vec![14]);
        assert_eq!(alone.refusal(), 0, "the auxiliary header alone: {bytes:?}");
    }
    assert_eq!(refusal(&[secured], &[present], 2, 118), 15);
    assert_eq!(refusal(&[secured], &with_last(&[present]), 93, 0), 15);
}

#[test]
fn commands_are_typed_or_unparsed() {
    let leave = read_command("04 40");
    assert_eq!(leave[..4], [4, 0, 1, 0]);
    let cut = read_command("04");
    assert_eq!((cut[0], cut[426], cut[427]), (0, 1, 0x04));
    let timeout = read_command("0B 0E 00");
    assert_eq!(timeout[..3], [11, 14, 0]);
    let undeclared = read_command("0B 0F 00");
    assert_eq!((undeclared[0], &undeclared[426..430]), (0, &[3, 0x0B, 0x0F, 0x00][..]));
    let seconds = asked(Operation::TimeoutSeconds, [0; 16], vec![vec![14]], vec![]);
    assert_eq!(seconds.answer, 983_040);
}

#[test]
fn a_link_status_loses_its_reserved_bits() {
    let record = read_command("08 E1 34 12 B9");
    assert_eq!((record[0], record[1], record[2]), (8, 1, 1));
    assert_eq!(record[132..137], [1, 0x34, 0x12, 1, 3]);
    let written = asked(Operation::WriteCommand, [0; 16], vec![record], vec![5]);
    assert_eq!((written.answer, &written.outputs[0]), (5, &bytes("08 61 34 12 31")));
}

/// FIPS 197, appendix C.1.
#[test]
fn a_block_of_fips_197() {
    let key = std::array::from_fn(|i| i as u8);
    let block = bytes("00112233445566778899AABBCCDDEEFF");
    let outcome = asked(Operation::EncryptBlock, key, vec![block], vec![16]);
    assert_eq!(outcome.outputs[0], bytes("69C4E0D86A7B0430D8CDB78070B4C55A"));
}

/// Key, nonce, authenticated data, payload, ciphertext and tag: the first entries of NIST's VTT128.rsp with tags of 4, 8 and 16 bytes.
const OF_NIST: [[&str; 6]; 3] = [
    [
        "43b1a6bc8d0d22d6d1ca95c18593cca5",
        "9882578e750b9682c6ca7f8f86",
        "2084f3861c9ad0ccee7c63a7e05aece5db8b34bd8724cc06b4ca99a7f9c4914f",
        "a2b381c7d1545c408fe29817a21dc435a154c87256346b05",
        "cc69ed76985e0ed4c8365a72775e5a19bfccc71aeb116c85",
        "a8c74677",
    ],
    [
        "368f35a1f80eaaacd6bb136609389727",
        "842a8445847502ea77363a16b6",
        "34396dfcfa6f742aea7040976bd596497a7a6fa4fb85ee8e4ca394d02095b7bf",
        "1cccd55825316a94c5979e049310d1d717cdfb7624289dac",
        "1a58094f0e8c6035a5584bfa8d1009c5f78fd2ca487ff222",
        "f6d1d897d6051618",
    ],
    [
        "4189351b5caea375a0299e81c621bf43",
        "48c0906930561e0ab0ef4cd972",
        "40a27c1d1e23ea3dbe8056b2774861a4a201cce49f19997d19206d8c8a343951",
        "4535d12b4377928a7c0a61c9f825a48671ea05910748c8ef",
        "26c56961c035a7e452cce61bc6ee220d77b3f94d18fd10b6",
        "d80e8bf80f4a46cab06d4313f0db9be9",
    ],
];

#[test]
fn sealed_payloads_of_nist() {
    for (level, entry) in LEVELS.into_iter().zip(OF_NIST) {
        let [key, nonce, auth, payload, ciphertext, tag] = entry.map(bytes);
        let key: [u8; 16] = std::array::from_fn(|i| key[i]);
        let mic = [&tag[..], &vec![0; MIC_PLACES - tag.len()]].concat();
        let at_level = |operation, inputs, rooms| Call::new(operation, key, inputs, rooms).at(level.number);
        let inputs = vec![nonce.clone(), auth.clone(), payload.clone()];
        let sealed = compare(&at_level(Operation::EncryptCcm, inputs, vec![24, MIC_PLACES]), FILL, 0x96);
        assert_eq!((sealed.answer, &sealed.outputs), (24, &vec![ciphertext.clone(), mic.clone()]));
        let inputs = vec![nonce, auth, ciphertext, mic];
        let opened = compare(&at_level(Operation::DecryptCcm, inputs, vec![24]), FILL, 0x96);
        assert_eq!((opened.answer, &opened.outputs[0]), (24, &payload));
    }
}
