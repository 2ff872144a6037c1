//! The safe types and the C functions say the same of generated inputs: the same refusal, or values that are written and
//! sealed as the C functions' own records are.
#[allow(dead_code)]
mod support;

use store_reader::{
    decrypt_ccm, encrypt_block, encrypt_ccm, open, open_burst, read, seal, split_mic, timeout_seconds, write, Burst,
    Eui64, Key, Level, Network, Nwk, NwkAuxHeader, NwkCommand, NwkFrameType, NwkHeader, NwkPayload, Opened,
    OpenedRecord, Refusal,
};
use support::calls::{lengths_of, perform, Call, Outcome};
use support::generate::{self, NO_LEVELS};
use support::model::{MAX_FRAME, MAX_PAYLOAD};
use support::operations::{
    Operation, AUXILIARY_RECORD, COMMAND_RECORD, HEADER_RECORD, MIC_PLACES, NUMBER, OPENED_HEADER, OPENED_NONCE_IEEE,
    OPENED_RECORD,
};
use support::random::Random;

const SEED: u64 = 0x5AFE_7E57;
const ROUNDS: usize = 4_000;
const FILL: u8 = 0xA5;

/// The generated inputs of an operation, as many as there are rounds, and how many of them the check says were accepted.
fn accepted(operation: Operation, check: impl Fn(&Call) -> bool) -> usize {
    let mut random = Random::new(SEED);
    (0..ROUNDS).filter(|number| check(&generate::call(operation, *number, &mut random).call)).count()
}

/// The network of a call: its key, and its level, or 5 where that is none, which the types cannot say.
fn of(call: &Call) -> Network {
    Network::new(Key::new(call.key)).with_level(Level::from_number(call.level).unwrap_or_default())
}

fn raw(operation: Operation, network: &Network, inputs: &[&[u8]], rooms: &[usize]) -> Outcome {
    let inputs = inputs.iter().map(|input| input.to_vec()).collect();
    let call = Call::new(operation, *network.key.bytes(), inputs, rooms.to_vec()).at(network.level);
    perform(&call, FILL, 0x3C)
}

/// Whether both accept; they must refuse by the same number.
fn agree<T>(safe: &Result<T, Refusal>, raw: &Outcome, call: &Call) -> bool {
    let number = safe.as_ref().err().map_or(0, |refusal| refusal.number());
    assert_eq!(number, raw.refusal(), "{}", call.line());
    number == 0
}

/// What a safe writer left in an output of this room is what the C function left, refused or not.
fn same_written(
    safe: impl Fn(&mut [u8]) -> Result<usize, Refusal>,
    operation: Operation,
    network: &Network,
    inputs: &[&[u8]],
    room: usize,
) {
    let outcome = raw(operation, network, inputs, &[room]);
    let mut out = vec![FILL; room];
    let written = safe(&mut out);
    let number = written.err().map_or(0, |refusal| refusal.number());
    assert_eq!((number, written.unwrap_or(0)), (outcome.refusal(), outcome.length()), "{operation:?} {inputs:02X?}");
    assert_eq!(out, outcome.outputs[0], "{operation:?} {inputs:02X?}");
}

#[test]
fn headers() {
    let count = accepted(Operation::ReadHeader, |call| {
        let outcome = raw(Operation::ReadHeader, &of(call), &[&call.inputs[0]], &[HEADER_RECORD]);
        let safe = NwkHeader::read(&call.inputs[0]);
        if !agree(&safe, &outcome, call) {
            return false;
        }
        let (header, n) = safe.expect("accepted");
        assert_eq!(n, outcome.length());
        for room in [n, n.saturating_sub(1), MAX_FRAME] {
            same_written(|out| header.write(out), Operation::WriteHeader, &of(call), &[&outcome.outputs[0]], room);
        }
        true
    });
    assert!(count > ROUNDS / 4, "{count}");
}

#[test]
fn auxiliary_headers() {
    let count = accepted(Operation::ReadAuxiliary, |call| {
        let outcome = raw(Operation::ReadAuxiliary, &of(call), &[&call.inputs[0]], &[AUXILIARY_RECORD]);
        let safe = NwkAuxHeader::read(&call.inputs[0]);
        if !agree(&safe, &outcome, call) {
            return false;
        }
        let (auxiliary, n) = safe.expect("accepted");
        assert_eq!(n, outcome.length());
        for room in [n, n - 1] {
            same_written(
                |out| auxiliary.write(out),
                Operation::WriteAuxiliary,
                &of(call),
                &[&outcome.outputs[0]],
                room,
            );
        }
        true
    });
    assert!(count > ROUNDS / 4, "{count}");
}

#[test]
fn frames_read_and_written() {
    let count = accepted(Operation::ReadFrame, |call| {
        let bytes = &call.inputs[0];
        let outcome = raw(Operation::ReadFrame, &of(call), &[bytes], &[HEADER_RECORD, AUXILIARY_RECORD]);
        let safe = read(bytes);
        if !agree(&safe, &outcome, call) {
            return false;
        }
        let frame = safe.expect("accepted");
        assert_eq!(frame.rest, &bytes[outcome.length()..]);
        let [header, auxiliary] = [&outcome.outputs[0], &outcome.outputs[1]];
        same_written(
            |out| write(&frame.header, frame.rest, out),
            Operation::WriteFrame,
            &of(call),
            &[header, frame.rest],
            118,
        );
        let network = of(call);
        same_written(
            |out| seal(&network, &frame.header, frame.auxiliary.as_ref(), frame.rest, out),
            Operation::Seal,
            &of(call),
            &[header, auxiliary, frame.rest],
            MAX_FRAME,
        );
        true
    });
    assert!(count > ROUNDS / 4, "{count}");
}

/// A sealed frame's payload is the front of the output, its nonce's address is the record's and that of its headers, and sealing it
/// writes what the C function writes of its records.
#[test]
fn sealed_frames_opened() {
    let count = accepted(Operation::Open, |call| {
        let outcome = raw(Operation::Open, &of(call), &[&call.inputs[0]], &[OPENED_RECORD, MAX_PAYLOAD]);
        let network = of(call);
        let mut out = [FILL; MAX_PAYLOAD];
        let place = out.as_ptr();
        let safe = open(&network, &call.inputs[0], &mut out);
        let is_sealed = agree(&safe, &outcome, call) && !outcome.clear();
        let sealed = safe.ok().and_then(Opened::sealed);
        assert_eq!(sealed.is_some(), is_sealed, "{}", call.line());
        if let Some(frame) = sealed {
            let (header, auxiliary) = outcome.outputs[0][OPENED_HEADER..].split_at(HEADER_RECORD);
            assert_eq!((frame.payload, frame.payload.as_ptr()), (&outcome.outputs[1][..outcome.length()], place));
            assert_eq!(frame.nonce_ieee.0[..], outcome.outputs[0][OPENED_NONCE_IEEE]);
            assert_eq!(Some(frame.nonce_ieee), frame.auxiliary.extended_source.or(frame.header.source_ieee));
            same_written(
                |out| seal(&network, &frame.header, Some(&frame.auxiliary), frame.payload, out),
                Operation::Seal,
                &of(call),
                &[header, auxiliary, frame.payload],
                MAX_FRAME,
            );
        }
        assert_eq!(out[..], outcome.outputs[1]);
        is_sealed
    });
    assert!(count > ROUNDS / 5, "{count}");
}

/// A clear frame's payload is the end of the frame itself, whatever the output, and writing it gives the frame's bytes again.
#[test]
fn clear_frames_opened() {
    let count = accepted(Operation::Open, |call| {
        let (bytes, network) = (&call.inputs[0][..], of(call));
        [0, MAX_PAYLOAD].map(|room| opened_clear(&network, bytes, room, call)) == [true; 2]
    });
    assert!(count > ROUNDS / 12, "{count}");
}

/// Whether a frame opens as clear with this room; the C function says the same.
fn opened_clear(network: &Network, bytes: &[u8], room: usize, call: &Call) -> bool {
    let outcome = raw(Operation::Open, &of(call), &[bytes], &[OPENED_RECORD, room]);
    let mut out = vec![FILL; room];
    let safe = open(network, bytes, &mut out);
    agree(&safe, &outcome, call);
    let Some(frame) = safe.ok().and_then(Opened::clear) else {
        assert!(!outcome.clear(), "{}", call.line());
        return false;
    };
    assert!(outcome.clear(), "{}", call.line());
    assert_eq!(frame.payload.as_ptr_range().end, bytes.as_ptr_range().end, "{}", call.line());
    assert_eq!(frame.payload.len(), outcome.length(), "{}", call.line());
    let mut written = [FILL; MAX_FRAME];
    let n = write(&frame.header, frame.payload, &mut written).expect("what was read can be written");
    assert_eq!(&written[..n], bytes, "{}", call.line());
    assert!(out.iter().all(|byte| *byte == FILL), "{}", call.line());
    true
}

/// A burst is refused as over C, and each of its frames is what `open` gives for it alone, the payload in its own part if it
/// was sealed, in its own bytes if it was clear.
#[test]
fn bursts_opened() {
    let count = accepted(Operation::OpenBurst, |call| {
        let outcome = raw(Operation::OpenBurst, &of(call), &[&call.inputs[0], &call.inputs[1]], &call.rooms);
        let network = of(call);
        let lengths = lengths_of(&call.inputs[1]);
        let numbers: Vec<u16> = lengths.iter().map(|&length| length as u16).collect();
        let mut answers = vec![OpenedRecord::new(); call.rooms[0] / OPENED_RECORD];
        let mut out = vec![FILL; call.rooms[1]];
        let parts = out.as_ptr();
        let safe = open_burst(&network, &call.inputs[0], &numbers, &mut answers, &mut out);
        let accepted = agree(&safe, &outcome, call);
        if let Ok(frames) = safe {
            assert_eq!(frames.len(), outcome.length());
            same_as_alone(&network, frames, &call.inputs[0], &lengths, parts);
        }
        assert_eq!(out, outcome.outputs[1], "{}", call.line());
        accepted
    });
    assert!(count > ROUNDS / 4, "{count}");
}

/// Each frame of a burst beside `open` of its bytes alone. A sealed payload starts at its part, a clear one ends with its frame.
fn same_as_alone(network: &Network, mut frames: Burst<'_>, mut rest: &[u8], lengths: &[usize], parts: *const u8) {
    for (k, &length) in lengths.iter().enumerate() {
        let (bytes, behind) = rest.split_at(length);
        rest = behind;
        let mut part = [FILL; MAX_PAYLOAD];
        let (from_burst, alone) = (frames.next().expect("a frame for each length"), open(network, bytes, &mut part));
        assert_eq!(from_burst, alone, "frame {k}: {bytes:02X?}");
        match from_burst {
            Ok(Opened::Sealed(frame)) => {
                assert_eq!(frame.payload.as_ptr(), parts.wrapping_add(MAX_PAYLOAD * k), "frame {k}");
            }
            Ok(Opened::Clear(frame)) => {
                assert_eq!(frame.payload.as_ptr_range().end, bytes.as_ptr_range().end, "frame {k}");
            }
            Err(_) => {}
        }
        assert_eq!(frames.len(), lengths.len() - 1 - k);
    }
    assert_eq!((frames.next(), frames.next()), (None, None));
}

/// A frame of 8 bytes of header with the security bit off, and so many bytes of payload.
fn clear_bytes(payload: usize) -> Vec<u8> {
    let mut frame = vec![0x08, 0x00, 0x00, 0x00, 0x34, 0x12, 0x1E, 0x07];
    frame.resize(8 + payload, 0xAA);
    frame
}

/// A sealed frame around a payload.
fn sealed_bytes(network: &Network, counter: u32, payload: &[u8]) -> Vec<u8> {
    let header = NwkHeader::new(NwkFrameType::Data, Nwk(0x1234), Nwk(0)).secured();
    let mut frame = vec![0; MAX_FRAME];
    let auxiliary = NwkAuxHeader::new(counter, Eui64([1, 2, 3, 4, 5, 6, 7, 8]));
    let n = seal(network, &header, Some(&auxiliary), payload, &mut frame).expect("a frame");
    frame.truncate(n);
    frame
}

/// By document 02 a clear frame does not touch the output, which may be shorter than the payload or empty.
#[test]
fn a_clear_frame_needs_no_output() {
    let network = Network::new(Key::new([7; 16]));
    for (payload, room) in [(0, 0), (0, 1), (1, 0), (108, 0), (108, 107), (108, 109)] {
        let bytes = clear_bytes(payload);
        let mut out = vec![FILL; room];
        let opened = open(&network, &bytes, &mut out).expect("a clear frame");
        assert_eq!((opened.header().source, opened.header().sequence_number), (Nwk(0x1234), 7));
        assert_eq!(opened.clone().sealed(), None);
        let frame = opened.clear().expect("a clear frame");
        assert_eq!(frame.payload.as_ptr_range(), bytes[8..].as_ptr_range(), "{payload} bytes");
        assert!(out.iter().all(|byte| *byte == FILL), "{payload} bytes");
    }
    let sealed = sealed_bytes(&network, 1, b"grain");
    assert_eq!(open(&network, &sealed, &mut [0; 4]), Err(Refusal::NO_ROOM));
    let mut out = [FILL; 5];
    let opened = open(&network, &sealed, &mut out).expect("a sealed frame");
    assert_eq!((opened.clone().clear(), opened.header().source), (None, Nwk(0x1234)));
    assert_eq!(opened.sealed().map(|frame| frame.payload), Some(&b"grain"[..]));
}

/// Clear and sealed frames, a damaged and an empty one: the clear ones' parts stay, and theirs are bytes of the burst.
#[test]
fn a_burst_of_clear_and_sealed_frames() {
    let network = Network::new(Key::new([7; 16]));
    let mut damaged = sealed_bytes(&network, 1, b"21.5 C");
    *damaged.last_mut().expect("a byte") ^= 1;
    let sealed = [sealed_bytes(&network, 2, b"21.7 C"), sealed_bytes(&network, 3, b"")];
    let all = [&clear_bytes(0), &sealed[0], &clear_bytes(108), &damaged, &vec![], &clear_bytes(3), &sealed[1]]
        .map(Vec::clone);
    let frames = all.concat();
    let lengths: Vec<u16> = all.iter().map(|frame| frame.len() as u16).collect();
    let ends: Vec<usize> = (1..=all.len()).map(|n| all[..n].concat().len()).collect();
    let (mut answers, mut out) = ([OpenedRecord::new(); 7], [FILL; 7 * MAX_PAYLOAD]);
    let burst = open_burst(&network, &frames, &lengths, &mut answers, &mut out).expect("a burst");
    let places: Vec<_> = burst
        .map(|answer| match answer {
            Ok(Opened::Sealed(frame)) => Ok((frame.payload.to_vec(), None)),
            Ok(Opened::Clear(frame)) => Ok((frame.payload.to_vec(), Some(frame.payload.as_ptr_range()))),
            Err(refusal) => Err(refusal),
        })
        .collect();
    let clear = |k: usize, n: usize| Ok((vec![0xAA; n], Some(frames[ends[k] - n..ends[k]].as_ptr_range())));
    let expected = [
        clear(0, 0),
        Ok((b"21.7 C".to_vec(), None)),
        clear(2, 108),
        Err(Refusal::WRONG_MIC),
        Err(Refusal::SHORT_HEADER),
        clear(5, 3),
        Ok((Vec::new(), None)),
    ];
    assert_eq!(places, expected);
    let mut parts = [FILL; 7 * MAX_PAYLOAD];
    parts[MAX_PAYLOAD..][..6].copy_from_slice(b"21.7 C");
    assert_eq!(out, parts);
}

/// What is still to come can be counted, copied and printed.
#[test]
fn a_burst_is_an_iterator_that_can_be_copied() {
    let network = Network::new(Key::new([7; 16]));
    let (mut answers, mut out) = ([OpenedRecord::default(); 3], [FILL; 3 * MAX_PAYLOAD]);
    let mut frames = open_burst(&network, &[0x0A; 9], &[0, 9], &mut answers, &mut out).expect("two frames");
    assert_eq!(format!("{frames:?}"), "[Err(SHORT_HEADER(2)), Err(FRAME_TYPE(3))]");
    assert_eq!(frames.next(), Some(Err(Refusal::SHORT_HEADER)));
    let copy = frames.clone();
    assert_eq!(frames.next(), Some(Err(Refusal::FRAME_TYPE)));
    assert_eq!((frames.len(), copy.len(), copy.count()), (0, 1, 1));
    assert_eq!(format!("{frames:?} {:?}", OpenedRecord::new()), "[] OpenedRecord { .. }");
}

#[test]
fn commands() {
    let count = accepted(Operation::ReadCommand, |call| {
        let outcome = raw(Operation::ReadCommand, &of(call), &[&call.inputs[0]], &[COMMAND_RECORD]);
        let safe = NwkCommand::read(&call.inputs[0]);
        if !agree(&safe, &outcome, call) {
            return false;
        }
        let command = safe.expect("accepted");
        same_written(|out| command.write(out), Operation::WriteCommand, &of(call), &[&outcome.outputs[0]], MAX_PAYLOAD);
        true
    });
    assert!(count > ROUNDS / 4, "{count}");
}

#[test]
fn timeout_codes() {
    for code in 0..=255 {
        let outcome = raw(Operation::TimeoutSeconds, &Network::new(Key::new([0; 16])), &[&[code]], &[]);
        match timeout_seconds(code) {
            Ok(seconds) => assert_eq!((outcome.refusal(), outcome.length()), (0, seconds as usize)),
            Err(refusal) => assert_eq!(outcome.refusal(), refusal.number()),
        }
    }
}

/// The frame types of the crate are those that the C function takes.
#[test]
fn payload_kinds() {
    for code in 0..=255 {
        let outcome = raw(Operation::PayloadKind, &Network::new(Key::new([0; 16])), &[&[code]], &[]);
        match NwkFrameType::from_code(code).map(NwkFrameType::payload) {
            Some(kind) => {
                let expected = if outcome.length() == 1 { NwkPayload::Command } else { NwkPayload::Opaque };
                assert_eq!((outcome.refusal(), kind), (0, Ok(expected)), "type {code}");
            }
            None => assert_eq!(outcome.refusal(), 13, "type {code}"),
        }
    }
}

#[test]
fn ccm_and_blocks() {
    let mut random = Random::new(SEED);
    for (level, n) in Level::ALL.into_iter().flat_map(|level| (0..=130).map(move |n| (level, n))) {
        let network = Network::new(Key::new(random.array())).with_level(level);
        let (nonce, block) = (random.array::<13>(), random.array::<16>());
        let (auth, payload) = (random.bytes(n % 41), random.bytes(n));
        let sealed = raw(Operation::EncryptCcm, &network, &[&nonce, &auth, &payload], &[n, MIC_PLACES]);
        let mut out = vec![FILL; n];
        match encrypt_ccm(&network, &nonce, &auth, &payload, &mut out) {
            Ok((length, mic)) => {
                assert_eq!((sealed.refusal(), length, &mic[..]), (0, n, &sealed.outputs[1][..]));
                let mut back = vec![FILL; n];
                assert_eq!(decrypt_ccm(&network, &nonce, &auth, &out, &mic, &mut back), Ok(n));
                assert_eq!(back, payload);
                let wrong = mic.map(|byte| !byte);
                let refused = decrypt_ccm(&network, &nonce, &auth, &out, &wrong, &mut back);
                assert_eq!(refused.unwrap_err().number(), 19);
            }
            Err(refusal) => assert_eq!((refusal.number(), n > 127), (sealed.refusal(), true)),
        }
        assert_eq!(out, sealed.outputs[0]);
        let one = raw(Operation::EncryptBlock, &network, &[&block], &[16]);
        assert_eq!(encrypt_block(&network.key, &block)[..], one.outputs[0]);
        split(&network, &payload);
    }
}

/// The MIC split off bytes, as over C.
fn split(network: &Network, bytes: &[u8]) {
    let (n, mic_length) = (bytes.len(), network.level.mic_length());
    let split = raw(Operation::SplitMic, network, &[bytes], &[MIC_PLACES, NUMBER]);
    match split_mic(network.level, bytes) {
        Ok((ciphertext, mic)) => {
            assert_eq!((split.refusal(), split.length(), ciphertext), (0, mic_length, &bytes[..n - mic_length]));
            assert_eq!((&mic[..], &ciphertext.len().to_le_bytes()[..]), (&split.outputs[0][..], &split.outputs[1][..]));
        }
        Err(refusal) => assert_eq!((refusal.number(), n < mic_length), (split.refusal(), true)),
    }
}

/// The numbers that are levels are those that the C functions take, and others are refused by the same number.
#[test]
fn levels() {
    for number in (0..=300).chain(NO_LEVELS) {
        let call = Call::new(Operation::SplitMic, [0; 16], vec![vec![0; 16]], vec![MIC_PLACES, NUMBER]).at(number);
        let outcome = perform(&call, FILL, 0x3C);
        match Level::from_number(number) {
            Ok(level) => {
                let length = level.mic_length();
                assert_eq!((u64::from(level), outcome.refusal(), outcome.length()), (number, 0, length));
                assert_eq!(level.to_string().parse(), Ok(level));
            }
            Err(refusal) => assert_eq!((refusal, outcome.refusal()), (Refusal::LEVEL, refusal.number())),
        }
    }
    for text in ["", "4", "8", "05", "+5", "5 ", "55", "0x5", "five"] {
        assert_eq!(text.parse::<Level>(), Err(Refusal::LEVEL), "{text:?}");
    }
    assert_eq!(Level::default(), Network::new(Key::new([0; 16])).level);
}

/// Document 01: `split_mic` has no upper limit. Pages that nobody touches cost no memory.
#[test]
fn a_ciphertext_of_more_than_32_bits_is_split_too() {
    let n = (1 << 32) + 4;
    let mut bytes = vec![0; n];
    bytes[n - 4..].copy_from_slice(&[1, 2, 3, 4]);
    let (ciphertext, mic) = split_mic(Level::EncMic32, &bytes).unwrap();
    assert_eq!((ciphertext.len(), &mic[..4]), (1 << 32, &[1, 2, 3, 4][..]));
}
