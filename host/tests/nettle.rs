//! AES, CCM, sealed frames and bursts at each level compared with the model's, and with the library nettle where it is installed.
#[allow(dead_code)]
mod support;

use std::io::Write;
use std::sync::Once;
use support::calls::{check_boundary, length_of, list_of, payload_of, perform, Call, Outcome, SECURITY_BIT};
use support::generate::headers::{agree, auxiliary, header, plain_header};
use support::generate::sealed::ccm_inputs;
use support::model::auxiliary::{record as auxiliary_record, Auxiliary};
use support::model::level::{Level, FIVE, LEVELS};
use support::model::{aes, ccm, frame, header as model_header, LAST_COUNTER, MAX_CCM, MAX_FRAME};
use support::nettle::Nettle;
use support::operations::{
    Operation, AUXILIARY_COUNTER, HEADER_RECORD, MARK_CLEAR, MARK_SEALED, MAX_BURST, MIC_PLACES, OPENED_HEADER,
    OPENED_MARK, OPENED_RECORD, PART,
};
use support::random::Random;

const SEED: u64 = 0x0E77_1E00;
const ROUNDS: usize = 5_000;
const FILL: u8 = 0xA5;

/// The library. Where it is missing, one line on the standard error itself says so.
fn nettle() -> Option<Nettle> {
    static SAID: Once = Once::new();
    let nettle = Nettle::load();
    if nettle.is_none() {
        SAID.call_once(|| {
            let _ = writeln!(std::io::stderr(), "nettle is not installed: skipped, compared with the model only");
        });
    }
    nettle
}

fn made(operation: Operation, level: Level, key: [u8; 16], inputs: Vec<Vec<u8>>, rooms: Vec<usize>) -> Outcome {
    let call = Call::new(operation, key, inputs, rooms).at(level.number);
    let outcome = perform(&call, FILL, 0xC3);
    check_boundary(&call, &outcome, FILL);
    outcome
}

#[test]
fn one_block_is_encrypted_as_by_nettle() {
    let nettle = nettle();
    let mut random = Random::new(SEED);
    for _ in 0..ROUNDS {
        let (key, block) = (random.array(), random.array());
        let expected = aes::encrypt(&key, &block);
        if let Some(nettle) = &nettle {
            assert_eq!(nettle.block(&key, &block), expected);
        }
        let outcome = made(Operation::EncryptBlock, FIVE, key, vec![block.to_vec()], vec![16]);
        assert_eq!(outcome.answer, 16);
        assert_eq!(outcome.outputs[0], expected);
    }
}

#[test]
fn ccm_alone_is_that_of_nettle() {
    let nettle = nettle();
    let mut random = Random::new(SEED + 1);
    for round in 0..ROUNDS {
        let (level, key) = (LEVELS[round % 3], random.array());
        let mut inputs = ccm_inputs(Some(round / 3 % (MAX_CCM + 1)), &mut random);
        inputs.iter_mut().for_each(|input| input.truncate(MAX_CCM));
        let sealed = compare_sealing(nettle.as_ref(), level, key, &inputs);
        let damaged = random.percent(30).then(|| random.below(8 * sealed.len()));
        compare_opening(nettle.as_ref(), level, key, &inputs, sealed, damaged);
    }
}

/// Seals nonce, authenticated data and payload; gives ciphertext and MIC, behind which the places are 0.
fn compare_sealing(nettle: Option<&Nettle>, level: Level, key: [u8; 16], inputs: &[Vec<u8>]) -> Vec<u8> {
    let [nonce, auth, payload] = [&inputs[0], &inputs[1], &inputs[2]];
    let (ciphertext, mic) = ccm::encrypt(level.mic, &key, nonce, auth, payload);
    let expected = [ciphertext, mic].concat();
    if let Some(nettle) = nettle {
        assert_eq!(nettle.ccm_encrypt(level.mic, &key, nonce, auth, payload), expected);
    }
    let sealed = made(Operation::EncryptCcm, level, key, inputs.to_vec(), vec![payload.len(), MIC_PLACES]);
    assert_eq!(sealed.answer, payload.len() as u64);
    assert_eq!(sealed.outputs.concat(), [&expected[..], &vec![0; MIC_PLACES - level.mic]].concat());
    expected
}

/// Opens what was sealed, perhaps with one bit flipped, which is then refused.
fn compare_opening(
    nettle: Option<&Nettle>,
    level: Level,
    key: [u8; 16],
    inputs: &[Vec<u8>],
    mut sealed: Vec<u8>,
    flipped: Option<usize>,
) {
    let [nonce, auth, payload] = [&inputs[0], &inputs[1], &inputs[2]];
    if let Some(bit) = flipped {
        sealed[bit / 8] ^= 1 << (bit % 8);
    }
    let expected = flipped.is_none().then(|| payload.clone());
    if let Some(nettle) = nettle {
        assert_eq!(nettle.ccm_decrypt(level.mic, &key, nonce, auth, &sealed), expected);
    }
    let (ciphertext, mic) = sealed.split_at(payload.len());
    let mic = [mic, &vec![FILL; MIC_PLACES - level.mic]].concat();
    let inputs = vec![nonce.clone(), auth.clone(), ciphertext.to_vec(), mic];
    let opened = made(Operation::DecryptCcm, level, key, inputs, vec![payload.len()]);
    assert_eq!(opened.refusal(), if flipped.is_some() { 19 } else { 0 });
    assert_eq!(opened.outputs[0], expected.unwrap_or(vec![FILL; payload.len()]));
}

#[test]
fn sealed_frames_carry_the_ciphertext_of_nettle() {
    let nettle = nettle();
    let mut random = Random::new(SEED + 2);
    let mut compared = [0; 3];
    for round in 0..ROUNDS {
        let level = LEVELS[round % 3];
        let (key, header, auxiliary) = (random.array(), header(100, &mut random), auxiliary(&mut random));
        let n = random.below(60);
        let payload = random.bytes(n);
        let inputs = vec![header.record(), auxiliary_record(&Some(auxiliary.clone())), payload.clone()];
        let sealed = made(Operation::Seal, level, key, inputs, vec![MAX_FRAME]);
        let Some(ieee) = frame::nonce_ieee(&header, &auxiliary) else {
            assert_eq!(sealed.refusal(), 15);
            continue;
        };
        if auxiliary.counter == LAST_COUNTER {
            assert_eq!(sealed.refusal(), 21);
            continue;
        }
        if sealed.refusal() == 17 {
            continue;
        }
        assert_eq!(sealed.refusal(), 0);
        let (nonce, auth) = (frame::nonce(level, &auxiliary, &ieee), frame::authenticated(level, &header, &auxiliary));
        let (ciphertext, mic) = ccm::encrypt(level.mic, &key, &nonce, &auth, &payload);
        let expected = [ciphertext, mic].concat();
        if let Some(nettle) = &nettle {
            assert_eq!(nettle.ccm_encrypt(level.mic, &key, &nonce, &auth, &payload), expected);
        }
        assert_eq!(sealed.outputs[0][auth.len()..sealed.length()], expected);
        compared[round % 3] += 1;
    }
    println!("{compared:?} sealed frames compared at levels 5, 6 and 7");
    assert!(compared.iter().all(|frames| *frames >= ROUNDS / 6), "{compared:?}");
}

/// A frame as nettle seals it, or the model where nettle is missing, and its payload; with this counter, or any.
fn sealed_outside(
    nettle: Option<&Nettle>,
    level: Level,
    key: &[u8; 16],
    counter: Option<[u8; 4]>,
    random: &mut Random,
) -> (Vec<u8>, Vec<u8>) {
    loop {
        let (header, mut auxiliary) = (header(100, random), auxiliary(random));
        auxiliary.counter = counter.unwrap_or(auxiliary.counter);
        let n = random.below(60);
        let payload = random.bytes(n);
        let Some(ieee) = frame::nonce_ieee(&header, &auxiliary) else {
            continue;
        };
        let mut bytes = frame::seal(level, key, &header, &auxiliary, &ieee, &payload);
        if bytes.len() > MAX_FRAME {
            continue;
        }
        if let Some(nettle) = nettle {
            let nonce = frame::nonce(level, &auxiliary, &ieee);
            let auth = frame::authenticated(level, &header, &auxiliary);
            bytes.truncate(auth.len());
            bytes.extend(nettle.ccm_encrypt(level.mic, key, &nonce, &auth, &payload));
        }
        return (bytes, payload);
    }
}

/// Frames of another CCM at each level, with payloads of every length that fits: one long address, in either header. They open to their
/// payload, and what opening gave is sealed to their bytes. "With one long address the largest payloads are 92, 88 and 80", and one
/// byte more is 17.
#[test]
fn payloads_of_every_length_at_each_level() {
    let nettle = nettle();
    let mut random = Random::new(SEED + 5);
    for (level, largest) in LEVELS.into_iter().zip([92, 88, 80]) {
        for n in 0..=largest + 1 {
            let (key, ieee, payload) = (random.array(), random.array(), random.bytes(n));
            let in_header = n % 2 == 0;
            let header = model_header::Header { source_ieee: in_header.then_some(ieee), ..plain_header(&mut random) };
            let header = secured(header);
            let auxiliary = Auxiliary {
                extended_nonce: !in_header,
                ieee: (!in_header).then_some(ieee),
                counter: [n as u8, 1, 0, 0],
                level: 0,
                ..auxiliary(&mut random)
            };
            let inputs = vec![header.record(), auxiliary_record(&Some(auxiliary.clone())), payload.clone()];
            let sealed = made(Operation::Seal, level, key, inputs, vec![MAX_FRAME]);
            if n > largest {
                assert_eq!(sealed.answer, 17 << 32, "{n} bytes at level {}", level.number);
                continue;
            }
            let (nonce, auth) =
                (frame::nonce(level, &auxiliary, &ieee), frame::authenticated(level, &header, &auxiliary));
            let mut expected = frame::seal(level, &key, &header, &auxiliary, &ieee, &payload);
            if let Some(nettle) = &nettle {
                expected.truncate(auth.len());
                expected.extend(nettle.ccm_encrypt(level.mic, &key, &nonce, &auth, &payload));
            }
            assert_eq!(sealed.outputs[0][..sealed.length()], expected, "{n} bytes at level {}", level.number);
            let opened = made(Operation::Open, level, key, vec![expected], vec![OPENED_RECORD, n]);
            assert_eq!((opened.answer, &opened.outputs[1]), (n as u64, &payload));
        }
    }
}

/// A header with its security bit, and its presence bits as its fields are.
fn secured(mut header: model_header::Header) -> model_header::Header {
    agree(&mut header);
    header.bits[model_header::SECURITY] = true;
    header
}

/// "Opening still accepts the old one": frames that were sealed outside with the last counter open to their payload, marked
/// sealed, and sealing what was given is refused by 21 (document 02, request 4).
#[test]
fn frames_of_the_last_counter_sealed_by_nettle_are_opened() {
    let nettle = nettle();
    let mut random = Random::new(SEED + 4);
    for round in 0..ROUNDS / 10 {
        let (level, key) = (LEVELS[round % 3], random.array());
        let (bytes, payload) = sealed_outside(nettle.as_ref(), level, &key, Some(LAST_COUNTER), &mut random);
        let opened = made(Operation::Open, level, key, vec![bytes], vec![OPENED_RECORD, payload.len()]);
        assert_eq!((opened.answer, opened.outputs[0][OPENED_MARK]), (payload.len() as u64, MARK_SEALED));
        assert_eq!(opened.outputs[1], payload);
        let (header, auxiliary) = opened.outputs[0][OPENED_HEADER..].split_at(HEADER_RECORD);
        assert_eq!(auxiliary[AUXILIARY_COUNTER], LAST_COUNTER);
        let inputs = vec![header.to_vec(), auxiliary.to_vec(), payload];
        assert_eq!(made(Operation::Seal, level, key, inputs, vec![MAX_FRAME]).answer, 21 << 32);
    }
}

/// A frame of a burst, the mark that it must have, and its payload: sealed outside; with a bit of ciphertext or MIC flipped,
/// which is refused; or with its security bit off, which is clear, all behind the header being payload.
fn sent(nettle: Option<&Nettle>, level: Level, key: &[u8; 16], random: &mut Random) -> (Vec<u8>, u8, Vec<u8>) {
    let (mut bytes, payload) = sealed_outside(nettle, level, key, None, random);
    match random.below(8) {
        0 | 1 => {
            let last = bytes.len() - 1 - random.below(payload.len() + level.mic);
            bytes[last] ^= 1 << random.below(8);
            (bytes, 0, Vec::new())
        }
        2 => {
            bytes[1] &= !SECURITY_BIT;
            let (_, front) = model_header::read(&bytes).expect("a header");
            let behind = bytes[front..].to_vec();
            (bytes, MARK_CLEAR, behind)
        }
        _ => (bytes, MARK_SEALED, payload),
    }
}

/// Bursts of frames that were sealed outside, some damaged and some turned to clear ones: each has its mark and its payload.
#[test]
fn bursts_sealed_by_nettle_are_opened() {
    let nettle = nettle();
    let mut random = Random::new(SEED + 3);
    let mut marks = [0; 3];
    for round in 0..ROUNDS / 10 {
        let (level, key, count) = (LEVELS[round % 3], random.array(), round % (MAX_BURST + 1));
        let sent: Vec<_> = (0..count).map(|_| sent(nettle.as_ref(), level, &key, &mut random)).collect();
        let frames: Vec<u8> = sent.iter().flat_map(|(bytes, _, _)| bytes.clone()).collect();
        let lengths: Vec<u16> = sent.iter().map(|(bytes, _, _)| bytes.len() as u16).collect();
        let inputs = vec![frames, list_of(&lengths)];
        let opened = made(Operation::OpenBurst, level, key, inputs, vec![OPENED_RECORD * count, PART * count]);
        assert_eq!(opened.answer, count as u64);
        for ((record, part), (bytes, mark, payload)) in opened.frames().zip(&sent) {
            let number = if *mark == 0 { 19 } else { 0 };
            assert_eq!((record[0], record[OPENED_MARK], length_of(record)), (number, *mark, payload.len()));
            assert_eq!(payload_of(record, bytes, part), payload);
            marks[usize::from(*mark)] += 1;
        }
    }
    println!("frames of bursts: {} refused, {} clear, {} sealed", marks[0], marks[1], marks[2]);
    assert!(marks[0] >= ROUNDS / 10 && marks[1] >= ROUNDS / 20 && marks[2] >= ROUNDS / 4, "{marks:?}");
}
