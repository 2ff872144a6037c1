//! Any bytes at all, into the safe operations and into the command: nothing panics, and what was accepted can be handed on.
#[allow(dead_code)]
mod support;

use std::fs;
use store_reader::{
    decrypt_ccm, encrypt_ccm, hex, open, open_burst, read, seal, split_mic, write, Eui64, Key, Level, Network,
    NwkAuxHeader, NwkCommand, NwkHeader, Opened, OpenedRecord, Refusal, MAX_BURST, MAX_FRAME, MAX_PAYLOAD,
};
use support::command::{root, run, KEY};
use support::random::Random;

const SEED: u64 = 0xF022;
const ROUNDS: usize = 60_000;

/// Bytes of a length that is mostly a frame's, sometimes with a first byte that is a frame's or command's.
fn bytes(random: &mut Random) -> Vec<u8> {
    let n = if random.percent(95) { random.below(MAX_FRAME + 4) } else { random.below(2000) };
    let mut bytes = random.bytes(n);
    if let Some(first) = bytes.first_mut().filter(|_| random.percent(60)) {
        *first = random.pick(&[0x08, 0x48, 0x09, 0x0B, 0x01, 0x05, 0x08, 0x0D]);
    }
    bytes
}

/// Any key at any level.
fn network(random: &mut Random) -> Network {
    Network::new(Key::new(random.array())).with_level(random.pick(&Level::ALL))
}

/// Any bytes may be a clear frame, whose payload is then that frame's last bytes. They are no sealed one, since no MIC is right
/// by chance, and opening never gives 14. Says whether the frame was clear.
fn is_clear(opened: Result<Opened, Refusal>, frame: &[u8]) -> bool {
    match opened {
        Ok(Opened::Sealed(_)) => panic!("a MIC is right by chance"),
        Ok(Opened::Clear(clear)) => {
            assert_eq!(clear.payload.as_ptr_range().end, frame.as_ptr_range().end);
            assert!(clear.payload.len() <= MAX_PAYLOAD && !clear.header.frame_control.security);
            true
        }
        Err(refusal) => {
            let number = refusal.number();
            assert!((1..=19).contains(&number) && number != 14, "{refusal}");
            false
        }
    }
}

#[test]
fn safe_operations_take_any_bytes() {
    let mut random = Random::new(SEED);
    let (mut headers, mut clear, mut commands) = (0, 0, 0);
    for _ in 0..ROUNDS {
        let (input, network) = (bytes(&mut random), network(&mut random));
        let room = random.below(MAX_FRAME + 4);
        let mut out = vec![0xA5; room];
        let number = |refusal: Refusal| assert!((1..=19).contains(&refusal.number()), "{refusal}");
        if let Ok(frame) = read(&input).map_err(number) {
            headers += 1;
            let auxiliary = frame.auxiliary.unwrap_or(NwkAuxHeader::new(1, Eui64(random.array())));
            // What was read has presence bits that agree: with the security bit it is not refused by 28.
            let _ = write(&frame.header, frame.rest, &mut out).map_err(number);
            let header = frame.header.secured();
            let _ = seal(&network, &header, Some(&auxiliary), frame.rest, &mut out).map_err(number);
            let _ = seal(&network, &header, None, frame.rest, &mut out).map_err(number);
        }
        out.fill(0xA5);
        clear += usize::from(is_clear(open(&network, &input, &mut out), &input));
        assert!(out.iter().all(|byte| *byte == 0xA5));
        let _ = NwkHeader::read(&input).map_err(number);
        let _ = NwkAuxHeader::read(&input).map_err(number);
        if let Ok(command) = NwkCommand::read(&input).map_err(number) {
            commands += 1;
            let mut out = [0; MAX_PAYLOAD];
            let n = command.write(&mut out).expect("a command that was read is written");
            assert_eq!(NwkCommand::read(&out[..n]).as_ref(), Ok(&command));
        }
        let (nonce, mic) = (random.array(), random.array());
        let _ = encrypt_ccm(&network, &nonce, &input, &input, &mut out).map_err(number);
        let _ = decrypt_ccm(&network, &nonce, &input, &input, &mic, &mut out).map_err(number);
        let _ = split_mic(network.level, &input).map_err(number);
        let _ = hex(&String::from_utf8_lossy(&input), &mut out);
    }
    println!("{ROUNDS} inputs, {headers} read as frames, {clear} opened as clear, {commands} read as commands");
    assert!(headers > ROUNDS / 20 && clear > ROUNDS / 20 && commands > ROUNDS / 2);
}

/// Lengths that cut the bytes into frames: any, or such that they add up.
fn lengths(bytes: &[u8], random: &mut Random) -> Vec<u16> {
    let count = random.below(MAX_BURST + 3);
    if random.percent(20) {
        return (0..count).map(|_| random.number() as u16).collect();
    }
    let mut cuts: Vec<usize> = (1..count).map(|_| random.below(bytes.len() + 1)).collect();
    cuts.extend([0, bytes.len()]);
    cuts.sort_unstable();
    cuts.windows(2).map(|cut| (cut[1] - cut[0]) as u16).collect()
}

#[test]
fn a_burst_takes_any_bytes_and_lengths() {
    let mut random = Random::new(SEED + 2);
    let (mut bursts, mut frames, mut clear) = (0, 0, 0);
    for _ in 0..ROUNDS / 4 {
        let (input, network) = (bytes(&mut random), network(&mut random));
        let lengths = lengths(&input, &mut random);
        let mut answers = vec![OpenedRecord::new(); random.below(MAX_BURST + 3)];
        let mut out = vec![0xA5; MAX_PAYLOAD * random.below(MAX_BURST + 3)];
        match open_burst(&network, &input, &lengths, &mut answers, &mut out) {
            Err(refusal) => assert_eq!(refusal, Refusal::BURST),
            Ok(burst) => {
                assert_eq!(burst.len(), lengths.len());
                bursts += 1;
                let mut end = 0;
                for (answer, &length) in burst.zip(&lengths) {
                    end += usize::from(length);
                    clear += usize::from(is_clear(answer, &input[..end]));
                    frames += 1;
                }
            }
        }
        assert!(out.iter().all(|byte| *byte == 0xA5));
    }
    println!("{bursts} bursts with {frames} frames, {clear} of them clear");
    assert!(bursts > ROUNDS / 20 && frames > ROUNDS / 4, "{bursts} bursts with {frames} frames");
    assert!(clear > ROUNDS / 100, "{clear} clear frames");
}

/// Samples with bytes changed, put in, taken out and cut off: the command ends with a status of its own and its lines.
#[test]
fn the_command_takes_any_file() {
    let mut random = Random::new(SEED + 1);
    let samples = ["store.pcap", "store.pcapng"].map(|name| fs::read(root().join("samples").join(name)).expect(name));
    let lines = b"0800000034121E07AA\n0000  08 00 00\n0003  00\n# x\n-\n".to_vec();
    for round in 0..150 {
        let mut file = [&samples[0], &samples[1], &lines][round % 3].clone();
        for _ in 0..random.between(1, 6) {
            let at = random.below(file.len());
            match random.below(4) {
                0 => file[at] = random.byte(),
                1 => file[at] ^= 1 << random.below(8),
                2 => drop(file.splice(at..at, random.array::<3>())),
                _ => drop(file.drain(at..(at + 2).min(file.len()))),
            }
        }
        if random.percent(20) {
            file.truncate(random.below(file.len()));
        }
        let open = ["open", "--key", KEY, "--by-sender"];
        for arguments in [&open[..], &["open", "--key", KEY, "--replay"], &["read", "--json"], &["read", "--full"]] {
            let ran = run(arguments, &file);
            assert!((0..=2).contains(&ran.status), "{arguments:?} ended with {}: {}", ran.status, ran.err);
            assert!(!ran.err.contains("panicked"), "{}", ran.err);
            assert_eq!(ran.status == 2, ran.out.is_empty(), "{arguments:?}: {}", ran.err);
        }
    }
}
