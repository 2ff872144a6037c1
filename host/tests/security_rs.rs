//! The Rust's own answers: what `security.rs`, compiled as it is, gave for each call of a recorded sequence is what the C functions
//! give.
#[allow(dead_code)]
mod support;

use std::fs;
use store_reader::{Eui64, Key, Refusal, SenderRecord, Senders};
use support::command::root;
use support::hex::unhex;

/// What `security.rs` answered, compiled as it is: the head of the file says how.
const RECORDED: &str = "host/tests/data/security_rs.txt";

/// The bytes of an address, a key or a number in hexadecimal digits.
fn bytes<const N: usize>(text: &str) -> [u8; N] {
    unhex(text).and_then(|bytes| bytes.try_into().ok()).unwrap_or_else(|| panic!("{text}: not {N} bytes"))
}

/// The Rust gives `None` for 22 and 23 alike; by the text that it told, the number is one of them.
fn number_of(text: &str) -> u8 {
    match text {
        "unknown-key-sequence-number" => 22,
        "maximum" | "duplicate" | "backward" => 23,
        other => panic!("{other}: no reason"),
    }
}

/// How many calls were repeated, by what the Rust answered.
#[derive(Default, Debug)]
struct Repeated {
    given: usize,
    unknown: usize,
    by_22: usize,
    by_23: usize,
    new: usize,
    noted: usize,
}

/// A sequence of recorded calls on one list.
struct Recorded {
    senders: Senders,
    key: Key,
    active: u8,
}

impl Recorded {
    /// Asks as the Rust was asked, and compares what it gave.
    fn ask(&mut self, words: &[&str], repeated: &mut Repeated) {
        let [sender, number, counter, "=", answer, text] = words else {
            panic!("{words:?}");
        };
        let (sender, [number]) = (Eui64(bytes(sender)), bytes(number));
        let counter = u32::from_be_bytes(bytes(counter));
        let found = self.senders.inbound_network_key(&self.key, self.active, sender, number, counter);
        let expected = match *answer {
            "key" => Ok(self.key.clone()),
            "none" => Err(number_of(text)),
            other => panic!("{other}: no answer"),
        };
        assert_eq!(found.map_err(Refusal::number), expected, "ask {words:?}");
        match (expected, *text) {
            (Ok(_), "unknown-sender") => repeated.unknown += 1,
            (Ok(_), text) => {
                assert_eq!(text, "-");
                repeated.given += 1;
            }
            (Err(22), _) => repeated.by_22 += 1,
            (Err(_), _) => repeated.by_23 += 1,
        }
    }

    fn note(&mut self, words: &[&str], repeated: &mut Repeated) {
        let [sender, counter, "=", earlier] = words else {
            panic!("{words:?}");
        };
        let counter = u32::from_be_bytes(bytes(counter));
        let expected = (*earlier != "none").then(|| u32::from_be_bytes(bytes(earlier)));
        let found = self.senders.note_inbound_frame_counter(Eui64(bytes(sender)), counter);
        assert_eq!(found, Ok(expected), "note {words:?}");
        match expected {
            None => repeated.new += 1,
            Some(_) => repeated.noted += 1,
        }
    }
}

#[test]
fn the_rusts_answers_are_given() {
    let text = fs::read_to_string(root().join(RECORDED)).expect(RECORDED);
    let mut recorded: Option<Recorded> = None;
    let (mut repeated, mut most) = (Repeated::default(), 0);
    for line in text.lines().filter(|line| !line.starts_with('#')) {
        let words: Vec<&str> = line.split(' ').collect();
        match (&words[..], &mut recorded) {
            (["new", key, active], _) => {
                let [active] = bytes(active);
                recorded = Some(Recorded { senders: Senders::new(), key: Key::new(bytes(key)), active });
            }
            (["ask", words @ ..], Some(recorded)) => recorded.ask(words, &mut repeated),
            (["note", words @ ..], Some(recorded)) => {
                recorded.note(words, &mut repeated);
                most = most.max(recorded.senders.records().iter().filter_map(SenderRecord::noted).count());
            }
            _ => panic!("{line}: no call"),
        }
    }
    println!("{repeated:?}, {most} senders at most");
    let Repeated { given, unknown, by_22, by_23, new, noted } = repeated;
    assert!([given, unknown, by_22, by_23, new, noted].iter().all(|count| *count >= 200), "{repeated:?}");
    assert!(given + unknown + by_22 + by_23 + new + noted >= 2_000);
    assert_eq!(most, 64);
}
