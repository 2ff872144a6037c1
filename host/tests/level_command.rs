//! `--level` of `open` and `seal`, and what is said where it looks wrong. The frames are another AES-CCM's.
#[allow(dead_code)]
mod support;

use support::command::{run, Ran, KEY};
use support::outside::{EMPTY, READ, READING};

const LEVELS: [&str; 3] = ["5", "6", "7"];
/// The reading of `READING` without security.
const CLEAR: &str = "08000000107A1E07";
const OTHER_KEY: &str = "000102030405060708090A0B0C0D0E0E";

/// Opens lines at a level.
fn opened(level: &str, lines: &[&str], more: &[&str]) -> Ran {
    run(&[&["open", "--key", KEY, "--level", level][..], more].concat(), (lines.join("\n") + "\n").as_bytes())
}

/// What is said of so many frames that would open at a level.
fn hint(frames: &str, level: &str) -> String {
    format!(
        "store-reader: no key opened any of {frames}, and the first of them opens at level {level}: look at --level\n"
    )
}

/// A frame with its last bit flipped.
fn damaged(frame: &str) -> String {
    let last = u8::from_str_radix(&frame[frame.len() - 2..], 16).expect("two digits") ^ 1;
    format!("{}{last:02X}", &frame[..frame.len() - 2])
}

#[test]
fn frames_are_sealed_and_opened_at_each_level() {
    for (level, frame) in LEVELS.into_iter().zip(READING) {
        let sealing = ["seal", "--key", KEY, "--level", level, "--counter=74565", "--ieee=00:12:4B:00:1C:A1:B2:C3"];
        let sealed = run(&sealing, format!("{CLEAR}{READ}\n").as_bytes());
        assert_eq!((sealed.out, sealed.err, sealed.status), (format!("{frame}\n"), String::new(), 0));
        let ran = opened(level, &[frame], &[]);
        assert!(
            ran.out.contains(&format!("counter 74565  payload 16 bytes: {READ}\n1 frame: 1 opened")),
            "{}",
            ran.out
        );
        assert_eq!((ran.err.as_str(), ran.status), ("", 0));
    }
    // Level 5 where nothing is said.
    let ran = run(&["open", "--key", KEY], READING[0].as_bytes());
    assert!(ran.out.ends_with("1 frame: 1 opened, 0 refused\n") && ran.err.is_empty(), "{}{}", ran.out, ran.err);
}

/// A payload that fills a frame at level 5 has no room for a longer MIC: 92, 88 and 80 bytes are sealed, and one more is 17.
#[test]
fn the_largest_payloads_are_sealed() {
    for (level, largest) in LEVELS.into_iter().zip([92, 88, 80]) {
        let sealing = ["seal", "--key", KEY, "--level", level, "--counter=1", "--ieee=0807060504030201"];
        let sealed = |n: usize| run(&sealing, format!("{CLEAR}{}\n", "AA".repeat(n)).as_bytes());
        assert_eq!((sealed(largest).out.len(), sealed(largest).status), (2 * 118 + 1, 0));
        let refused = sealed(largest + 1);
        assert!(
            refused.err.starts_with("store-reader: line 1: refused by 17: ") && refused.status == 1,
            "{}",
            refused.err
        );
    }
}

/// A frame opened at another level is refused by 19, or by 16 if it is too short, and the level that opens it is named once, on
/// standard error. The keys do not look wrong.
#[test]
fn the_level_that_opens_is_named() {
    for (own, given) in LEVELS.into_iter().enumerate().flat_map(|own| LEVELS.map(|given| (own, given))) {
        for frame in [READING[own.0], EMPTY[own.0]] {
            let ran = opened(given, &[frame], &[]);
            assert_eq!(ran.status, 0);
            assert!(!ran.out.contains("look wrong"), "{}", ran.out);
            if own.1 == given {
                assert!(ran.out.contains("1 opened") && ran.err.is_empty(), "{}{}", ran.out, ran.err);
                continue;
            }
            let short = frame == EMPTY[own.0] && given > own.1;
            let refused = if short { "refused by 16: " } else { "refused by 19: " };
            assert!(ran.out.contains(refused) && ran.out.contains("0 opened, 1 refused"), "{}", ran.out);
            assert_eq!(ran.err, hint("1 sealed frame", own.1));
        }
    }
}

#[test]
fn the_sample_at_another_level() {
    for more in [&[][..], &["--summary-only"], &["--csv"], &["--csv", "--frames"], &["--by-sender"], &["--replay"]] {
        let ran = run(&[&["open", "--key", KEY, "--level=6", "samples/store.pcap"], more].concat(), b"");
        assert_eq!((ran.err, ran.status), (hint("11 sealed frames", "5"), 0), "{more:?}");
        assert!(!ran.out.contains("look"), "{}", ran.out);
    }
    let json = ["open", "--key", KEY, "--level=7", "--json", "--summary-only", "samples/store.pcap"];
    let ran = run(&json, b"");
    assert!(ran.out.ends_with(",\"opens_at_level\":5}}\n") && !ran.out.contains("keys_look_wrong"), "{}", ran.out);
    assert_eq!(ran.err, hint("11 sealed frames", "5"));
    // One summary of several files, and one hint.
    let files = ["samples/store.pcap", "samples/store.pcapng"];
    let ran = run(&[&["open", "--key", KEY, "--level=6", "--summary-only"][..], &files].concat(), b"");
    assert!(ran.err.starts_with("store-reader: no key opened any of "), "{}", ran.err);
    assert_eq!(ran.err.matches("look at --level").count(), 1);
}

/// Several keys, one of which opens the frame at the other level; clear frames and such as do not read say nothing of the level.
#[test]
fn the_level_is_named_beside_other_frames() {
    let clear = format!("{CLEAR}AA");
    let lines = ["0A0000003412 1E07", &clear, READING[1], READING[0]];
    let ran = opened("7", &lines, &["--key", OTHER_KEY]);
    assert_eq!(ran.err, hint("2 sealed frames", "6"));
    let summary = "4 frames: 0 opened, 1 clear, 3 refused\n     1 refused by 3: the frame type is 2\n     \
                   2 refused by 19: the MIC is not the one computed\n";
    assert!(ran.out.ends_with(summary), "{}", ran.out);
}

/// Nothing is said where a frame opened, where no other level opens the first that did not, or where nothing is sealed.
#[test]
fn nothing_is_said_of_a_level_that_may_be_right() {
    let clear = format!("{CLEAR}AA");
    let silent: [(&str, &[&str]); 5] = [
        ("5", &[READING[1], READING[0]]),
        ("5", &[READING[0], READING[1]]),
        ("5", &[&damaged(READING[1]), READING[1]]),
        ("5", &[&damaged(READING[0])]),
        ("6", &[&clear]),
    ];
    for (level, lines) in silent {
        let ran = opened(level, lines, &[]);
        assert_eq!((ran.err.as_str(), ran.status), ("", 0), "{}", ran.out);
    }
    // A replay was opened before it was refused.
    let ran = opened("5", &[READING[1], EMPTY[0]], &["--replay", "--key-sequence=0"]);
    assert!(ran.out.contains("refused by 22") && ran.err.is_empty(), "{}{}", ran.out, ran.err);
    // Under another key no level opens it, and the keys look wrong as before.
    let ran = run(&["open", "--key", OTHER_KEY, "--level=6"], READING[0].as_bytes());
    assert!(ran.out.ends_with("no key opened any of 1 sealed frame: the keys look wrong\n"), "{}", ran.out);
    assert_eq!(ran.err, "");
    // Reading takes no key and no level.
    assert_eq!(run(&["read"], READING[1].as_bytes()).err, "");
}
