//! `store-reader open --replay`: the words of document 02, request 5, over whole captures. Frames are sealed here by the library,
//! and the sample's senders and counters are those that `samples/capture.py` put in.
#[allow(dead_code)]
mod support;

use std::fs;
use store_reader::{seal, Eui64, Network, Nwk, NwkAuxHeader, NwkFrameType, NwkHeader, MAX_FRAME};
use support::command::{root, run, Ran, KEY};
use support::hex::hex;

const BY_22: &str = "refused by 22: the key sequence number is not the active one";
const BY_23: &str = "refused by 23: the frame counter is FFFFFFFF or not above the sender's stored one";
const BY_24: &str = "refused by 24: the sender is new and no place is free";

const PROBE: u64 = 0x0807_0605_0403_0201;

/// A frame of one byte to be sealed: its sender, counter and key sequence number.
#[derive(Clone, Copy)]
struct Frame {
    sender: u64,
    counter: u32,
    number: u8,
}

impl Frame {
    /// A line with the frame. Its source is the low half of the sender's address, and its payload that of the counter.
    fn line(self) -> String {
        let auxiliary = NwkAuxHeader::new(self.counter, Eui64::from(self.sender));
        self.sealed(self.header(), NwkAuxHeader { key_sequence_number: self.number, ..auxiliary })
    }

    /// The same with the sender's address in the header alone, so that the nonce has it from there.
    fn line_without_extended_nonce(self) -> String {
        let header = self.header().with_source_ieee(Eui64::from(self.sender));
        let auxiliary = NwkAuxHeader::without_ieee(self.counter);
        self.sealed(header, NwkAuxHeader { key_sequence_number: self.number, ..auxiliary })
    }

    fn header(self) -> NwkHeader {
        NwkHeader::new(NwkFrameType::Data, Nwk(self.sender as u16), Nwk(0)).secured()
    }

    fn sealed(self, header: NwkHeader, auxiliary: NwkAuxHeader) -> String {
        let network = Network::new(KEY.parse().expect("a key"));
        let mut frame = [0; MAX_FRAME];
        let n = seal(&network, &header, Some(&auxiliary), &[self.counter as u8], &mut frame).expect("a sealed frame");
        hex(&frame[..n]) + "\n"
    }
}

/// A frame of the probe under key sequence number 0.
fn of_probe(counter: u32) -> Frame {
    Frame { sender: PROBE, counter, number: 0 }
}

fn lines(frames: &[Frame]) -> String {
    frames.iter().map(|frame| frame.line()).collect()
}

/// Opens lines with the key, replays refused, and these options.
fn opened(options: &[&str], input: &str) -> Ran {
    run(&[&["open", "--key", KEY, "--replay"], options].concat(), input.as_bytes())
}

/// The numbers by which the lines were refused with these options beside the key, 0 for a line that was not.
fn numbers(options: &[&str], input: &str) -> Vec<u64> {
    numbers_with(KEY, options, input)
}

/// The same where this key is the first one.
fn numbers_with(key: &str, options: &[&str], input: &str) -> Vec<u64> {
    let ran = run(&[&["open", "--key", key, "--replay", "--json"], options].concat(), input.as_bytes());
    assert_eq!((ran.err.as_str(), ran.status), ("", 0));
    let number = |line: &str| line.split_once("\"refusal\":")?.1.split([',', '}']).next()?.parse().ok();
    ran.out.lines().filter(|line| line.starts_with("{\"line\":")).map(|line| number(line).expect("a number")).collect()
}

/// A frame twice, a lower counter, the next one, another key sequence number, and a clear frame, which is never asked for.
#[test]
fn what_a_receiver_would_not_take_is_refused() {
    let other = Frame { number: 1, ..of_probe(12) };
    let clear = "0800000034121E07AA\n".repeat(2);
    let input = lines(&[of_probe(10), of_probe(10), of_probe(9), of_probe(11), other]) + &clear + &of_probe(12).line();
    let front = "data      0x0201 -> 0x0000  sequence 0";
    let clear = "data      0x1234 -> 0x0000  sequence 7  clear  payload 1 byte: AA";
    let ieee = "ieee 08:07:06:05:04:03:02:01";
    let expected = format!(
        "   1  {front}  counter 10  payload 1 byte: 0A
   2  {front}  counter 10  {ieee}  {BY_23}
   3  {front}  counter 9  {ieee}  {BY_23}
   4  {front}  counter 11  payload 1 byte: 0B
   5  {front}  counter 12  {ieee}  {BY_22}
   6  {clear}
   7  {clear}
   8  {front}  counter 12  payload 1 byte: 0C
8 frames: 3 opened, 2 clear, 3 refused
     1 {BY_22}
     2 {BY_23}
"
    );
    let ran = opened(&[], &input);
    assert_eq!((ran.out.as_str(), ran.err.as_str(), ran.status), (expected.as_str(), "", 0));
    // The choice of what is printed is that of other refusals.
    let refused: String =
        expected.lines().filter(|line| line.contains("ieee")).map(|line| format!("{line}\n")).collect();
    let summary = &expected[expected.find("8 frames").expect("a summary")..];
    assert_eq!(opened(&["--refused"], &input).out, refused + summary);
    assert_eq!(opened(&["--summary-only"], &input).out, summary);
    // Without the option no counter is compared.
    let ran = run(&["open", "--key", KEY, "--summary-only"], input.as_bytes());
    assert_eq!(ran.out, "8 frames: 6 opened, 2 clear, 0 refused\n");
}

/// The sample has no frame twice, and with its records twice each frame that opens is refused the second time.
#[test]
fn the_sample_twice() {
    let capture = fs::read(root().join("samples/store.pcap")).expect("the sample capture");
    let with = run(&["open", "--key", KEY, "--replay"], &capture);
    let without = run(&["open", "--key", KEY], &capture);
    assert_eq!((with.out, with.status), (without.out.clone(), 0));
    // A pcap file has 24 bytes in front of its records.
    let twice = [&capture[..], &capture[24..]].concat();
    let ran = run(&["open", "--key", KEY, "--replay", "--summary-only"], &twice);
    let expected = format!(
        "28 frames: 9 opened, 2 clear, 17 refused
     2 refused by 3: the frame type is 2
     2 refused by 10: an auxiliary header with extended nonce has 6 to 12 bytes
     4 refused by 19: the MIC is not the one computed
         4 with a right frame check sequence: under another key or level, or altered
     9 {BY_23}
"
    );
    assert!(ran.out.starts_with(&expected), "{}", ran.out);
    let ran = run(&["open", "--key", KEY, "--summary-only"], &twice);
    assert!(ran.out.starts_with("28 frames: 18 opened, 2 clear, 8 refused\n"), "{}", ran.out);
}

/// Document 02, 4 and 5: opening accepts counter `FFFFFFFF`, and asking refuses it, also of a sender not met before. The frame is
/// document 01's with that counter, sealed by another implementation.
#[test]
fn the_last_counter_is_refused_of_anyone() {
    let frame = "0802000034121E0728FFFFFFFF0D6F001122334455003F9EFEE197\n";
    let key = "0103050709 0B0D0F 0002040608 0A0C0D";
    let ran = run(&["open", "--key", key], frame.as_bytes());
    assert!(ran.out.contains("counter 4294967295  payload 1 byte: AA\n"), "{}", ran.out);
    let ran = run(&["open", "--key", key, "--replay"], frame.as_bytes());
    assert!(ran.out.contains(&format!("counter 4294967295  ieee 55:44:33:22:11:00:6F:0D  {BY_23}\n")), "{}", ran.out);
}

/// The sender is the device whose long address the nonce used: each has counters of its own, wherever the address stands.
#[test]
fn senders_are_told_by_the_nonces_address() {
    let other = Frame { sender: PROBE + 1, ..of_probe(5) };
    let input =
        lines(&[of_probe(10), other, Frame { counter: 6, ..other }, Frame { counter: 5, ..other }, of_probe(10)]);
    assert_eq!(numbers(&[], &input), [0, 0, 0, 23, 23]);
    let bare = |counter| of_probe(counter).line_without_extended_nonce();
    let input = of_probe(10).line() + &bare(10) + &bare(11) + &of_probe(11).line();
    assert_eq!(numbers(&[], &input), [0, 23, 0, 23]);
}

/// A frame that does not open is neither asked for nor noted: it is refused as without the option, and shuts nobody out.
#[test]
fn a_damaged_frame_is_not_noted() {
    let mut damaged = of_probe(100).line();
    let last = damaged.len() - 2;
    damaged.replace_range(last..=last, if damaged.as_bytes()[last] == b'0' { "1" } else { "0" });
    let input = of_probe(10).line() + &damaged + &of_probe(11).line();
    assert_eq!(numbers(&[], &input), [0, 19, 0]);
}

/// The active key sequence number: the one given, else that of the first key, else 0.
#[test]
fn the_active_key_sequence_number() {
    let frames = [0, 1, 2].map(|number| Frame { number, ..of_probe(u32::from(number) + 1) });
    let input = lines(&frames);
    let second = format!("--key=2:{KEY}");
    assert_eq!(numbers(&[], &input), [0, 22, 22]);
    assert_eq!(numbers(&[&second], &input), [0, 22, 22]);
    assert_eq!(numbers(&["--key-sequence", "1"], &input), [22, 0, 22]);
    assert_eq!(numbers(&["--key-sequence=0x02", &second], &input), [22, 22, 0]);
    assert_eq!(numbers_with(&format!("1:{KEY}"), &[&second], &input), [22, 0, 22]);
    assert_eq!(numbers_with(&format!("9:{KEY}"), &[], &input), [22, 22, 22]);
    assert_eq!(numbers_with(&format!("9:{KEY}"), &["--key-sequence=1"], &input), [22, 0, 22]);
}

/// A frame of each of so many senders, from 1 on.
fn crowd(senders: u64, counter: u32) -> Vec<Frame> {
    (1..=senders).map(|sender| Frame { sender, ..of_probe(counter) }).collect()
}

/// 64 senders have a place and a 65th has none, as often as it comes. Those that have one go on.
#[test]
fn the_65th_sender_is_refused_by_24() {
    let input = lines(&crowd(64, 1));
    assert_eq!(opened(&["--summary-only"], &input).out, "64 frames: 64 opened, 0 refused\n");
    let input = lines(&crowd(65, 1)) + &lines(&crowd(65, 2));
    let ran = opened(&["--refused"], &input);
    let front = "data      0x0041 -> 0x0000  sequence 0";
    let ieee = "ieee 00:00:00:00:00:00:00:41";
    let expected = format!(
        "  65  {front}  counter 1  {ieee}  {BY_24}
 130  {front}  counter 2  {ieee}  {BY_24}
130 frames: 128 opened, 2 refused
     2 {BY_24}
"
    );
    assert_eq!((ran.out, ran.status), (expected, 0));
    // 22 and 23 do not need a place, and come first.
    let late = Frame { sender: 65, number: 3, ..of_probe(1) };
    assert_eq!(numbers(&[], &(lines(&crowd(64, 1)) + &lines(&[late, Frame { number: 0, ..late }])))[64..], [22, 24]);
}

/// A refused frame as JSON and in full has its number, its headers and its bytes, and neither mark nor payload.
#[test]
fn refused_ones_in_full() {
    let input = lines(&[of_probe(10), of_probe(10)]);
    let out = opened(&["--json"], &input).out;
    let second = out.lines().nth(1).expect("a line");
    let front = concat!(
        r#"{"line":2,"refusal":23,"condition":"the frame counter is FFFFFFFF or not above the sender's stored one","#,
        r#""type":"data","source":"0x0201","destination":"0x0000","sequence":0,"#
    );
    assert!(second.starts_with(front), "{second}");
    assert!(second.contains(r#""auxiliary":{"counter":10,"#), "{second}");
    assert!(second.contains(r#""ieee":"08:07:06:05:04:03:02:01"}"#), "{second}");
    assert!(second.ends_with(&format!("\"bytes\":\"{}\"}}", of_probe(10).line().trim_end())), "{second}");
    assert!(!second.contains("mark") && !second.contains("payload"), "{second}");
    let summary = concat!(
        r#"{"summary":{"json_version":1,"frames":2,"opened":1,"clear":0,"refused":1,"refusals":[{"refusal":23,"count":1,"#,
        r#""condition":"the frame counter is FFFFFFFF or not above the sender's stored one"}],"#
    );
    assert!(out.lines().nth(2).expect("a summary").starts_with(summary), "{out}");
    let full = opened(&["--full"], &input).out;
    let second = full.split("line 2\n").nth(1).expect("a second frame");
    assert!(
        second.starts_with(&format!("  {BY_23}\n  type: data\n")) && second.contains("\n    counter: 10\n"),
        "{full}"
    );
}

/// The table of a capture with all three: one row a sender, joined by the address that an opened frame showed though it was refused.
#[test]
fn counts_by_sender() {
    let mut frames = crowd(65, 10);
    frames.extend([Frame { counter: 4, ..frames[0] }, Frame { counter: 12, ..frames[0] }]);
    frames.push(Frame { counter: 13, number: 7, ..frames[0] });
    let out = opened(&["--by-sender", "--summary-only"], &lines(&frames)).out;
    let rows = |of: &str| -> Vec<String> {
        let rows = out.lines().filter_map(|line| line.strip_prefix(of));
        let cells =
            |row: &str| row.split("  ").map(str::trim).filter(|cell| !cell.is_empty()).collect::<Vec<_>>().join("|");
        rows.map(cells).collect()
    };
    // 4 lies below the first counter of 10, and the frame under number 7 has counters of its own. All have the sequence number 0,
    // so nothing says that 11 was sent, or that 4 was a replay.
    let first = [
        "0x0001|2|2|1 by 22, 1 by 23|0",
        "0|10 to 12|2|1|0|0|1|1|at least 0|at least 0.0 %",
        "7|13 to 13|1|0|0|0|0|0|0|0.0 %",
    ];
    assert_eq!(rows("00:00:00:00:00:00:00:01"), first);
    assert_eq!(rows("00:00:00:00:00:00:00:02"), ["0x0002|1|0|0", "0|10 to 10|1|0|0|0|0|0|0|0.0 %"]);
    assert_eq!(rows("00:00:00:00:00:00:00:41"), ["0x0041|0|1|1 by 24", "0|10 to 10|1|0|0|0|0|0|0|0.0 %"]);
    assert!(out.contains("\n68 frames: 65 opened, 3 refused\n"), "{out}");

    let json = opened(&["--by-sender", "--summary-only", "--json"], &lines(&frames)).out;
    let first = r#"{"sender":{"ieee":"00:00:00:00:00:00:00:01","short":["0x0001"],"opened":2,"clear":0,"refused":2,"#;
    let refusals = concat!(
        r#""refusals":[{"refusal":22,"count":1},{"refusal":23,"count":1}],"sequence_numbers_never_heard":0,"#,
        r#""counters":[{"key_number":0,"first":10,"highest":12,"received":2,"gaps":1,"#
    );
    assert!(json.lines().any(|line| line.starts_with(&format!("{first}{refusals}"))), "{json}");
}

/// The columns of the table for a program: 22, 23 and 24 are there exactly with the option.
#[test]
fn columns_of_the_table() {
    let mut frames = crowd(65, 10);
    frames.extend([frames[0], Frame { number: 7, ..frames[1] }]);
    let input = lines(&frames);
    let with = opened(&["--by-sender", "--csv"], &input).out;
    let without = run(&["open", "--key", KEY, "--by-sender", "--csv"], input.as_bytes()).out;
    let heads = |table: &str| table.lines().next().expect("heads").split(',').map(str::to_string).collect::<Vec<_>>();
    let added: Vec<String> = heads(&with).into_iter().filter(|head| !heads(&without).contains(head)).collect();
    assert_eq!(added, ["refused_by_22", "refused_by_23", "refused_by_24"]);
    assert_eq!((heads(&without).len(), heads(&with).len()), (5 + 19 + 19, 5 + 22 + 19));
    let column = |head: &str| {
        let at = heads(&with).iter().position(|found| found == head).expect("a column");
        with.lines()
            .skip(1)
            .map(|line| line.split(',').nth(at).expect("a cell").parse::<u64>().expect("a number"))
            .sum()
    };
    let sums: [u64; 5] = ["opened", "refused", "refused_by_22", "refused_by_23", "refused_by_24"].map(column);
    assert_eq!(sums, [64, 3, 1, 1, 1]);
    let summary = opened(&["--csv"], &input).out;
    assert!(summary.contains("\nrefused,24,1,the sender is new and no place is free\n"), "{summary}");
}

/// Keys that opened a frame do not look wrong, though no frame was taken.
#[test]
fn keys_that_opened_do_not_look_wrong() {
    // Another sequence number than the one that was authenticated.
    let mut damaged = of_probe(1).line();
    damaged.replace_range(14..16, "55");
    let input = damaged + &Frame { number: 1, ..of_probe(2) }.line();
    let ran = opened(&["--summary-only"], &input);
    let expected = format!(
        "2 frames: 0 opened, 2 refused\n     1 refused by 19: the MIC is not the one computed\n     1 {BY_22}\n"
    );
    assert_eq!(ran.out, expected);
}
