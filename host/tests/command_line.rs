//! `store-reader` as a user runs it: what it prints and its exit status. The sample's contents are those that
//! `samples/capture.py` put in.
#[allow(dead_code)]
mod support;

use std::fs;
use std::path::PathBuf;
use std::process::Command;
use support::command::{root, run, scratch, tool, KEY};

/// The frame that `examples/seal_open.c` expects, made with another AES-CCM.
const SEALED: &str = "480200003412 1E0728 45230100 0102030405060708 00 34C76392C2746D941C179CD01798E03A";

/// The sample's text lines up to the summary.
const OPENED: &str = "   1  2026-11-18T11:06:40.000000Z  0x1A62 0x0000>none     MAC beacon
   2  2026-11-18T11:06:41.000000Z  0x1A62 0x0000>0xFFFF   command   0x0000 -> 0xFFFC  sequence 21  counter 90210  link status: first, last, links [to 0x3F21 in 1 out 3, to 0x7A10 in 2 out 1]
   3  2026-11-18T11:06:42.000000Z  0x1A62 0x7A10>0x0000   data      0x7A10 -> 0x0000  sequence 7  counter 74565  payload 16 bytes: 000102040401010118010A0000296608
   4  2026-11-18T11:06:43.000000Z  MAC acknowledgement
   5  2026-11-18T11:06:44.000000Z  0x1A62 0x3F21>0x0000   command   0xD105 -> 0x0000  sequence 40  counter 6998  route record: relays [0x52B0, 0x3F21]
   6  2026-11-18T11:06:45.000000Z  0x1A62 0x3F21>0x0000   data      0xD105 -> 0x0000  sequence 41  counter 6999  payload 16 bytes: 000102040401010918090A0000295C0D
   7  2026-11-18T11:06:46.000000Z  0x1A62 0x0000>0x3F21   data      0x0000 -> 0xD105  sequence 22  counter 90211  payload 8 bytes: 0201020404010109
   8  2026-11-18T11:06:47.000000Z  0x1A62 0x7A10>0x0000   data      0x7A10 -> 0x0000  sequence 8  counter 74566  ieee 00:12:4B:00:1C:A1:B2:C3  refused by 19: the MIC is not the one computed
   9  2026-11-18T11:06:48.000000Z  0x1A62 0x9C44>0x0000   data      0x9C44 -> 0x0000  sequence 1  counter 3  ieee 00:12:4B:00:AA:AA:00:44  refused by 19: the MIC is not the one computed
  10  2026-11-18T11:06:49.000000Z  0x1A62 0x9C44>0x0000   data      0x9C44 -> 0x0000  sequence 2  clear  payload 16 bytes: 000102040401010218020A000029C607
  11  2026-11-18T11:06:50.000000Z  0x1A62 0x7A10>0x0000   command   0x7A10 -> 0x0000  sequence 9  counter 74567  end device timeout request: timeout 14, seconds 983040, configuration 0
  12  2026-11-18T11:06:51.000000Z  0x1A62 0x7A10>0x0000   data      0x7A10 -> 0x0000  sequence 10  refused by 10: an auxiliary header with extended nonce has 6 to 12 bytes  (wrong frame check sequence)
  13  2026-11-18T11:06:52.000000Z  0x1A62 0x3F21>0x0000   command   0x3F21 -> 0x0000  sequence 60  counter 7001  network status: status source route failure, of 0xD105
  14  2026-11-18T11:06:53.000000Z  0x1A62 0x3F21>0x0000   command   0x3F21 -> 0x0000  sequence 61  counter 7002  unparsed: bytes 100102
  15  2026-11-18T11:06:54.000000Z  0x1A62 0x9C44>0x0000   refused by 3: the frame type is 2
  16  2026-11-18T11:06:55.000000Z  0x1A62 0x7A10>0x0000   data      0x7A10 -> 0x0000  sequence 13  counter 74571  payload 16 bytes: 000102040401010618060A0000299808
  17  2026-11-18T11:06:56.000000Z  0xFFFF 00:12:4B:00:AA:AA:00:44>0xFFFF  inter-PAN frame
  18  2026-11-18T11:06:57.000000Z  0xFFFF none>0xFFFF     Green Power frame
  19  2026-11-18T11:06:58.000000Z  0x2B73 0x0002>0x0001   6LoWPAN frame
  20  2026-11-18T11:06:59.000000Z  0x1A62 0x7A10>0x0000   MAC data frame without a payload
";

const SUMMARY: &str = "14 frames: 9 opened, 1 clear, 4 refused
     1 refused by 3: the frame type is 2
     1 refused by 10: an auxiliary header with extended nonce has 6 to 12 bytes
     2 refused by 19: the MIC is not the one computed
         2 with a right frame check sequence: under another key or level, or altered
     1 with a wrong frame check sequence
6 records without a NWK frame to open
     1 6LoWPAN frame
     1 Green Power frame
     1 MAC acknowledgement
     1 MAC beacon
     1 MAC data frame without a payload
     1 inter-PAN frame
";

fn sample() -> Vec<u8> {
    fs::read(root().join("samples/store.pcap")).expect("the sample capture")
}

/// The lines of a text that start with one of these numbers.
fn numbered(text: &str, numbers: &[u64]) -> String {
    let number = |line: &str| line.split_whitespace().next().and_then(|word| word.parse().ok());
    let lines = text.lines().filter(|line| number(line).is_some_and(|number| numbers.contains(&number)));
    lines.map(|line| format!("{line}\n")).collect()
}

#[test]
fn the_sample_opens_as_it_was_made() {
    let ran = run(&["open", "--key-file", "samples/store.key", "samples/store.pcap"], b"");
    assert_eq!(ran.out, format!("{OPENED}{SUMMARY}"));
    assert_eq!((ran.err.as_str(), ran.status), ("", 0));
}

#[test]
fn standard_input_and_a_key_on_the_line_do_the_same() {
    let ran = run(&["open", &format!("--key={KEY}"), "-"], &sample());
    assert_eq!((ran.out, ran.status), (format!("{OPENED}{SUMMARY}"), 0));
}

/// Each block of output in the README is what its command prints, `..` standing for lines left out.
#[test]
fn the_readme_shows_what_the_command_prints() {
    let readme = fs::read_to_string(root().join("README.md")).expect("README.md");
    let mut shown = 0;
    for block in readme.split("```text\n$ ").skip(1) {
        let (command, rest) = block.split_once('\n').expect("a command");
        let block = rest.split("```").next().expect("the end of a block");
        let arguments: Vec<&str> = command.split_whitespace().skip(1).collect();
        let mut printed = run(&arguments, b"").out;
        for part in block.split("..\n") {
            let at = printed.find(part).unwrap_or_else(|| panic!("{command} does not print, in this place:\n{part}"));
            printed.drain(..at + part.len());
        }
        shown += 1;
    }
    assert!(shown >= 2, "the README shows {shown} commands with what they print");
}

#[test]
fn filters_choose_what_is_printed_and_not_what_is_counted() {
    let open = |options: &[&str]| {
        let arguments = [&["open", "--key", KEY], options, &["samples/store.pcap"]].concat();
        let ran = run(&arguments, b"");
        assert_eq!((ran.err.as_str(), ran.status), ("", 0));
        ran.out
    };
    assert_eq!(open(&["--summary-only"]), SUMMARY);
    assert_eq!(open(&["--refused"]), numbered(OPENED, &[8, 9, 12, 15]) + SUMMARY);
    assert_eq!(open(&["--source", "0xD105"]), numbered(OPENED, &[5, 6]) + SUMMARY);
    assert_eq!(open(&["--source", "0x9C44"]), numbered(OPENED, &[9, 10, 15]) + SUMMARY);
    // The router made two frames and passed two on, which its long address stands in.
    assert_eq!(open(&["--source", "00:12:4B:00:1C:A1:00:02"]), numbered(OPENED, &[5, 6, 13, 14]) + SUMMARY);
    assert_eq!(open(&["--source=d105", "--source=0000"]), numbered(OPENED, &[2, 5, 6, 7]) + SUMMARY);
    assert_eq!(open(&["--source", "0x7A10", "--refused"]), numbered(OPENED, &[8, 12]) + SUMMARY);
    let json = open(&["--summary-only", "--json"]);
    assert!(json.starts_with(r#"{"summary":{"json_version":1,"frames":14,"#) && json.lines().count() == 1, "{json}");
}

#[test]
fn several_keys_are_told_by_their_place() {
    let ran = run(&["open", "--key-file", "samples/store.keys", "samples/store.pcap"], b"");
    let ninth =
        "   9  2026-11-18T11:06:48.000000Z  0x1A62 0x9C44>0x0000   data      0x9C44 -> 0x0000  sequence 1  counter 3  \
                 key 2  payload 16 bytes: 000102040401010118010A000029C607\n";
    assert_eq!(numbered(&ran.out, &[9]).lines().next(), ninth.lines().next());
    assert!(ran.out.contains("counter 74565  key 1  payload"), "{}", ran.out);
    let counts = "14 frames: 10 opened, 1 clear, 3 refused\n     9 opened with key 1\n     1 opened with key 2\n";
    assert!(ran.out.contains(counts), "{}", ran.out);
    // A clear frame is shown once and with no key, in whatever order the keys come.
    assert_eq!(numbered(&ran.out, &[10]).lines().next(), numbered(OPENED, &[10]).lines().next());
    assert!(!ran.out.contains(KEY) && !ran.out.contains("C0C1C2C3"), "a key is printed");
    let other = "000102030405060708090A0B0C0D0E0F";
    let ran = run(&["open", "--key", other, "--key-file=samples/store.key", "--json", "samples/store.pcap"], b"");
    assert!(ran.out.contains(r#""opened_with_key":2,"payload":"000102040401010118010A0000296608""#), "{}", ran.out);
    assert!(ran.out.contains(r#""opened_with":[{"key":1,"count":1},{"key":2,"count":9}]"#), "{}", ran.out);
    let tenth = ran.out.lines().find(|line| line.starts_with(r#"{"record":10,"#)).expect("the tenth record");
    assert!(tenth.contains(r#""refusal":0,"mark":"clear","#) && !tenth.contains("key"), "{tenth}");
}

/// Two keys that open the same frame, one of them with the frame's key sequence number: that one is tried first.
#[test]
fn a_frame_is_tried_by_its_key_sequence_number_first() {
    let clear = b"0800000034121E07AA\n";
    let ieee = "--ieee=0807060504030201";
    let sealed = run(&["seal", "--key", &format!("7:{KEY}"), ieee, "--counter=1"], clear).out;
    for (first, second, place) in [("", "7:", 2), ("7:", "", 1), ("6:", "", 2), ("6:", "5:", 1)] {
        let keys = [format!("--key={first}{KEY}"), format!("--key={second}{KEY}")];
        let ran = run(&["open", &keys[0], &keys[1]], sealed.as_bytes());
        assert!(ran.out.contains(&format!("counter 1  key {place}  payload 1 byte: AA\n")), "{}", ran.out);
    }
}

#[test]
fn keys_that_look_wrong_are_said_at_the_end() {
    let other = "000102030405060708090A0B0C0D0E0E";
    let ran = run(&["open", "--key", other, "--summary-only", "samples/store.pcap"], b"");
    assert!(ran.out.ends_with("no key opened any of 11 sealed frames: the keys look wrong\n"), "{}", ran.out);
    assert_eq!((ran.err.as_str(), ran.status), ("", 0));
    let ran = run(&["open", "--key", other, "--summary-only", "--json", "samples/store.pcap"], b"");
    assert!(ran.out.ends_with(",\"keys_look_wrong\":true}}\n"), "{}", ran.out);
    // A table is left as it is, and the line comes on standard error.
    let ran = run(&["open", "--key", other, "--csv", "--by-sender", "samples/store.pcap"], b"");
    assert_eq!(ran.err, "store-reader: no key opened any of 11 sealed frames: the keys look wrong\n");
    assert!(!ran.out.contains("look wrong") && ran.status == 0, "{}", ran.out);
    // A capture without any sealed frame says nothing of the keys, and clear frames beside sealed ones speak for no key.
    let clear = "0800000034121E07AA\n";
    let ran = run(&["open", "--key", other], clear.as_bytes());
    assert!(!ran.out.contains("wrong"), "{}", ran.out);
    let ran = run(&["open", "--key", other, "--summary-only"], format!("{clear}{SEALED}\n{clear}").as_bytes());
    let expected = "3 frames: 0 opened, 2 clear, 1 refused\n     \
                    1 refused by 19: the MIC is not the one computed\n\
                    no key opened any of 1 sealed frame: the keys look wrong\n";
    assert_eq!((ran.out.as_str(), ran.status), (expected, 0));
}

#[test]
fn key_files_are_read_line_by_line() {
    let path = scratch("some.keys");
    let name = path.to_str().expect("UTF-8").to_string();
    for (text, message) in [
        (
            format!("# none\n\n{KEY}\n1:C0C1\n"),
            format!("{name}, line 4: behind the key sequence number: 2 bytes where 16 are expected"),
        ),
        ("# none\n".to_string(), format!("{name}: the file has no key")),
        (format!("{KEY} {KEY}\n"), format!("{name}, line 1: 32 bytes where 16 are expected")),
    ] {
        fs::write(&path, text).expect("a key file");
        let ran = run(&["open", "--key-file", &name], b"");
        assert_eq!(ran.err, format!("store-reader: {message}\nstore-reader --help says more\n"));
        assert_eq!(ran.status, 2);
    }
}

/// Notepad puts a byte order mark in front of a text.
#[test]
fn a_key_file_may_begin_with_a_byte_order_mark() {
    let path = scratch("marked.keys");
    fs::write(&path, format!("\u{FEFF}{KEY}\r\n")).expect("a key file");
    let ran = run(&["open", "--key-file", path.to_str().expect("UTF-8"), "samples/store.pcap"], b"");
    assert_eq!((ran.out, ran.err.as_str(), ran.status), (format!("{OPENED}{SUMMARY}"), "", 0));
}

/// Several files are one run: each behind its name, with records from 1, and one summary.
#[test]
fn several_files_in_one_run() {
    let files = ["samples/store.pcap", "samples/store.pcapng"];
    let alone = files.map(|file| run(&["open", "--key", KEY, file], b"").out);
    let lines =
        |text: &str| text.split_inclusive('\n').take_while(|line| !line.contains(" frames: ")).collect::<String>();
    let ran = run(&[&["open", "--key", KEY][..], &files].concat(), b"");
    let expected = format!(
        "{}:\n{}{}:\n{}18 frames: 13 opened, 1 clear, 4 refused\n",
        files[0],
        lines(&alone[0]),
        files[1],
        lines(&alone[1])
    );
    assert!(ran.out.starts_with(&expected), "{}", ran.out);
    assert_eq!((ran.err.as_str(), ran.status), ("", 0));
    let json = run(&[&["open", "--key", KEY, "--json"][..], &files].concat(), b"").out;
    assert!(json.contains("{\"file\":\"samples/store.pcapng\",\"record\":1,"), "{json}");
    // A name that is wrong is told before anything is read, and standard input may be one of the files.
    let ran = run(&["open", "--key", KEY, files[0], "no-such-file"], b"");
    let message = "store-reader: no-such-file: No such file or directory (os error 2)\n";
    assert_eq!((ran.out.as_str(), ran.err.as_str(), ran.status), ("", message, 2));
    let ran = run(&["open", "--key", KEY, "--summary-only", files[0], "-"], &sample());
    assert!(ran.out.starts_with("28 frames: 18 opened, 2 clear, 8 refused\n"), "{}", ran.out);
    // What is wrong in one of them is told with its name, and the others are read.
    let broken = scratch("broken.txt");
    fs::write(&broken, "08 0\n").expect("a file");
    let name = broken.to_str().expect("UTF-8");
    let ran = run(&["open", "--key", KEY, "--summary-only", files[0], name, files[1]], b"");
    assert_eq!(
        (ran.err, ran.status),
        (format!("store-reader: {name}: line 1: an odd number of hexadecimal digits, 3\n"), 1)
    );
    assert!(ran.out.starts_with("18 frames: 13 opened,"), "{}", ran.out);
}

/// One row a frame: as many as the sample has records, those of the frames that it was made of, and what the filters let through.
#[test]
fn one_row_a_frame() {
    let open = |options: &[&str]| {
        let arguments = [&["open", "--key", KEY, "--csv", "--frames"], options, &["samples/store.pcap"]].concat();
        let ran = run(&arguments, b"");
        assert_eq!((ran.err.as_str(), ran.status), ("", 0));
        ran.out
    };
    let all = open(&[]);
    let rows: Vec<&str> = all.lines().collect();
    assert_eq!(rows.len(), 1 + 20);
    let heads = rows[0].split(',').count();
    let file = "samples/store.pcap";
    for (record, row) in [
        (
            3,
            "2026-11-18T11:06:42.000000Z,0x1A62,0x7A10,0x0000,right,opened,,,data,0x7A10,0x0000,7,,00:12:4B:00:1C:A1:B2:C3,0,74565,,,\
             000102040401010118010A0000296608",
        ),
        (
            8,
            "2026-11-18T11:06:47.000000Z,0x1A62,0x7A10,0x0000,right,refused,19,the MIC is not the one computed,data,0x7A10,0x0000,8,,\
             00:12:4B:00:1C:A1:B2:C3,0,74566,,,",
        ),
        (
            11,
            "2026-11-18T11:06:50.000000Z,0x1A62,0x7A10,0x0000,right,opened,,,command,0x7A10,0x0000,9,,00:12:4B:00:1C:A1:B2:C3,0,74567,,\
             end device timeout request,0B0E00",
        ),
        (18, "2026-11-18T11:06:57.000000Z,0xFFFF,,0xFFFF,right,not a NWK frame,,Green Power frame,,,,,,,,,,,"),
    ] {
        assert_eq!(rows[record], format!("{file},{record},{row}"));
        assert_eq!(rows[record].split(',').count(), heads);
    }
    assert_eq!(open(&["--refused"]).lines().count(), 1 + 4);
    assert_eq!(open(&["--source", "0xD105"]).lines().count(), 1 + 2);
    let lines = run(&["read", "--csv", "--frames"], b"08 00 00 00 34 12 1E 07 AA\n08 0\n");
    let expected = "standard input,1,,,,,,read,,,data,0x1234,0x0000,7,,,,,,,AA\n\
                    standard input,2,,,,,,not read,,\"an odd number of hexadecimal digits, 3\",,,,,,,,,,,\n";
    assert_eq!(lines.out.split_once('\n').expect("heads").1, expected);
    assert_eq!(
        (lines.err.as_str(), lines.status),
        ("store-reader: line 2: an odd number of hexadecimal digits, 3\n", 1)
    );
}

#[test]
fn a_damaged_frame_is_counted_and_the_rest_is_opened() {
    let mut capture = sample();
    // A byte of the third record's ciphertext: its counter, 74565, stands once in the capture.
    let counter = 74565u32.to_le_bytes();
    let at = capture.windows(4).position(|w| w == counter).expect("the third record");
    capture[at + 14] ^= 0x40;
    let ran = run(&["open", "--key", KEY], &capture);
    let line =
        "data      0x7A10 -> 0x0000  sequence 7  counter 74565  ieee 00:12:4B:00:1C:A1:B2:C3  refused by 19: the MIC \
                is not the one computed  (wrong frame check sequence)\n";
    assert!(ran.out.contains(line), "{}", ran.out);
    assert!(ran.out.contains("14 frames: 8 opened, 1 clear, 5 refused\n"), "{}", ran.out);
    assert_eq!((ran.err.as_str(), ran.status), ("", 0));
}

/// Whatever of the headers reads is shown beside a refusal, on the line and as JSON.
#[test]
fn the_sender_of_a_refused_frame_is_kept() {
    let header = "08 02 00 00 34 12 1E 07";
    let auxiliary = "28 45 23 01 00 01 02 03 04 05 06 07 08 00";
    let shown = "data      0x1234 -> 0x0000  sequence 7";
    let long = "AA ".repeat(119 - 22);
    for (frame, line) in [
        (format!("{header} 28"), format!("{shown}  refused by 9: an auxiliary header has fewer than 6 bytes")),
        (
            format!("{header} {}", &auxiliary[..38]),
            format!("{shown}  refused by 11: an auxiliary header with extended nonce has exactly 13 bytes"),
        ),
        (
            format!("08 00 00 00 34 12 1E 07 {}", "AA ".repeat(109)),
            format!("{shown}  refused by 12: an unsecured payload, or a command to read, has more than 108 bytes"),
        ),
        (
            format!("{header} {auxiliary} {long}"),
            format!("{shown}  counter 74565  ieee 08:07:06:05:04:03:02:01  refused by 1: a frame has more than 118 bytes"),
        ),
        (
            format!("{header} {auxiliary} 00 00 00"),
            format!("{shown}  counter 74565  ieee 08:07:06:05:04:03:02:01  refused by 16: ciphertext with MIC has fewer bytes than the tag"),
        ),
        ("0A 00 00 00 34 12 1E 07".to_string(), "refused by 3: the frame type is 2".to_string()),
    ] {
        let ran = run(&["open", "--key", KEY], frame.as_bytes());
        assert_eq!(ran.out.lines().next(), Some(format!("   1  {line}").as_str()));
    }
    let ran = run(&["open", "--key", KEY, "--json"], format!("{header} {auxiliary} 00 00 00").as_bytes());
    let json = r#"{"line":1,"refusal":16,"condition":"ciphertext with MIC has fewer bytes than the tag","type":"data","source":"0x1234","#;
    assert!(ran.out.starts_with(json), "{}", ran.out);
    assert!(ran.out.contains(r#""auxiliary":{"counter":74565,"#), "{}", ran.out);
    assert!(ran.out.contains(r#""ieee":"08:07:06:05:04:03:02:01"}"#), "{}", ran.out);
}

#[test]
fn a_broken_line_is_reported_and_the_rest_is_read() {
    let input = "# a comment\n08 00 00 00 34 12 1E 07 AA\n\n08 0\n08xx\n-\r\n080000003412 1E07  # another\n";
    let ran = run(&["read"], input.as_bytes());
    let expected = "   2  data      0x1234 -> 0x0000  sequence 7  payload 1 byte: AA\n   \
                    6  refused by 2: a header has fewer than 8 bytes\n   \
                    7  data      0x1234 -> 0x0000  sequence 7  payload 0 bytes\n\
                    3 frames: 2 read, 1 refused\n     \
                    1 refused by 2: a header has fewer than 8 bytes\n\
                    2 inputs could not be read\n";
    let errors = "store-reader: line 4: an odd number of hexadecimal digits, 3\n\
                  store-reader: line 5: column 3: 'x' is no hexadecimal digit\n";
    assert_eq!((ran.out.as_str(), ran.err.as_str(), ran.status), (expected, errors, 1));
}

/// Digits behind `0x`, with commas, and in the lines of a dump; the offset is said once to be passed over.
#[test]
fn digits_in_other_clothes() {
    let expected = "data      0x1234 -> 0x0000  sequence 7  payload 9 bytes: AABBCCDDEEFF001122\n";
    for input in [
        "0x08, 0x00, 0x00, 0x00, 0x34, 0x12, 0x1E, 0x07, 0xAA, 0xBB, 0xCC, 0xDD, 0xEE, 0xFF, 0x00, 0x11, 0x22\n",
        "0x0800000034121E07AABBCCDDEEFF001122\n",
        "0800 00 00 34 12 1E 07 AA BB CC DD EE FF 00 11 22\n",
    ] {
        let ran = run(&["read"], input.as_bytes());
        assert_eq!(ran.out, format!("   1  {expected}1 frame: 1 read, 0 refused\n"));
        assert_eq!((ran.err.as_str(), ran.status), ("", 0));
    }
    let dump = "0000  08 00 00 00 34 12 1e 07 aa bb cc dd ee ff 00 11   ....4...........\n0010  22   \"\n\n\
                00000000  08 00 00 00 34 12 1e 07  aa bb cc dd ee ff 00 11  |....4...........|\n00000010  22  |\"|\n";
    let ran = run(&["read"], dump.as_bytes());
    assert_eq!(ran.out, format!("   1  {expected}   4  {expected}2 frames: 2 read, 0 refused\n"));
    let said = "store-reader: line 1: the offset in front is passed over, here and in what follows\n";
    assert_eq!((ran.err.as_str(), ran.status), (said, 0));
}

/// What these programs print of a frame of 17 bytes, where they are installed.
#[test]
fn dumps_of_other_programs() {
    let frame = [0x08, 0, 0, 0, 0x34, 0x12, 0x1E, 0x07, 0xAA, 0xBB, 0xCC, 0xDD, 0xEE, 0xFF, 0x00, 0x11, 0x22];
    let path = scratch("frame.bin");
    fs::write(&path, frame).expect("a file");
    let name = path.to_str().expect("UTF-8");
    for command in [&["hexdump", "-C"][..], &["od", "-A", "x", "-t", "x1"], &["xxd"], &["xxd", "-g1"]] {
        let Some(dump) = tool(command[0], &[&command[1..], &[name]].concat()) else {
            continue;
        };
        let out = run(&["read"], &dump.stdout).out;
        let expected =
            "   1  data      0x1234 -> 0x0000  sequence 7  payload 9 bytes: AABBCCDDEEFF001122\n1 frame: 1 read";
        assert!(out.starts_with(expected), "{command:?}: {out}");
    }
}

#[test]
fn json_is_one_object_a_line() {
    let ran = run(&["read", "--json"], b"08 00 00 00 34 12 1E 07 AA\n08 0\n08\n");
    let expected = concat!(
        r#"{"line":1,"refusal":0,"type":"data","source":"0x1234","destination":"0x0000","sequence":7,"radius":30,"#,
        r#""version":2,"discovery":"suppress","security":false,"end_device_initiator":false,"payload":"AA"}"#,
        "\n",
        r#"{"line":2,"error":"an odd number of hexadecimal digits, 3"}"#,
        "\n",
        r#"{"line":3,"refusal":2,"condition":"a header has fewer than 8 bytes","bytes":"08"}"#,
        "\n",
        r#"{"summary":{"json_version":1,"frames":2,"accepted":1,"refused":1,"refusals":[{"refusal":2,"count":1,"#,
        r#""condition":"a header has fewer than 8 bytes"}],"skipped":[],"wrong_fcs":0,"broken":1,"bytes_not_read":0}}"#,
        "\n"
    );
    assert_eq!((ran.out.as_str(), ran.status), (expected, 1));
}

#[test]
fn full_shows_every_field() {
    let ran = run(&["open", "--key", KEY, "--full"], SEALED.as_bytes());
    let expected = "line 1
  mark: sealed
  type: data
  source: 0x1234
  destination: 0x0000
  sequence: 7
  radius: 30
  version: 2
  discovery: enable
  security: yes
  end device initiator: no
  auxiliary
    counter: 74565
    level: 0
    key: network key
    key sequence: 0
    verified counter: no
    ieee: 08:07:06:05:04:03:02:01
  payload: 73746F726520726561646572
1 frame: 1 opened, 0 refused
";
    assert_eq!((ran.out.as_str(), ran.status), (expected, 0));
}

/// The summary as comma-separated values: what is counted, the number, how many, the condition.
#[test]
fn the_summary_as_a_table() {
    let ran = run(&["open", "--key", KEY, "--csv", "samples/store.pcap"], b"");
    let expected = "counted,refusal,count,condition
opened,,9,
clear,,1,
refused,3,1,the frame type is 2
refused,10,1,an auxiliary header with extended nonce has 6 to 12 bytes
refused,19,2,the MIC is not the one computed
of these,19,2,\"with a right frame check sequence: under another key or level, or altered\"
not a NWK frame,,1,6LoWPAN frame
not a NWK frame,,1,Green Power frame
not a NWK frame,,1,MAC acknowledgement
not a NWK frame,,1,MAC beacon
not a NWK frame,,1,MAC data frame without a payload
not a NWK frame,,1,inter-PAN frame
wrong frame check sequence,,1,
not read,,0,
bytes not read,,0,
";
    assert_eq!((ran.out.as_str(), ran.err.as_str(), ran.status), (expected, "", 0));
    let quoted = run(&["refusals", "--csv"], b"").out;
    assert!(quoted.contains("\n8,\"a source route has fewer than 2 + 2n bytes for its n relays, or fewer than 2\"\n"));
}

/// Clear frames, by document 02 accepted and marked so. The first has a payload of one byte, the second none, the third and the
/// fourth are commands: document 01's `04 40`, a leave with request, and `04`, which is unparsed. In the fifth one relay of a
/// source route stands between the header's eight bytes and the payload.
const CLEAR: &str = "08 00 00 00 34 12 1E 07 AA
08 00 00 00 34 12 1E 08
09 00 00 00 34 12 1E 09 04 40
09 00 00 00 34 12 1E 0A 04
08 04 00 00 34 12 1E 0B 01 00 78 56 AA BB
";

#[test]
fn clear_frames_are_shown_as_such_and_counted_apart() {
    let ran = run(&["open", "--key", KEY], format!("{CLEAR}{SEALED}\n08\n").as_bytes());
    let expected = "   1  data      0x1234 -> 0x0000  sequence 7  clear  payload 1 byte: AA
   2  data      0x1234 -> 0x0000  sequence 8  clear  payload 0 bytes
   3  command   0x1234 -> 0x0000  sequence 9  clear  leave: request
   4  command   0x1234 -> 0x0000  sequence 10  clear  unparsed: bytes 04
   5  data      0x1234 -> 0x0000  sequence 11  clear  payload 2 bytes: AABB
   6  data      0x1234 -> 0x0000  sequence 7  counter 74565  payload 12 bytes: 73746F726520726561646572
   7  refused by 2: a header has fewer than 8 bytes
7 frames: 1 opened, 5 clear, 1 refused
     1 refused by 2: a header has fewer than 8 bytes
";
    assert_eq!((ran.out.as_str(), ran.err.as_str(), ran.status), (expected, "", 0));
    // Refused ones are those that do not read: clear frames are none of them.
    let ran = run(&["open", "--key", KEY, "--refused"], CLEAR.as_bytes());
    assert_eq!((ran.out.as_str(), ran.status), ("5 frames: 0 opened, 5 clear, 0 refused\n", 0));
}

/// 108 bytes are the most that a clear payload has.
#[test]
fn the_longest_clear_payload_is_shown_whole() {
    let frame = |n: usize| format!("0800000034121E07{}\n", "C5".repeat(n));
    let ran = run(&["open", "--key", KEY], (frame(108) + &frame(109)).as_bytes());
    let expected = format!(
        "   1  data      0x1234 -> 0x0000  sequence 7  clear  payload 108 bytes: {}\n   \
         2  data      0x1234 -> 0x0000  sequence 7  refused by 12: an unsecured payload, or a command to read, has more than \
         108 bytes\n2 frames: 0 opened, 1 clear, 1 refused\n",
        "C5".repeat(108)
    );
    assert!(ran.out.starts_with(&expected), "{}", ran.out);
}

#[test]
fn the_mark_of_a_clear_frame_in_full() {
    let third = CLEAR.lines().nth(2).expect("a frame");
    let ran = run(&["open", "--key", KEY, "--full"], third.as_bytes());
    let expected = "line 1
  mark: clear
  type: command
  source: 0x1234
  destination: 0x0000
  sequence: 9
  radius: 30
  version: 2
  discovery: suppress
  security: no
  end device initiator: no
  command
    name: leave
    rejoin: no
    request: yes
    remove children: no
  payload: 0440
1 frame: 0 opened, 1 clear, 0 refused
";
    assert_eq!((ran.out.as_str(), ran.status), (expected, 0));
}

/// An accepted frame has its mark, a refused one none, and the summary counts the clear ones even where there are none.
#[test]
fn marks_as_json() {
    let open = |input: &str| run(&["open", "--key", KEY, "--json"], input.as_bytes()).out;
    let input = format!("{}\n{SEALED}\n08\n", &CLEAR.lines().next().expect("a frame"));
    let expected = concat!(
        r#"{"line":1,"refusal":0,"mark":"clear","type":"data","source":"0x1234","destination":"0x0000","sequence":7,"#,
        r#""radius":30,"version":2,"discovery":"suppress","security":false,"end_device_initiator":false,"payload":"AA"}"#,
        "\n",
        r#"{"line":2,"refusal":0,"mark":"sealed","type":"data","source":"0x1234","destination":"0x0000","sequence":7,"#,
        r#""radius":30,"version":2,"discovery":"enable","security":true,"end_device_initiator":false,"auxiliary":"#,
        r#"{"counter":74565,"level":0,"key":"network key","key_sequence":0,"verified_counter":false,"#,
        r#""ieee":"08:07:06:05:04:03:02:01"},"payload":"73746F726520726561646572"}"#,
        "\n",
        r#"{"line":3,"refusal":2,"condition":"a header has fewer than 8 bytes","bytes":"08"}"#,
        "\n",
        r#"{"summary":{"json_version":1,"frames":3,"opened":1,"clear":1,"refused":1,"refusals":[{"refusal":2,"count":1,"#,
        r#""condition":"a header has fewer than 8 bytes"}],"skipped":[],"wrong_fcs":0,"broken":0,"bytes_not_read":0}}"#,
        "\n"
    );
    assert_eq!(open(&input), expected);
    let none = open(SEALED);
    assert!(none.contains(r#"{"summary":{"json_version":1,"frames":1,"opened":1,"clear":0,"refused":0,"#), "{none}");
}

/// Without a clear frame the line is as it was, and the table has its row with 0. Reading marks nothing.
#[test]
fn where_nothing_is_clear() {
    let ran = run(&["open", "--key", KEY, "--summary-only"], SEALED.as_bytes());
    assert_eq!(ran.out, "1 frame: 1 opened, 0 refused\n");
    let ran = run(&["open", "--key", KEY, "--csv"], SEALED.as_bytes());
    assert!(ran.out.starts_with("counted,refusal,count,condition\nopened,,1,\nclear,,0,\nwrong"), "{}", ran.out);
    for options in [&[][..], &["--full"], &["--json"], &["--csv"], &["--by-sender"], &["--by-sender", "--csv"]] {
        let read = run(&[&["read"], options].concat(), format!("{CLEAR}{SEALED}\n").as_bytes());
        assert!(!read.out.contains("clear") && !read.out.contains("mark"), "{options:?}: {}", read.out);
    }
    let command = run(&["command"], b"04 40\n");
    assert_eq!(command.out, "   1  leave: request\n1 command: 1 read, 0 refused\n");
}

#[test]
fn sealing_writes_the_frame_that_another_implementation_made() {
    let clear = b"48 00 00 00 34 12 1E 07 73 74 6F 72 65 20 72 65 61 64 65 72\n";
    let address = "08:07:06:05:04:03:02:01";
    let ran = run(&["seal", "--key", KEY, "--ieee", address, "--counter", "0x12345"], clear);
    assert_eq!(ran.out.trim_end(), SEALED.replace(' ', ""));
    assert_eq!((ran.err.as_str(), ran.status), ("", 0));
}

#[test]
fn each_sealed_frame_has_the_next_counter_and_what_fails_is_said() {
    let clear = format!(
        "0800000034121E07AA\n{SEALED}\n0800000034121E\n0800000034121E07BB\n0800000034121E07CC\n0800000034121E07DD\n"
    );
    let ran = run(&["seal", "--key", KEY, "--ieee", "0807060504030201", "--counter", "4294967293"], clear.as_bytes());
    let errors = "store-reader: line 2: the frame is sealed already\n\
                  store-reader: line 3: refused by 2: a header has fewer than 8 bytes\n\
                  store-reader: line 5: refused by 21: the counter to be sealed is FFFFFFFF\n\
                  store-reader: line 6: refused by 21: the counter to be sealed is FFFFFFFF\n";
    assert_eq!((ran.err.as_str(), ran.status), (errors, 1));
    let opened = run(&["open", "--key", KEY], ran.out.as_bytes());
    let expected = "   1  data      0x1234 -> 0x0000  sequence 7  counter 4294967293  payload 1 byte: AA\n   \
                    2  data      0x1234 -> 0x0000  sequence 7  counter 4294967294  payload 1 byte: BB\n\
                    2 frames: 2 opened, 0 refused\n";
    assert_eq!(opened.out, expected);
}

/// Document 02, 4: the counter `FFFFFFFF` is not sealed; without a long address as well it is 15.
#[test]
fn sealing_with_the_last_counter_is_refused_by_21() {
    let clear = b"0800000034121E07AA\n0800000034121E07BB\n";
    let ran = run(&["seal", "--key", KEY, "--ieee=0807060504030201", "--counter=0xFFFFFFFF", "--json"], clear);
    let line =
        |n: usize| format!("{{\"line\":{n},\"refusal\":21,\"condition\":\"the counter to be sealed is FFFFFFFF\"}}\n");
    assert_eq!((ran.out, ran.err.as_str(), ran.status), (line(1) + &line(2), "", 1));
    let ran = run(&["seal", "--key", KEY, "--counter=4294967295"], b"0800000034121E07AA\n");
    assert!(ran.err.starts_with("store-reader: line 1: refused by 15: "), "{}", ran.err);
}

#[test]
fn sealing_without_a_long_address_is_refused_by_15() {
    let ran = run(&["seal", "--key", KEY, "--counter", "1"], b"0800000034121E07AA\n");
    let message =
        "store-reader: line 1: refused by 15: sealing or opening has neither an auxiliary nor a header source IEEE\n";
    assert_eq!((ran.out.as_str(), ran.err.as_str(), ran.status), ("", message, 1));
    let ran = run(&["seal", "--key", KEY, "--counter=1", "--json"], b"0800000034121E07AA\n08 0\n");
    let expected = concat!(
        r#"{"line":1,"refusal":15,"condition":"sealing or opening has neither an auxiliary nor a header source IEEE"}"#,
        "\n",
        r#"{"line":2,"error":"an odd number of hexadecimal digits, 3"}"#,
        "\n"
    );
    assert_eq!((ran.out.as_str(), ran.err.as_str(), ran.status), (expected, "", 1));
}

/// Document 02, 8: with each choice of the optional fields the command sets the bits, so that it is never 28. Only bit 9 of the header
/// has changed, and every frame opens; without --ieee it takes the header's source IEEE, else it is 15.
#[test]
fn sealing_sets_the_presence_bits() {
    let header = |fields: u8, security: u8| {
        let ieee = "0102030405060708";
        let control = 0x08_00 | u16::from(fields & 1 | (fields & 14) << 1 | security << 1);
        let optional = [(4, ieee), (8, ieee), (1, "5A"), (2, "01003412")];
        let fields = optional.iter().filter(|(choice, _)| fields & choice != 0);
        format!("{control:04X}000034121E07{}", fields.map(|(_, digits)| *digits).collect::<String>())
    };
    let clear: String = (0..16).map(|fields| header(fields, 0) + "AA\n").collect();
    for (ieee, sealed_fields) in [(Some("--ieee=0807060504030201"), 0..16), (None, 8..16)] {
        let arguments: Vec<&str> = ["seal", "--key", KEY, "--counter=1"].into_iter().chain(ieee).collect();
        let ran = run(&arguments, clear.as_bytes());
        let refused = ran.err.lines().filter(|line| line.contains(": refused by 15: ")).count();
        assert_eq!(
            (refused, ran.err.lines().count()),
            (16 - sealed_fields.len(), 16 - sealed_fields.len()),
            "{}",
            ran.err
        );
        let starts = sealed_fields.clone().map(|fields| header(fields, 1));
        assert!(ran.out.lines().zip(starts).all(|(line, start)| line.starts_with(&start)), "{}", ran.out);
        let opened = run(&["open", "--key", KEY, "--summary-only"], ran.out.as_bytes()).out;
        assert_eq!(opened, format!("{0} frames: {0} opened, 0 refused\n", sealed_fields.len()));
    }
}

/// A frame of type 3 that is sealed has been authenticated: it opens as any other.
#[test]
fn a_sealed_frame_of_type_3_opens() {
    let clear = b"0B00000034121E07AA\n";
    let sealed = run(&["seal", "--key", KEY, "--ieee=0807060504030201", "--counter=1"], clear).out;
    let ran = run(&["open", "--key", KEY], sealed.as_bytes());
    assert!(ran.out.starts_with("   1  inter-PAN 0x1234 -> 0x0000  sequence 7  counter 1  payload 1 byte: AA\n"));
    // Unsealed it has two bytes of NWK header, and what is behind them are no addresses.
    let ran = run(&["read", "--json"], clear);
    assert!(ran.out.starts_with("{\"line\":1,\"skipped\":\"inter-PAN frame\",\"bytes\":\"000034121E07AA\"}\n"));
}

#[test]
fn commands_are_named_with_their_fields() {
    let input = "08 E1 34 12 B9\n0B 0E 00\n0B 0F 00\n04 40\n04\n05 01 34 12\n0C 00 05\n0D 02 02 21 43 F6 65 87 0A\n";
    let ran = run(&["command"], input.as_bytes());
    let expected = "   1  link status: first, last, links [to 0x1234 in 1 out 3]
   2  end device timeout request: timeout 14, seconds 983040, configuration 0
   3  unparsed: bytes 0B0F00
   4  leave: request
   5  unparsed: bytes 04
   6  route record: relays [0x1234]
   7  end device timeout response: status success, data poll keepalive, power negotiation
   8  link power delta: kind response, powers [of 0x4321 delta -10, of 0x8765 delta 10]
8 commands: 8 read, 0 refused
";
    assert_eq!((ran.out.as_str(), ran.status), (expected, 0));
    let json = run(&["command", "--json"], b"0D 00 01 21 43 F6\n").out;
    assert!(json.contains(r#""powers":[{"of":"0x4321","delta":-10}]"#), "{json}");
}

#[test]
fn wrong_arguments_are_named() {
    for (arguments, message) in [
        (&[][..], "a command is missing"),
        (&["weigh"], "\"weigh\" is no command"),
        (&["open"], "--key HEX or --key-file FILE is missing"),
        (&["open", "--key"], "--key needs a value"),
        (&["open", "--key", "C0C1"], "--key: 2 bytes where 16 are expected"),
        (&["open", "--key", "C0x"], "--key: column 3: 'x' is no hexadecimal digit"),
        (&["open", "--key-file", "no-such-file"], "no-such-file: No such file or directory (os error 2)"),
        (&["read", "--full", "--json"], "--full and --json exclude each other"),
        (&["read", "--json", "--csv"], "--json and --csv exclude each other"),
        (&["read", "--json=no"], "--json takes no value"),
        (&["read", "--json", "--json"], "--json is given twice"),
        (&["read", "--key", KEY], "read has no option --key"),
        (&["read", "--replay"], "read has no option --replay"),
        (&["seal", "--key", KEY, "--counter=1", "--replay"], "seal has no option --replay"),
        (&["open", "--key", KEY, "--replay=yes"], "--replay takes no value"),
        (&["open", "--key", KEY, "--replay", "--replay"], "--replay is given twice"),
        (&["open", "--replay"], "--key HEX or --key-file FILE is missing"),
        (
            &["open", "--key", KEY, "--key-sequence", "1"],
            "open has --key-sequence only beside --replay: else no key sequence number is active",
        ),
        (&["open", "--key", KEY, "--replay", "--key-sequence=256"], "--key-sequence: \"256\" is no number that fits"),
        (&["command", "a", "b"], "command takes one file here: \"b\""),
        (&["command", "--", "--json", "b"], "command takes one file here: \"b\""),
        (&["read", "-", "-"], "- is given twice"),
        (&["open", "--by-sendr"], "open has no option --by-sendr; did you mean --by-sender?"),
        (&["open", "--jmup=3"], "open has no option --jmup; did you mean --jump?"),
        (&["opne"], "\"opne\" is no command; did you mean open?"),
        (&["help", "raed"], "\"raed\" is no command; did you mean read?"),
        (&["read", "--by", "week"], "--by: \"week\" is neither day nor hour"),
        (&["open", "--key", KEY, "--level", "4"], "--level: \"4\" is not 5, 6 or 7"),
        (&["open", "--key", KEY, "--level=05"], "--level: \"05\" is not 5, 6 or 7"),
        (&["seal", "--key", KEY, "--level", "8", "--counter=1"], "--level: \"8\" is not 5, 6 or 7"),
        (&["open", "--key", KEY, "--level", "5", "--level", "6"], "--level is given twice"),
        (&["open", "--key", KEY, "--levle=6"], "open has no option --levle; did you mean --level?"),
        (&["open", "--key", KEY, "--level"], "--level needs a value"),
        (&["read", "--level=5"], "read has no option --level"),
        (&["read", "--by-sender", "--jump", "0"], "--jump: a counter rises by 1 at least"),
        (&["read", "--jump", "7"], "read has --jump only beside --by-sender or --by"),
        (&["read", "--frames"], "--frames is given only beside --csv"),
        (&["read", "--json", "--frames"], "--frames is given only beside --csv"),
        (&["read", "--csv", "--frames", "--summary-only"], "--frames and --summary-only exclude each other"),
        (
            &["read", "--csv", "--frames", "--by=day"],
            "--frames has a row for each frame, and no rows by sender or time",
        ),
        (&["read", "--source", "0x12345"], "--source: an odd number of hexadecimal digits, 5"),
        (&["journal", "--full"], "journal has no option --full"),
        (&["journal", "--csv"], "journal has no option --csv"),
        (&["journal", "a", "b"], "journal takes one file here: \"b\""),
        (&["journal", "a", "--shrink"], "--shrink needs a value"),
        (&["journal", "a", "--shrink", "-"], "--shrink: \"-\" is no name of a file"),
        (&["journal", "a", "--shrink="], "--shrink: \"\" is no name of a file"),
        (&["journal", "a", "--shrink", "b", "--shrink", "c"], "--shrink is given twice"),
        (&["read", "a", "--shrink", "b"], "read has no option --shrink"),
        (&["refusals", "a"], "refusals takes no file here: \"a\""),
        (&["seal", "--key", KEY, "--key", KEY, "--counter", "1"], "seal takes one key"),
        (&["seal", "--key", KEY, "--counter", "1", "--counter", "2"], "--counter is given twice"),
        (
            &["seal", "--key", KEY],
            "--counter N is missing: a counter sealed twice under one key repeats the key stream",
        ),
        (&["seal", "--key", KEY, "--counter", "4294967296"], "--counter: \"4294967296\" is no number that fits"),
        (&["seal", "--key", KEY, "--counter", "1", "--ieee", "00"], "--ieee: 1 byte where 8 are expected"),
        (
            &["seal", "--key", "2:C0C1C2C3C4C5C6C7C8C9CACBCCCDCECF", "--counter=1", "--key-sequence=1"],
            "--key-sequence 1 for a key of number 2",
        ),
    ] {
        let ran = run(arguments, b"");
        let expected = format!("store-reader: {message}\nstore-reader --help says more\n");
        assert_eq!((ran.out.as_str(), ran.err, ran.status), ("", expected, 2), "{arguments:?}");
    }
}

#[test]
fn a_file_may_have_the_name_of_an_option() {
    let ran = run(&["read", "--", "--json"], b"");
    let message = "store-reader: --json: No such file or directory (os error 2)\n";
    assert_eq!((ran.out.as_str(), ran.err.as_str(), ran.status), ("", message, 2));
}

#[test]
fn the_version_is_that_of_the_crate() {
    for arguments in [&["--version"][..], &["-V"], &["open", "-V"], &["read", "--version"]] {
        let ran = run(arguments, b"");
        assert_eq!((ran.out, ran.status), (format!("store-reader {}\n", env!("CARGO_PKG_VERSION")), 0));
    }
}

#[test]
fn help_shows_an_example_of_each_command() {
    for arguments in [&["--help"][..], &["help"], &["-h"]] {
        let ran = run(arguments, b"");
        assert_eq!((ran.err.as_str(), ran.status), ("", 0));
        let examples = ran.out.split("Examples").nth(1).expect("examples");
        for name in ["open", "read", "seal", "command", "journal", "refusals"] {
            assert!(examples.contains(&format!("store-reader {name}")), "no example of {name}");
        }
    }
}

/// Every example of the help runs as printed, from the repository's root.
#[test]
fn the_examples_of_the_help_run() {
    let help = run(&["--help"], b"").out;
    let examples = help.split("Examples\n").nth(1).expect("examples").replace("\\\n", " ");
    let folder = PathBuf::from(env!("CARGO_BIN_EXE_store-reader"));
    let path =
        format!("{}:{}", folder.parent().expect("a folder").display(), std::env::var("PATH").unwrap_or_default());
    let lines: Vec<&str> = examples.lines().filter(|line| !line.trim().is_empty()).collect();
    assert_eq!(lines.len(), 14);
    for line in lines {
        let ran =
            Command::new("sh").args(["-c", line]).env("PATH", &path).current_dir(root()).output().expect("a shell");
        assert!(ran.status.success() && ran.stderr.is_empty() && !ran.stdout.is_empty(), "{line}");
    }
}

// ---- outputs, inputs and numbers at their limits

/// A full standard output is a file that cannot be written.
#[test]
fn a_full_output_ends_with_2() {
    let folder = PathBuf::from(env!("CARGO_BIN_EXE_store-reader"));
    for arguments in ["refusals", "--help", "read samples/store.pcap", "journal samples/store.journal"] {
        let line = format!("{} {arguments} > /dev/full", folder.display());
        let Some(ran) = tool("bash", &["-c", &line]) else { return };
        let message = "store-reader: standard output: No space left on device (os error 28)\n";
        assert_eq!(
            (String::from_utf8_lossy(&ran.stderr).as_ref(), ran.status.code()),
            (message, Some(2)),
            "{arguments}"
        );
    }
}

/// 200 MB without a line's end, in a process that may have 100: the line is told, and the next one is read.
#[test]
fn a_line_without_end_takes_little_memory() {
    let line = format!(
        "ulimit -v 100000; {{ head -c 200000000 /dev/zero | tr '\\0' '8'; echo; echo 0800000034121E07AA; }} | {} read",
        env!("CARGO_BIN_EXE_store-reader")
    );
    let Some(ran) = tool("bash", &["-c", &line]) else { return };
    let (out, err) = (String::from_utf8_lossy(&ran.stdout), String::from_utf8_lossy(&ran.stderr));
    assert_eq!(
        (err.as_ref(), ran.status.code()),
        ("store-reader: line 1: the line has more than 65535 bytes\n", Some(1))
    );
    assert!(out.starts_with("   2  data "), "{out}");
}

/// Nor does a file of keys without end.
#[test]
fn a_key_file_without_end_is_refused() {
    let ran = run(&["open", "--key-file", "/dev/zero", "samples/store.pcap"], b"");
    let message =
        "store-reader: /dev/zero: more than 1048576 bytes are no file of keys\nstore-reader --help says more\n";
    assert_eq!((ran.out.as_str(), ran.err.as_str(), ran.status), ("", message, 2));
}

/// A number is digits, or digits behind `0x`: a sign is none.
#[test]
fn a_sign_is_no_digit() {
    for (option, value) in [("--counter", "0x+5"), ("--counter", "+5"), ("--counter", "0x"), ("--counter", "-5")] {
        let ran = run(&["seal", "--key", KEY, option, value], b"");
        let message =
            format!("store-reader: {option}: {value:?} is no number that fits\nstore-reader --help says more\n");
        assert_eq!((ran.err, ran.status), (message, 2));
    }
    assert_eq!(run(&["read", "--source", "0x+5"], b"").status, 2);
    for value in ["0x5", "5"] {
        let arguments = ["seal", "--key", KEY, "--counter", value, "--ieee", "00:12:4B:00:1C:A1:B2:C3"];
        assert_eq!(run(&arguments, b"0800000034121E07AA\n").status, 0);
    }
}
