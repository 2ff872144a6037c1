//! Counts by sender. The sample's senders and counters are those that `samples/capture.py` put in.
#[allow(dead_code)]
mod support;

use support::command::{run, KEY};

/// The router passed on 6998 and 6999 and sent 7001 and 7002: 7000 is missing, and with no frame of its own in front of it nothing says
/// that the router did not restart there. The probe sent 74565 to 74571 with the sequence numbers 7 to 13: 74566 was altered, 74568 was
/// cut before its counter could be read, and of 74569 and 74570 nothing arrived. The neighbour sealed one frame and left one clear.
#[test]
fn the_samples_senders() {
    let ran =
        run(&["open", "--key-file", "samples/store.keys", "--by-sender", "--summary-only", "samples/store.pcap"], b"");
    let expected = "\
sender                   short   opened  clear  refused                                  first                        last                         sequence numbers never heard
00:12:4B:00:1C:A1:00:01  0x0000       2      0        0                                  2026-11-18T11:06:41.000000Z  2026-11-18T11:06:46.000000Z                             0
00:12:4B:00:1C:A1:00:02  0x3F21       2      0        0                                  2026-11-18T11:06:52.000000Z  2026-11-18T11:06:53.000000Z                             0
00:12:4B:00:1C:A1:B2:C3  0x7A10       3      0        2  1 by 10, 1 by 19 (1 right FCS)  2026-11-18T11:06:42.000000Z  2026-11-18T11:06:55.000000Z                             2
00:12:4B:00:1C:A1:B2:C9  0xD105       2      0        0                                  2026-11-18T11:06:44.000000Z  2026-11-18T11:06:45.000000Z                             0
00:12:4B:00:AA:AA:00:44  0x9C44       1      1        0                                  2026-11-18T11:06:48.000000Z  2026-11-18T11:06:49.000000Z                             0
header not read                       0      0        1  1 by 3                          2026-11-18T11:06:54.000000Z  2026-11-18T11:06:54.000000Z
counters of              key  first to highest  received  in gaps  of these refused  jumps  starts anew  not above  lost       loss rate
00:12:4B:00:1C:A1:00:01    0  90210 to 90211           2        0                 0  0                0          0  0          0.0 %
00:12:4B:00:1C:A1:00:02    0  6998 to 7002             4        1                 0  0                0          0  at most 1  at most 20.0 %
00:12:4B:00:1C:A1:B2:C3    0  74565 to 74571           3        4                 1  0                0          0  4          57.1 %
00:12:4B:00:AA:AA:00:44    0  3 to 3                   1        0                 0  0                0          0  0          0.0 %
all                                                   10        5                 1  0                0          0  4 to 5     28.6 to 33.3 %
14 frames: 10 opened, 1 clear, 3 refused
";
    assert!(ran.out.starts_with(expected), "{}", ran.out);
    assert_eq!((ran.err.as_str(), ran.status), ("", 0));
}

#[test]
fn the_same_as_comma_separated_values() {
    let ran = run(&["open", "--key-file", "samples/store.keys", "--by-sender", "--csv", "samples/store.pcap"], b"");
    let mut lines = ran.out.lines();
    let heads: Vec<&str> = lines.next().expect("heads").split(',').collect();
    assert_eq!(heads[..5], ["ieee", "short", "opened", "clear", "refused"]);
    assert_eq!(heads.len(), 5 + 19 + 19);
    let cell = |line: &str, head: &str| {
        let at = heads.iter().position(|found| *found == head).unwrap_or_else(|| panic!("no column {head}"));
        line.split(',').nth(at).expect("a cell").to_string()
    };
    let probe = lines.clone().find(|line| line.starts_with("00:12:4B:00:1C:A1:B2:C3,0x7A10,")).expect("the probe");
    for (head, expected) in [
        ("opened", "3"),
        ("clear", "0"),
        ("refused", "2"),
        ("refused_by_10", "1"),
        ("refused_by_14", "0"),
        ("refused_by_19", "1"),
        ("first_time", "2026-11-18T11:06:42.000000Z"),
        ("last_time", "2026-11-18T11:06:55.000000Z"),
        ("refused_by_19_wrong_fcs", "0"),
        ("refused_by_19_right_fcs", "1"),
        ("sequence_numbers_never_heard", "2"),
        ("key_numbers", "0"),
        ("first_counter", "74565"),
        ("highest_counter", "74571"),
        ("received", "3"),
        ("gaps", "4"),
        ("gaps_refused", "1"),
        ("lost_at_least", "4"),
        ("lost_at_most", "4"),
        ("loss_rate_at_least", "0.5714"),
        ("loss_rate_at_most", "0.5714"),
    ] {
        assert_eq!(cell(probe, head), expected, "{head}");
    }
    let sum = |head: &str| lines.clone().map(|line| cell(line, head).parse::<u64>().expect("a number")).sum::<u64>();
    assert_eq!(["opened", "clear", "refused"].map(sum), [10, 1, 3]);
}

#[test]
fn the_same_as_json() {
    let arguments = ["open", "--key", KEY, "--by-sender", "--summary-only", "--json", "samples/store.pcap"];
    let out = run(&arguments, b"").out;
    let probe = concat!(
        r#"{"sender":{"ieee":"00:12:4B:00:1C:A1:B2:C3","short":["0x7A10"],"opened":3,"clear":0,"refused":2,"#,
        r#""refusals":[{"refusal":10,"count":1},{"refusal":19,"count":1,"wrong_fcs":0,"right_fcs":1}],"#,
        r#""first_time":"2026-11-18T11:06:42.000000Z","last_time":"2026-11-18T11:06:55.000000Z","#,
        r#""sequence_numbers_never_heard":2,"counters":[{"key_number":0,"first":74565,"highest":74571,"received":3,"#,
        r#""gaps":4,"gaps_refused":1,"jumps":0,"passed_over":0,"starts_anew":0,"not_above":0,"lost_at_least":4,"#,
        r#""lost_at_most":4,"loss_rate_at_least":0.5714,"loss_rate_at_most":0.5714}]}}"#
    );
    assert!(out.lines().any(|line| line == probe), "{out}");
    // Under the store's key the neighbour's sealed frame is refused and the other is clear, so its long address is only claimed.
    let neighbour = r#"{"sender":{"short":["0x9C44"],"opened":0,"clear":1,"refused":1,"#;
    assert!(out.lines().any(|line| line.starts_with(neighbour)), "{out}");
    assert!(out.lines().last().expect("a line").starts_with(r#"{"summary":"#), "{out}");
}

/// Without a MAC header the sealing device is taken to be the source; each key has counters of its own.
#[test]
fn senders_of_lines() {
    let clear = b"0800000034121E07AA\n0800000034121E08BB\n";
    let seal = |key: &str, counter: &str| {
        let key = format!("{key}:{KEY}");
        run(&["seal", "--key", &key, "--counter", counter, "--ieee", "0807060504030201"], clear).out
    };
    let frames = seal("0", "10") + &seal("0", "20") + &seal("1", "1");
    let out = run(&["open", "--key", KEY, "--by-sender", "--summary-only"], frames.as_bytes()).out;
    let row = |at: usize| -> Vec<&str> {
        let row = out.lines().nth(at).expect("a row");
        row.split("  ").map(str::trim).filter(|cell| !cell.is_empty()).collect()
    };
    let address = "08:07:06:05:04:03:02:01";
    assert_eq!(row(1), [address, "0x1234", "6", "0", "0"], "{out}");
    // 12 to 19 are missing, and the sequence number falls from 8 to 7: a restart, since it cannot have risen by 255 under 9 counters.
    let jump = "1 restart or more, 8 counters passed over";
    assert_eq!(
        row(3),
        [address, "0", "10 to 21", "4", "0", "0", jump, "0", "0", "at most 8", "at most 66.7 %"],
        "{out}"
    );
    assert_eq!(row(4), [address, "1", "1 to 2", "2", "0", "0", "0", "0", "0", "0", "0.0 %"], "{out}");
    assert!(!out.contains("clear"), "{out}");
    // A table for a program has the same columns whatever was heard.
    let csv = run(&["open", "--key", KEY, "--by-sender", "--csv"], frames.as_bytes()).out;
    assert!(csv.starts_with("ieee,short,opened,clear,refused,refused_by_1,"), "{csv}");
    assert!(csv.contains("\n08:07:06:05:04:03:02:01,0x1234,6,0,0,0,"), "{csv}");
}

/// A clear frame that claims the sender's short address under another long one: it is counted apart, has no counter, and the
/// sender keeps its long address.
#[test]
fn a_clear_frame_shows_no_long_address() {
    let sealing = ["seal", "--key", KEY, "--counter", "1", "--ieee", "0807060504030201"];
    let sealed = run(&sealing, b"0800000034121E07AA\n0800000034121E08BB\n").out;
    let claimed = "0810000034121E09 1111111111111111 CC\n";
    let out = run(&["open", "--key", KEY, "--by-sender", "--summary-only"], (sealed + claimed).as_bytes()).out;
    let expected = "\
sender                   short   opened  clear  refused    first  last  sequence numbers never heard
08:07:06:05:04:03:02:01  0x1234       2      0        0                                            0
11:11:11:11:11:11:11:11  0x1234       0      1        0
counters of              key  first to highest  received  in gaps  of these refused  jumps  starts anew  not above  lost  loss rate
08:07:06:05:04:03:02:01    0  1 to 2                   2        0                 0  0                0          0  0     0.0 %
3 frames: 2 opened, 1 clear, 0 refused
";
    assert_eq!(out, expected);
}

/// Reading marks nothing: its table has the columns and the names that it had.
#[test]
fn senders_of_read_frames() {
    let csv = run(&["read", "--by-sender", "--csv", "samples/store.pcap"], b"").out;
    let heads = csv.lines().next().expect("heads");
    assert!(heads.starts_with("ieee,short,read,refused,refused_by_1,") && heads.split(',').count() == 4 + 19 + 19);
    let json = run(&["read", "--by-sender", "--summary-only", "--json", "samples/store.pcap"], b"").out;
    assert!(json.lines().all(|line| line.contains(r#","accepted":"#) && !line.contains("clear")), "{json}");
}

/// Clear frames of more senders than have a row: what comes beyond is counted in one, so that the columns add up.
#[test]
fn more_senders_than_rows() {
    let (rows, beyond) = (100_000u32, 23);
    let mut capture = [0xA1B2_C3D4u32, 0x0004_0002, 0, 0, 65_535, 230].map(u32::to_le_bytes).concat();
    for n in 0..rows + beyond {
        let (pan, source) = ((n >> 16) as u16, n as u16);
        let mac = [&[0x41, 0x88, 1][..], &pan.to_le_bytes(), &[0, 0], &source.to_le_bytes()].concat();
        let frame = [&mac[..], &[8, 0, 0, 0], &source.to_le_bytes(), &[30, 7, 0xAA]].concat();
        capture.extend([n / 100, 0, frame.len() as u32, frame.len() as u32].map(u32::to_le_bytes).concat());
        capture.extend(frame);
    }
    for options in [&["--by-sender"][..], &["--by-sender", "--by", "hour"]] {
        let ran = run(&[&["open", "--key", KEY, "--csv"], options].concat(), &capture);
        let told = "store-reader: more than 100000 rows or 10000 devices: the rest is told as further senders\n";
        assert_eq!((ran.err.as_str(), ran.status), (told, 0));
        let heads = ran.out.lines().next().expect("heads");
        let at = heads.split(',').position(|head| head == "clear").expect("a column");
        let clear = |row: &str| row.split(',').nth(at).and_then(|cell| cell.parse::<u32>().ok());
        let counts: Vec<u32> = ran.out.lines().skip(1).filter_map(clear).collect();
        assert_eq!((counts.len() as u32, counts.iter().sum::<u32>()), (rows + 1, rows + beyond));
        let further = ran.out.lines().find(|row| row.contains("further senders")).expect("a row of the rest");
        assert_eq!(clear(further), Some(beyond), "{further}");
    }
    let json = run(&["open", "--key", KEY, "--json", "--summary-only", "--by-sender"], &capture).out;
    assert!(json.contains(r#"{"sender":{"further_senders":true,"short":["#), "no row of the rest");
}
