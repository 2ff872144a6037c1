//! Captures as sniffers, Wireshark and its tools write them. What outside tools say of a capture is compared where they are
//! installed.
#[allow(dead_code)]
mod support;

use std::collections::BTreeMap;
use std::fs;
use support::command::{not_installed, root, run, scratch, tool, KEY};
use support::hex::unhex;

/// A MAC data frame of PAN 0x1A62 from 0x1234 to 0x0000 around a NWK frame without security, and its FCS. The FCS is that
/// which tshark calls correct.
const MAC: [u8; 18] = [0x41, 0x88, 1, 0x62, 0x1A, 0, 0, 0x34, 0x12, 0x08, 0, 0, 0, 0x34, 0x12, 0x1E, 0x07, 0xAA];
const FCS: [u8; 2] = [0x5B, 0x18];
const FCS_OF_FOUR: [u8; 4] = [0xE4, 0x16, 0x76, 0x5F];

const SHOWN: &str = "0x1A62 0x1234>0x0000   data      0x1234 -> 0x0000  sequence 7  payload 1 byte: AA";
const NO_TIME: &str = "1970-01-01T00:00:00.000000Z";

/// The 24 bytes at a pcap capture's front.
fn pcap_header(link_type: u32, big_endian: bool) -> Vec<u8> {
    let order = |number: u32| if big_endian { number.to_be_bytes() } else { number.to_le_bytes() };
    let mut header = order(0xA1B2_C3D4).to_vec();
    header.extend(if big_endian { [0, 2, 0, 4] } else { [2, 0, 4, 0] });
    header.extend([0; 8]);
    header.extend(order(65535));
    header.extend(order(link_type));
    header
}

/// A pcap capture of one record.
fn pcap(link_type: u32, record: &[u8]) -> Vec<u8> {
    let mut capture = pcap_header(link_type, false);
    capture.extend([0; 8]);
    capture.extend((record.len() as u32).to_le_bytes());
    capture.extend((record.len() as u32).to_le_bytes());
    capture.extend(record);
    capture
}

/// A block of a pcapng capture.
fn block(kind: u32, body: &[u8]) -> Vec<u8> {
    let padding = body.len().next_multiple_of(4) - body.len();
    let length = (body.len() + padding + 12) as u32;
    let mut block = [kind.to_le_bytes(), length.to_le_bytes()].concat();
    block.extend(body);
    block.extend(vec![0; padding]);
    block.extend(length.to_le_bytes());
    block
}

fn section() -> Vec<u8> {
    block(0x0A0D_0D0A, &[&0x1A2B_3C4Du32.to_le_bytes()[..], &[1, 0, 0, 0], &[0xFF; 8]].concat())
}

fn interface(link_type: u16, options: &[u8]) -> Vec<u8> {
    block(1, &[&link_type.to_le_bytes()[..], &[0; 6], options].concat())
}

fn packet(interface: u32, units: u64, record: &[u8]) -> Vec<u8> {
    let n = (record.len() as u32).to_le_bytes();
    let (high, low) = ((units >> 32) as u32, units as u32);
    let fields = [interface.to_le_bytes(), high.to_le_bytes(), low.to_le_bytes(), n, n].concat();
    block(6, &[&fields, record].concat())
}

/// The first line that `read` prints of a capture, without its number.
fn first_line(capture: &[u8]) -> String {
    let ran = run(&["read"], capture);
    assert_eq!((ran.err.as_str(), ran.status), ("", 0), "{}", ran.out);
    ran.out.lines().next().expect("a line").trim_start().trim_start_matches("1  ").to_string()
}

#[test]
fn every_link_type() {
    let with_fcs = [&MAC[..], &FCS].concat();
    let phy = [&[0, 0, 0, 0, 0xA7, with_fcs.len() as u8][..], &with_fcs].concat();
    let tap = |kind: u8, frame: &[u8]| [&[0, 0, 12, 0, 0, 0, 1, 0, kind, 0, 0, 0][..], frame].concat();
    let expected = format!("{NO_TIME}  {SHOWN}");
    for (link_type, record) in [
        (195, with_fcs.clone()),
        (230, MAC.to_vec()),
        (215, phy.clone()),
        (283, tap(1, &with_fcs)),
        (283, tap(0, &MAC)),
        (283, tap(2, &[&MAC[..], &FCS_OF_FOUR].concat())),
        (283, [&[0, 0, 4, 0][..], &MAC].concat()),
    ] {
        assert_eq!(first_line(&pcap(link_type, &record)), expected, "link type {link_type}");
        let ng = [section(), interface(link_type as u16, &[]), packet(0, 0, &record)].concat();
        assert_eq!(first_line(&ng), expected, "pcapng, link type {link_type}");
    }
    // The upper bits of the link type say that there is an FCS of no bytes.
    let said = 215 | 1 << 26;
    assert_eq!(first_line(&pcap(said, &[&phy[..5], &[MAC.len() as u8], &MAC].concat())), expected);
    for (kind, frame) in [(1, [&MAC[..], &[0, 0]].concat()), (2, [&MAC[..], &[0; 4]].concat())] {
        let wrong = first_line(&pcap(283, &tap(kind, &frame)));
        assert_eq!(wrong, format!("{expected}  (wrong frame check sequence)"));
    }
}

/// A wrong FCS is marked on whatever it stands behind, and counted of frames.
#[test]
fn a_wrong_fcs_is_marked() {
    let beacon = [0x00, 0x80, 1, 0x62, 0x1A, 0, 0, 0xFF, 0xCF, 0, 0];
    let ran = run(&["read"], &pcap(195, &[&beacon[..], &[0, 0]].concat()));
    let shown = format!("   1  {NO_TIME}  0x1A62 0x0000>none     MAC beacon  (wrong frame check sequence)\n");
    assert!(ran.out.starts_with(&shown) && !ran.out.contains("1 with a wrong"), "{}", ran.out);
    let ran = run(&["read"], &pcap(195, &[&MAC[..], &[0, 0]].concat()));
    assert!(ran.out.ends_with("1 frame: 1 read, 0 refused\n     1 with a wrong frame check sequence\n"), "{}", ran.out);
}

#[test]
fn a_big_endian_capture_without_fcs() {
    let mut capture = pcap_header(230, true);
    capture.extend(1_795_000_000u32.to_be_bytes());
    capture.extend(42u32.to_be_bytes());
    capture.extend((MAC.len() as u32).to_be_bytes());
    capture.extend((MAC.len() as u32).to_be_bytes());
    capture.extend(MAC);
    assert_eq!(first_line(&capture), format!("2026-11-18T11:06:40.000042Z  {SHOWN}"));
}

/// The samples are what `samples/capture.py` makes, where Python and its package cryptography are installed.
#[test]
fn the_samples_are_as_they_are_made() {
    let folder = scratch("samples");
    fs::create_dir_all(&folder).expect("a folder");
    for file in ["capture.py", "store.key"] {
        fs::copy(root().join("samples").join(file), folder.join(file)).expect(file);
    }
    if !tool("python3", &["-c", "import cryptography"]).is_some_and(|asked| asked.status.success()) {
        not_installed("the Python package cryptography");
        return;
    }
    let script = folder.join("capture.py");
    let made = tool("python3", &[script.to_str().expect("UTF-8")]).expect("python3");
    assert!(made.status.success(), "{}", String::from_utf8_lossy(&made.stderr));
    for file in ["store.pcap", "store.pcapng", "store.journal"] {
        let kept = fs::read(root().join("samples").join(file)).expect(file);
        assert_eq!(fs::read(folder.join(file)).expect(file), kept, "{file}");
    }
}

/// Interfaces with a link type and a resolution each, in sections of both byte orders, with blocks to pass over between:
/// the times and frames that `samples/capture.py` put in.
#[test]
fn the_pcapng_sample() {
    let ran = run(&["open", "--key-file", "samples/store.keys", "samples/store.pcapng"], b"");
    let report = "0x1A62 0x7A10>0x0000   data      0x7A10 -> 0x0000";
    let last =
        format!("{report}  sequence 13  counter 74571  key 1  payload 16 bytes: 000102040401010618060A0000299808");
    let expected = format!(
        "   1  2026-11-18T11:06:42.000000001Z  {report}  sequence 7  counter 74565  key 1  payload 16 bytes: \
         000102040401010118010A0000296608
   2  2026-11-18T11:06:44.375Z  0x1A62 0x3F21>0x0000   command   0xD105 -> 0x0000  sequence 40  counter 6998  key 1  \
         route record: relays [0x52B0, 0x3F21]
   3  2026-11-18T11:06:55.250000Z  {last}
   4  2026-11-18T11:06:55.500000Z  {last}
4 frames: 4 opened, 0 refused
     4 opened with key 1
"
    );
    assert_eq!((ran.out.as_str(), ran.err.as_str(), ran.status), (expected.as_str(), "", 0));
}

#[test]
fn records_of_pcapng_that_are_not_plain() {
    let with_fcs = [&MAC[..], &FCS].concat();
    let simple = block(3, &[&(MAC.len() as u32).to_le_bytes()[..], &MAC].concat());
    let old = block(2, &[&[0; 12][..], &[20, 0, 0, 0, 20, 0, 0, 0], &with_fcs].concat());
    let capture = [section(), interface(230, &[]), simple, section(), interface(195, &[]), old].concat();
    let ran = run(&["read"], &capture);
    let expected = format!("   1  {SHOWN}\n   2  {NO_TIME}  {SHOWN}\n2 frames: 2 read, 0 refused\n");
    assert_eq!((ran.out.as_str(), ran.err.as_str(), ran.status), (expected.as_str(), "", 0));
    // An Ethernet interface beside, a packet of no interface, and a packet cut by the capture: the rest goes on.
    let cut = block(6, &[&[0; 12][..], &[4, 0, 0, 0, 40, 0, 0, 0], &MAC[..4]].concat());
    let parts = [section(), interface(1, &[]), packet(0, 0, &MAC), packet(9, 0, &MAC), cut, interface(230, &[])];
    let ran = run(&["read"], &[parts.concat(), packet(1, 0, &MAC)].concat());
    let expected = format!(
        "   1  {NO_TIME}  record of link type 1\n   4  {NO_TIME}  {SHOWN}\n1 frame: 1 read, 0 refused\n\
         1 record without a NWK frame to read\n     1 record of link type 1\n2 inputs could not be read\n"
    );
    let errors = "store-reader: record 2: the record is of interface 9, which the capture does not describe\n\
                  store-reader: record 3: only 4 of the frame's 40 bytes were captured\n";
    assert_eq!((ran.out.as_str(), ran.err.as_str(), ran.status), (expected.as_str(), errors, 1));
}

#[test]
fn damaged_pcapng_says_where() {
    let whole = [section(), interface(230, &[]), packet(0, 0, &MAC), packet(0, 0, &MAC)].concat();
    let start = whole.len() - packet(0, 0, &MAC).len();
    let mut lengths_differ = whole.clone();
    *lengths_differ.last_mut().expect("a byte") = 1;
    let mut odd_length = whole.clone();
    odd_length[start + 4] += 1;
    for (capture, message) in [
        (whole[..whole.len() - 1].to_vec(), "the capture ends inside a block"),
        (whole[..start + 6].to_vec(), "the capture ends inside a block"),
        (whole[..start + 2].to_vec(), "the capture ends inside a block"),
        (lengths_differ, "the two lengths of a block differ; the rest of the capture is not read"),
        (odd_length, "a block claims 53 bytes; the rest of the capture is not read"),
    ] {
        let ran = run(&["read"], &capture);
        let rest = capture.len() - start;
        let told = format!(
            "1 frame: 1 read, 0 refused\n1 input could not be read\n{rest} bytes at the end of a capture not read\n"
        );
        assert!(ran.out.ends_with(&told), "{}", ran.out);
        assert_eq!((ran.err, ran.status), (format!("store-reader: record 2: {message}\n"), 1));
    }
    for n in [4, 11] {
        let ran = run(&["read"], &section()[..n]);
        let message = "store-reader: standard input: the capture ends inside its header\n";
        assert_eq!((ran.err.as_str(), ran.status), (message, 2));
    }
}

/// An input that comes piece by piece is told by its first bytes all the same, and its first line is not waited for in vain.
#[test]
fn captures_and_lines_out_of_a_slow_pipe() {
    let command = env!("CARGO_BIN_EXE_store-reader");
    for sample in ["samples/store.pcap", "samples/store.pcapng"] {
        let pieces = format!("(head -c 2 {sample}; sleep 0.1; tail -c +3 {sample})");
        let shown = tool("sh", &["-c", &format!("{pieces} | {command} open --key {KEY}")]).expect("a shell");
        let expected = run(&["open", "--key", KEY, sample], b"");
        assert_eq!(String::from_utf8_lossy(&shown.stdout), expected.out);
    }
    let lines = tool("sh", &["-c", &format!("(printf 0; sleep 0.1; echo 8) | {command} read")]).expect("a shell");
    assert!(String::from_utf8_lossy(&lines.stdout).starts_with("   1  refused by 2: "));
}

#[test]
fn a_capture_that_is_cut_says_where() {
    let whole = fs::read(root().join("samples/store.pcap")).expect("the sample capture");
    let ran = run(&["open", "--key", KEY], &whole[..whole.len() - 1]);
    // The last record has 16 bytes of header and a MAC frame of 11, of which one is gone.
    assert!(ran.out.ends_with("1 input could not be read\n26 bytes at the end of a capture not read\n"), "{}", ran.out);
    assert_eq!((ran.err.as_str(), ran.status), ("store-reader: record 20: the capture ends inside this record\n", 1));
    let ran = run(&["read"], &whole[..30]);
    let message = "store-reader: record 1: the capture ends inside this record's header\n";
    assert_eq!((ran.err.as_str(), ran.status), (message, 1));
}

/// A capture that is damaged in its middle: how much was not read is told in text, as a table and as JSON, of a file and of a pipe.
#[test]
fn the_rest_of_a_damaged_capture_is_counted() {
    let mut capture = pcap_header(230, false);
    let record = &pcap(230, &MAC)[24..];
    (0..100).for_each(|_| capture.extend(record));
    let damaged_at = capture.len();
    capture.extend([0xFF; 16]);
    (0..9_085).for_each(|_| capture.extend(record));
    let rest = capture.len() - damaged_at;
    let path = scratch("damaged.pcap");
    fs::write(&path, &capture).expect("a capture");
    let name = path.to_str().expect("UTF-8");
    for (arguments, told) in [
        (&["read", "--summary-only"][..], format!("\n{rest} bytes at the end of a capture not read\n")),
        (&["read", "--csv"], format!("\nnot read,,1,\nbytes not read,,{rest},\n")),
        (&["read", "--summary-only", "--json"], format!("\"broken\":1,\"bytes_not_read\":{rest}}}}}\n")),
    ] {
        for ran in [run(arguments, &capture), run(&[arguments, &[name]].concat(), b"")] {
            assert!(ran.out.ends_with(&told) && ran.status == 1, "{arguments:?}: {}", ran.out);
        }
    }
    let text = run(&["read", "--summary-only", name], b"");
    assert!(text.out.starts_with("100 frames: 100 read, 0 refused\n1 input could not be read\n"), "{}", text.out);
    let message = "record 101: the record claims 4294967295 bytes; the rest of the capture is not read";
    assert_eq!(text.err, format!("store-reader: {message}\n"));
}

/// Nothing that can be used: no bytes, no record, no record of IEEE 802.15.4, no frame in lines.
#[test]
fn inputs_without_anything_to_use() {
    let ethernet = [section(), interface(1, &[]), packet(0, 0, &MAC)].concat();
    for (bytes, message) in [
        (Vec::new(), "no bytes"),
        (pcap_header(195, false), "no record that can be used"),
        ([section(), interface(195, &[])].concat(), "no record that can be used"),
        (ethernet, "no record that can be used"),
        (b"# nothing\n\n".to_vec(), "no frame"),
    ] {
        let ran = run(&["open", "--key", KEY], &bytes);
        assert_eq!((ran.err, ran.status), (format!("store-reader: standard input: {message}\n"), 1));
    }
    // A beacon is none either that could be opened, but it was heard.
    let beacon = [0x00, 0x80, 1, 0x62, 0x1A, 0, 0, 0xFF, 0xCF, 0, 0];
    let ran = run(&["open", "--key", KEY], &pcap(230, &beacon));
    assert_eq!((ran.err.as_str(), ran.status), ("", 0));
}

#[test]
fn a_frame_captured_in_part_is_not_handed_to_the_codec() {
    let mut capture = pcap_header(195, false);
    capture.extend([0; 8]);
    capture.extend(5u32.to_le_bytes());
    capture.extend(40u32.to_le_bytes());
    capture.extend([0x41, 0x88, 1, 2, 3]);
    let ran = run(&["read"], &capture);
    let message = "store-reader: record 1: only 5 of the frame's 40 bytes were captured\n";
    assert_eq!((ran.err.as_str(), ran.status), (message, 1));
}

#[test]
fn files_of_another_kind_are_named() {
    let known = "only IEEE 802.15.4 is read, link types 195, 215, 230 and 283";
    for (bytes, message) in [
        (pcap_header(1, false), format!("a capture of link type 1; {known}")),
        (pcap_header(195, false)[..20].to_vec(), "the capture ends inside its header".to_string()),
        (vec![0x1F, 0x8B, 8, 0], "a gzip file; unpack it first: gunzip -c FILE | store-reader ..".to_string()),
        (b"snoop\0\0\0\0\0\0\x02".to_vec(), "a snoop capture; editcap -F pcapng FILE OUT converts it".to_string()),
        (b"#Format=4\r\n".to_vec(), "a Daintree capture; editcap -F pcapng FILE OUT converts it".to_string()),
        (vec![7, 0, 3], "neither a capture of a known kind nor lines of hexadecimal digits".to_string()),
    ] {
        let ran = run(&["read"], &bytes);
        assert_eq!((ran.err, ran.status), (format!("store-reader: standard input: {message}\n"), 2));
    }
    let command = run(&["command", "samples/store.pcapng"], b"");
    assert!(command.err.contains("takes lines of hexadecimal digits"), "{}", command.err);
    assert_eq!(command.status, 2);
    let ran = run(&["read", "no-such-file"], b"");
    let message = "store-reader: no-such-file: No such file or directory (os error 2)\n";
    assert_eq!((ran.out.as_str(), ran.err.as_str(), ran.status), ("", message, 2));
}

/// What the sample opens to, whatever editcap made of the file.
#[test]
fn files_that_editcap_writes() {
    let expected = run(&["open", "--key", KEY, "samples/store.pcap"], b"").out;
    for format in ["pcapng", "pcap", "nsecpcap"] {
        let path = scratch(&format!("editcap-{format}"));
        let name = path.to_str().expect("UTF-8");
        let Some(edited) = tool("editcap", &["-F", format, "samples/store.pcap", name]) else {
            return;
        };
        assert!(edited.status.success(), "{}", String::from_utf8_lossy(&edited.stderr));
        let ran = run(&["open", "--key", KEY, name], b"");
        let same = if format == "nsecpcap" { ran.out.replace(".000000000Z", ".000000Z") } else { ran.out };
        assert_eq!((same, ran.status), (expected.clone(), 0), "{format}");
    }
}

/// tshark's own file, and what it prints of a frame with -x.
#[test]
fn what_tshark_writes() {
    let path = scratch("tshark.pcapng");
    let name = path.to_str().expect("UTF-8");
    let Some(written) = tool("tshark", &["-r", "samples/store.pcap", "-w", name]) else {
        return;
    };
    assert!(written.status.success(), "{}", String::from_utf8_lossy(&written.stderr));
    let expected = run(&["open", "--key", KEY, "samples/store.pcap"], b"").out;
    assert_eq!(run(&["open", "--key", KEY, name], b"").out, expected);
    // A dump has the MAC frames, whose headers are taken off. It has no times, and what is no NWK frame is none in it either.
    for key in ["", KEY] {
        let key = format!("uat:zigbee_pc_keys:\"{key}\",\"Normal\",\"\"");
        let options: &[&str] = if key.contains(KEY) { &["-o", &key] } else { &[] };
        let dump = tool("tshark", &[&["-r", "samples/store.pcap", "-x"], options].concat()).expect("tshark").stdout;
        let ran = run(&["open", "--key", KEY], &dump);
        let without_front = |text: &str| -> Vec<String> {
            text.lines()
                .map(|line| line.split_once("Z  ").map_or(line, |(_, behind)| behind).trim_start().to_string())
                .collect()
        };
        let lines: Vec<String> = without_front(&expected);
        let dumped: Vec<String> = without_front(&ran.out)
            .into_iter()
            .map(|line| {
                line.split_once("  ")
                    .filter(|(n, _)| n.parse::<u64>().is_ok())
                    .map_or(line.clone(), |(_, line)| line.to_string())
            })
            .collect();
        assert_eq!(dumped, lines);
        assert!(ran.err.starts_with("store-reader: line ") && ran.err.lines().count() == 1, "{}", ran.err);
    }
}

/// The same MAC frame as a dump, as a line with `--mac`, with its FCS, without one, and with a wrong one behind a right one.
#[test]
fn mac_frames_in_lines() {
    let digits = |bytes: &[u8]| bytes.iter().map(|byte| format!("{byte:02X} ")).collect::<String>();
    let shown = |fcs: &[u8]| run(&["read", "--mac"], digits(&[&MAC[..], fcs].concat()).as_bytes());
    for fcs in [&FCS[..], &[]] {
        assert_eq!(shown(fcs).out, format!("   1  {SHOWN}\n1 frame: 1 read, 0 refused\n"));
    }
    let tap = [&[0, 0, 12, 0, 0, 0, 1, 0, 1, 0, 0, 0][..], &MAC, &FCS].concat();
    let phy = [&[0, 0, 0, 0, 0xA7, 20][..], &MAC, &FCS].concat();
    for bytes in [&tap, &phy] {
        let dump: String =
            bytes.chunks(16).enumerate().map(|(at, line)| format!("{:04x}  {}\n", 16 * at, digits(line))).collect();
        assert!(run(&["read"], dump.as_bytes()).out.starts_with(&format!("   1  {SHOWN}\n")), "{dump}");
    }
    let two = format!("{}\n{}\n", digits(&[&MAC[..], &FCS].concat()), digits(&[&MAC[..], &[0, 0]].concat()));
    let ran = run(&["read", "--mac"], two.as_bytes());
    assert!(ran.out.contains(&format!("   2  {SHOWN}  (wrong frame check sequence)\n")), "{}", ran.out);
    // A line is a NWK frame unless it is said to be none; one that looks like a MAC frame is told once.
    let ran = run(&["read"], two.as_bytes());
    let told = "store-reader: line 1: this looks like a MAC frame, and is read as a NWK frame; see --mac\n";
    assert_eq!((ran.err.as_str(), ran.status), (told, 0));
}

/// text2pcap makes a capture of a dump, and mergecap one of two captures with interfaces of two link types.
#[test]
fn files_that_text2pcap_and_mergecap_write() {
    let [dump, one, two] = ["mac.txt", "text2pcap.pcapng", "mergecap.pcapng"].map(scratch);
    let digits: Vec<String> = MAC.iter().map(|byte| format!("{byte:02x}")).collect();
    fs::write(&dump, format!("0000  {}\n", digits.join(" "))).expect("a dump");
    let [dump, one, two] = [&dump, &one, &two].map(|path| path.to_str().expect("UTF-8"));
    let Some(made) = tool("text2pcap", &["-q", "-n", "-l", "230", dump, one]) else {
        return;
    };
    assert!(made.status.success(), "{}", String::from_utf8_lossy(&made.stderr));
    let ran = run(&["read", one], b"");
    assert!(ran.out.contains(SHOWN), "{}", ran.out);
    let Some(merged) = tool("mergecap", &["-F", "pcapng", "-a", "-w", two, "samples/store.pcap", one]) else {
        return;
    };
    assert!(merged.status.success(), "{}", String::from_utf8_lossy(&merged.stderr));
    let ran = run(&["read", two], b"");
    assert!(ran.out.contains(SHOWN) && ran.out.contains("15 frames: 13 read, 2 refused"), "{}", ran.out);
}

/// A value of a JSON line, as text.
fn value<'a>(line: &'a str, field: &str) -> &'a str {
    let behind = line.split_once(&format!("\"{field}\":")).map_or("", |(_, behind)| behind);
    behind.split([',', '}']).next().unwrap_or("").trim_matches('"')
}

/// A pcap capture of NWK frames, each in a MAC frame from 0x7A10 without FCS.
fn without_fcs(frames: &[Vec<u8>]) -> Vec<u8> {
    let mut capture = pcap_header(230, false);
    for (number, frame) in (0..).zip(frames) {
        let mac = [&[0x41, 0x88, number, 0x62, 0x1A, 0, 0, 0x10, 0x7A][..], frame].concat();
        capture.extend([0; 8]);
        capture.extend((mac.len() as u32).to_le_bytes());
        capture.extend((mac.len() as u32).to_le_bytes());
        capture.extend(mac);
    }
    capture
}

/// The payloads that tshark decrypts in a capture with the sample's key at a security level, in hexadecimal digits.
fn decrypted_by_tshark(capture: &str, bits: u32) -> Option<Vec<String>> {
    let key = format!("uat:zigbee_pc_keys:\"{KEY}\",\"Normal\",\"\"");
    let level = format!("zbee_nwk.seclevel:AES-128 Encryption, {bits}-bit Integrity Protection");
    let printed = tool("tshark", &["-r", capture, "--disable-protocol", "lwm", "-o", &key, "-o", &level, "-x"])?;
    let printed = String::from_utf8(printed.stdout).expect("UTF-8");
    let dumps =
        printed.split("\n\n").filter_map(|dump| dump.split_once("Decrypted ZigBee Payload")?.1.split_once('\n'));
    // An offset, two blanks and 16 bytes at most, three characters each.
    let digits = |line: &str| line.chars().skip(6).take(48).filter(|c| !c.is_whitespace()).collect::<String>();
    Some(dumps.map(|(_, lines)| lines.lines().map(digits).collect::<String>().to_uppercase()).collect())
}

/// Frames that `seal` sealed at each level are decrypted by tshark with that level in its preferences, and by no other level; `open` gives
/// the same payloads.
#[test]
fn tshark_opens_what_is_sealed_at_each_level() {
    for (level, bits, largest) in [("5", 32, 92), ("6", 64, 88), ("7", 128, 80)] {
        let payloads: Vec<String> =
            ["000102040401010118010A0000296608".to_string(), "AA".to_string(), "5C".repeat(largest)].into();
        let lines: String = payloads.iter().map(|payload| format!("08000000107A1E07{payload}\n")).collect();
        let sealing = ["seal", "--key", KEY, "--level", level, "--counter=74565", "--ieee=00:12:4B:00:1C:A1:B2:C3"];
        let sealed = run(&sealing, lines.as_bytes()).out;
        let frames: Vec<Vec<u8>> = sealed.lines().map(|line| unhex(line).expect("hexadecimal digits")).collect();
        let path = scratch(&format!("level-{level}.pcap"));
        let name = path.to_str().expect("UTF-8");
        fs::write(&path, without_fcs(&frames)).expect("a capture");
        let opened = run(&["open", "--key", KEY, "--level", level, "--json", name], b"").out;
        assert_eq!(opened.lines().map(|line| value(line, "payload")).collect::<Vec<_>>()[..3], payloads);
        let Some(decrypted) = decrypted_by_tshark(name, bits) else {
            return;
        };
        assert_eq!(decrypted, payloads, "level {level}");
        let other = if bits == 32 { 64 } else { 32 };
        assert_eq!(decrypted_by_tshark(name, other).expect("tshark"), Vec::<String>::new(), "level {level}");
    }
}

/// tshark, given the keys, reads the same addresses, counters and kinds, and opens the same frames. A clear frame has no counter.
#[test]
fn tshark_says_the_same_of_the_sample() {
    let neighbour = "000102030405060708090A0B0C0D0E0F";
    let keys = [KEY, neighbour].map(|key| format!("uat:zigbee_pc_keys:\"{key}\",\"Normal\",\"\""));
    let mut arguments =
        vec!["-r", "samples/store.pcap", "--disable-protocol", "lwm", "-T", "fields", "-E", "separator=;"];
    for key in &keys {
        arguments.extend(["-o", key]);
    }
    let fields = ["frame.number", "frame.time_epoch", "wpan.dst_pan", "zbee_nwk.src", "zbee_nwk.dst", "zbee_nwk.seqno"];
    let more = ["zbee.sec.counter", "zbee.sec.key", "frame.protocols", "wpan.src_pan"];
    for field in fields.iter().chain(&more) {
        arguments.extend(["-e", field]);
    }
    let Some(printed) = tool("tshark", &arguments) else {
        return;
    };
    let printed = String::from_utf8(printed.stdout).expect("UTF-8");
    let ours = run(&["open", "--key", KEY, "--key", neighbour, "--json", "samples/store.pcap"], b"").out;
    let ours: BTreeMap<&str, &str> = ours.lines().map(|line| (value(line, "record"), line)).collect();
    let mut compared = 0;
    for line in printed.lines() {
        let theirs: Vec<&str> = line.split(';').collect();
        let our = ours[theirs[0]];
        // 1795000000 is 11:06:40; the records come a second apart.
        let second: u64 = theirs[1].split('.').next().and_then(|text| text.parse().ok()).expect("seconds");
        assert!(value(our, "time").ends_with(&format!(":{:02}.000000Z", second - 1_795_000_000 + 40)), "{our}");
        let pan = if theirs[2].is_empty() { theirs[9] } else { theirs[2] };
        assert_eq!(value(our, "pan").to_lowercase(), pan, "{line}");
        let protocol = theirs[8].rsplit(':').next().unwrap_or("");
        match value(our, "skipped") {
            "Green Power frame" => assert!(theirs[8].contains("zbee_nwk_gp"), "{line}"),
            "6LoWPAN frame" => assert!(theirs[8].contains("6lowpan"), "{line}"),
            "inter-PAN frame" => assert!(theirs[8].contains("zbee_aps") && theirs[3].is_empty(), "{line}"),
            "MAC beacon" => assert!(theirs[8].contains("beacon"), "{line}"),
            "" => {}
            _ => assert_eq!(protocol, "wpan", "{line}"),
        }
        // tshark does not go on behind a wrong FCS, nor with a frame of type 2.
        let refused = value(our, "refusal");
        if !value(our, "skipped").is_empty() || ["10", "3"].contains(&refused) {
            continue;
        }
        assert_eq!(value(our, "source").to_lowercase(), theirs[3], "{line}");
        assert_eq!(value(our, "destination").to_lowercase(), theirs[4], "{line}");
        assert_eq!(value(our, "sequence"), theirs[5], "{line}");
        assert_eq!(value(our, "counter"), theirs[6], "{line}");
        assert_eq!(value(our, "mark") == "sealed", !theirs[7].is_empty(), "{line}");
        assert_eq!(value(our, "mark") == "clear", theirs[6].is_empty(), "{line}");
        compared += 1;
    }
    assert_eq!((printed.lines().count(), compared), (20, 12));
}
