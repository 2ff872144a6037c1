//! What `include/nwk.h` adds to the functions, from C and from C++: names, texts, offsets, numbers of a key, marks, where a
//! payload is, the presence bits, the list of senders, the journal, the levels, NULL for an empty slice.
#[allow(dead_code)]
mod support;

use std::collections::BTreeMap;
use std::fs;
use store_reader::{Refusal, MAX_SHRUNK_JOURNAL};
use support::command::{root, scratch, tool};

fn header() -> String {
    fs::read_to_string(root().join("include/nwk.h")).expect("include/nwk.h")
}

/// What `tests/header.c` prints, compiled with these flags and without a warning; none where there is no such compiler.
fn printed(compiler: &str, flags: &[&str], name: &str) -> Option<String> {
    let program = scratch(name);
    let program = program.to_str().expect("UTF-8");
    let strict = ["-Wall", "-Wextra", "-Wpedantic", "-Wconversion", "-Werror", "-Iinclude"];
    let files = ["tests/header.c", "-x", "none", "target/staticlib/libnwk.a", "-o", program];
    let compiled = tool(compiler, &[flags, &strict, &files].concat())?;
    assert!(compiled.status.success(), "{compiler}: {}", String::from_utf8_lossy(&compiled.stderr));
    let ran = tool(program, &[]).expect("the program");
    assert!(ran.status.success(), "{compiler}: ended with {}", ran.status);
    Some(String::from_utf8(ran.stdout).expect("UTF-8"))
}

/// Optimised and not, in C and in C++.
fn outputs() -> Vec<String> {
    let c = ["-std=c11", "-x", "c"];
    let cpp = ["-std=c++11", "-x", "c++", "-Wold-style-cast", "-Wuseless-cast", "-Wzero-as-null-pointer-constant"];
    let runs = [
        ("cc", [&c[..], &["-O0"]].concat(), "header-c-0"),
        ("cc", [&c[..], &["-O2"]].concat(), "header-c-2"),
        ("g++", [&cpp[..], &["-O0"]].concat(), "header-cpp-0"),
        ("g++", [&cpp[..], &["-O2"]].concat(), "header-cpp-2"),
    ];
    runs.iter().filter_map(|(compiler, flags, name)| printed(compiler, flags, name)).collect()
}

#[test]
fn c_and_cpp_print_the_same() {
    let outputs = outputs();
    assert!(outputs.len() >= 2, "cc is needed");
    for output in &outputs {
        let mut lines = output.lines();
        let version = env!("CARGO_PKG_VERSION");
        let parts: Vec<u32> = version.split('.').map(|part| part.parse().expect("a number")).collect();
        let number = parts.iter().fold(0, |number, part| number << 8 | part);
        assert_eq!(lines.next(), Some(format!("version {version} {number:06X}").as_str()));
        assert_eq!(lines.next(), Some("key C7C6C5C4C3C2C1C0 CFCECDCCCBCAC9C8"));
        assert_eq!(lines.next(), Some("put D4C3B2A1 get A1B2C3D4 A1B2 E5F60718A1B2C3D4"));
        // A plaintext is a command if the type is 1, else opaque; 2 and 4 are no types.
        assert_eq!(lines.next(), Some("payloads opaque command refused opaque refused"));
        check_payloads(&mut lines);
        check_presence_bits(&mut lines);
        check_senders(&mut lines);
        check_journal(&mut lines);
        check_levels(&mut lines);
        check_empty(&mut lines);
        check_texts(lines);
    }
}

/// The marks, bit 40 of an answer with a length of 16, every bit but that one, and where payloads are. By document 02, request
/// 3: a header of zeros has 8 bytes, behind which a clear payload starts, whatever the output; a sealed one is in the output;
/// a refused frame has none, and no mark.
fn check_payloads<'a>(lines: &mut impl Iterator<Item = &'a str>) {
    for expected in [
        "marks 0 1 2 clear 1 16 0 0",
        "clear 0 clear 1 mark 1 length 3 3 payload from 8",
        "clear_with_room 0 clear 1 mark 1 length 3 3 payload from 8",
        "clear_empty 0 clear 1 mark 1 length 0 0 payload from 8",
        "sealed 0 clear 0 mark 2 length 3 3 payload in out",
        "sealed_no_room 18 clear 0 mark 0 length 0 0 payload nowhere",
        "damaged 19 clear 0 mark 0 length 0 0 payload nowhere",
    ] {
        assert_eq!(lines.next(), Some(expected));
    }
}

/// `nwk_set_presence_bits` sets bits 8, 10, 11 and 12 as the fields of each choice are, multicast first. By document 02, request 8: records
/// of zeros with an address and an auxiliary header marked as present are 28, and with bit 12 too, until the three lines of
/// `nwk_seal`'s comment have set the bits; an auxiliary IEEE is then 28 until its bit is set. Each sealed frame opens as sealed to the
/// header that was handed over.
fn check_presence_bits<'a>(lines: &mut impl Iterator<Item = &'a str>) {
    for expected in [
        "bits 0000 1000 0100 1100 0010 1010 0110 1110 0001 1001 0101 1101 0011 1011 0111 1111",
        "write_without_bit 28 0",
        "seal_without_bit 28 0",
        "seal_unsecured 28 0",
        "seal_with_bits 0 27 mark 2 header 0",
        "seal_without_extended_nonce 28 0",
        "seal_with_extended_nonce 0 35 mark 2 header 0",
    ] {
        assert_eq!(lines.next(), Some(expected));
    }
}

/// By document 02, request 9: the MIC has 4, 8 or 16 of 16 places, the rest of 118 bytes is in front of it, and a number that has the
/// lowest bits of a level is none: 29, of a burst's frame too.
fn check_levels<'a>(lines: &mut impl Iterator<Item = &'a str>) {
    for expected in [
        "levels 5 4 114 6 8 110 7 16 102 of 16",
        "level_seal 29 0",
        "level_open 29 0",
        "level_open_burst 0 1",
        "its record 29",
        "level_encrypt_ccm 29 0",
        "level_decrypt_ccm 29 0",
        "level_split_mic 29 0",
    ] {
        assert_eq!(lines.next(), Some(expected));
    }
}

/// A sender record has 16 bytes and a list counts 64 of them; bit 41 of an answer with a length of 16, and every bit but that one. By
/// document 02, request 5: a new sender takes the first free place, noting gives the earlier counter, also 0, and takes a lower
/// one, a full list is 24; asking is 22 for another key number, 23 for the stored counter, else it gives the key; forgetting
/// leaves zeros for the next.
fn check_senders<'a>(lines: &mut impl Iterator<Item = &'a str>) {
    for expected in [
        "sender 16 0 8 12 of 64 known 1 16 0 0",
        "note_new 0 0 known 0: 1 124B001CA1B2C3 0 0 0 0",
        "note_known 0 0 known 1: 1 124B001CA1B2C3 FFFFFFFE 0 0 0",
        "note_lower 0 4294967294 known 1: 1 124B001CA1B2C3 7 0 0 0",
        "note_other 0 0 known 0: 1 124B001CA1B2C3 7 1 0 1",
        "note_full 24 0 known 0: 1 124B001CA1B2C3 7 1 0 1",
        "ask_number 22 0 known 0: 1 124B001CA1B2C3 7 1 0 1",
        "ask_again 23 0 known 0: 1 124B001CA1B2C3 7 1 0 1",
        "no key 00 00",
        "ask 0 16 known 0: 1 124B001CA1B2C3 7 1 0 1",
        "key C0 C7 C8 CF",
        "forget 0 0 known 0: 0 0 0 1 0 1",
        "forget_again 0 0 known 0: 0 0 0 1 0 1",
        "note_freed 0 0 known 0: 1 1 1 1 0 1",
    ] {
        assert_eq!(lines.next(), Some(expected));
    }
}

/// The kinds, the longest record and the longest shrunk journal; bits 48 to 55 of an answer with a length of 16, and
/// every bit but those. By document 02, request 6: each record is its kind and its body, lowest byte first, and another
/// kind is 25; recovery gives the ceiling, the sender in the first place and zeros in the other, key number 0, which is
/// told apart from none, and the length; a key number cut off is ignored; the byte 0 behind is 25 and changes nothing.
/// The next counter is given up to the ceiling, 26 at `FFFFFFFE`, else 27. By request 7 a shrunk journal has the key
/// number, if it is whole, then the ceiling and the sender; 25 and 18 as before, and the exact room is enough. A tail of zeros is an
/// append that was cut up to the 16 senders of a burst, 208 bytes; an incomplete record, a longer tail and another kind stay.
fn check_journal<'a>(lines: &mut impl Iterator<Item = &'a str>) {
    assert_eq!(MAX_SHRUNK_JOURNAL, 839);
    for expected in [
        "journal 1 2 3 of 13 shrunk 839 key number 165 16 0 90",
        "write_ceiling 0 5 01 03 02 01 00",
        "write_sender 0 13 02 C3 B2 A1 1C 00 4B 12 00 FE FF FF FF",
        "write_key_number 0 2 03 00",
        "write_other 25 0",
        "recover 0 66051 known 1 0 complete 20: 1 124B001CA1B2C3 FFFFFFFE 0 0 0",
        "recover_cut 0 66051 known 0 0 complete 18: 1 124B001CA1B2C3 FFFFFFFE 0 0 0",
        "recover_zero 25 0 known 0 0 complete 18: 1 124B001CA1B2C3 FFFFFFFE 0 0 0",
        "next 0 66051",
        "next_used_up 26 0",
        "next_no_ceiling 27 0",
        "shrink 0 20 03 00 01 03 02 01 00 02 C3 B2 A1 1C 00 4B 12 00 FE FF FF FF",
        "shrink_cut 0 18 01 03 02 01 00 02 C3 B2 A1 1C 00 4B 12 00 FE FF FF FF",
        "shrink_zero 25 0",
        "shrink_exact 0 20 03 00 01 03 02 01 00 02 C3 B2 A1 1C 00 4B 12 00 FE FF FF FF",
        "shrink_no_room 18 0",
        "finished 20 19 20 229 21 0",
    ] {
        assert_eq!(lines.next(), Some(expected));
    }
}

/// The answers to empty slices, by document 01: a header of no bytes 2, an auxiliary header of none 9, no room 18. A
/// record of no bytes is refused by 13, a security bit that is off by 28, and with it on a record without an auxiliary
/// header by 14. A header of zeros has 8 bytes, no
/// bytes are an unparsed command, and nothing sealed opens again to nothing. By document 02 a burst of no frames is
/// accepted with 0, and bytes without lengths and lengths without answers are refused by 20; a frame of no bytes is a
/// frame, whose own answer is 2. A list without places names nobody, and has no place for a new sender. A journal of no
/// bytes has nothing in it, no ceiling either, and is shrunk to no bytes.
fn check_empty<'a>(lines: &mut impl Iterator<Item = &'a str>) {
    for expected in [
        "read_header 2 0",
        "write_header 13 0",
        "write_header_no_room 18 0",
        "read_auxiliary 9 0",
        "write_auxiliary 13 0",
        "read_frame 2 0",
        "write_frame 0 8",
        "seal 28 0",
        "seal_secured 14 0",
        "read_command 0 535",
        "write_command 0 0",
        "open 2 0",
        "open_burst 0 0",
        "open_burst_no_lengths 20 0",
        "open_burst_no_answers 20 0",
        "open_burst_empty_frame 0 1",
        "its record 2 0",
        "inbound_network_key 0 16",
        "note_inbound_frame_counter 24 0",
        "forget_sender 0 0",
        "recover_journal 0 0",
        "its length 0",
        "write_journal_record 18 0",
        "next_counter 27 0",
        "shrink_journal 0 0",
        "encrypt_ccm 0 0",
        "decrypt_ccm 0 0",
        "split_mic 16 0",
    ] {
        assert_eq!(lines.next(), Some(expected));
    }
}

fn check_texts<'a>(mut lines: impl Iterator<Item = &'a str>) {
    assert_eq!(lines.next(), Some("0 accepted"));
    for refusal in Refusal::all() {
        assert_eq!(lines.next(), Some(format!("{} {}", refusal.number(), refusal.condition()).as_str()));
    }
    assert_eq!(lines.next(), Some("30 a number that the list does not have"));
    assert_eq!(lines.next(), None);
}

/// The enum has the names and numbers of the Rust constants, and no others.
#[test]
fn the_enum_has_the_names_of_the_list() {
    let header = header();
    let numbers: BTreeMap<&str, u8> = header
        .lines()
        .filter_map(|line| line.trim().strip_prefix("NWK_REFUSED_")?.trim_end_matches(',').split_once(" = "))
        .map(|(name, number)| (name, number.parse().expect("a number")))
        .collect();
    let expected = Refusal::all().map(|refusal| (refusal.name(), refusal.number())).collect();
    assert_eq!(numbers, expected);
}

/// The offsets of a record's fields with the bytes of each: lines `#define NWK_HEADER_SOURCE 12 /* 2 bytes */`.
fn fields(header: &str, front: &str) -> Vec<(usize, usize)> {
    let lines = header.lines().filter_map(|line| line.strip_prefix("#define ")?.strip_prefix(front)?.split_once(' '));
    let sized = lines.filter_map(|(_, rest)| rest.split_once(" /* "));
    let number = |text: &str| text.trim().parse().expect("a number");
    sized.map(|(offset, bytes)| (number(offset), number(bytes.split_once(" byte").expect("bytes").0))).collect()
}

/// Each byte of a record belongs to one field, which has a name; of the opened record bytes 14 and 15 hold nothing.
#[test]
fn every_field_has_a_name() {
    let header = header();
    for (front, size) in [("NWK_HEADER_", 147), ("NWK_AUXILIARY_", 19), ("NWK_OPENED_", 182), ("NWK_COMMAND_", 535)] {
        assert!(header.contains(&format!("#define {front}RECORD {size}\n")), "the size of {front}");
        let mut end = 0;
        for (offset, bytes) in fields(&header, front) {
            assert!(offset == end || (front, end, offset) == ("NWK_OPENED_", 14, 16), "{front}: {end}, then {offset}");
            end = offset + bytes;
        }
        assert_eq!(end, size, "{front}");
    }
}
