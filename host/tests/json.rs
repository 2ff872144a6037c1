//! `docs/JSON.md` names every field that the command prints, and no other.
#[allow(dead_code)]
mod support;

use std::collections::BTreeSet;
use std::fs;
use support::command::{root, run, scratch, KEY};

/// The names of the fields of JSON objects: a text in front of a colon. No value of the command holds both.
fn fields(json: &str) -> BTreeSet<String> {
    let texts: Vec<&str> = json.split('"').collect();
    let names = (1..texts.len() - 1).step_by(2).filter(|at| texts[at + 1].starts_with(':'));
    names.map(|at| texts[at].to_string()).collect()
}

/// One of each command, those of lists with an entry, by the formats of Zigbee 3.4.
const COMMANDS: &str = "01 20 07 34 12 05 01 02 03 04 05 06 07 08
02 30 07 34 12 78 56 05 01 02 03 04 05 06 07 08 11 12 13 14 15 16 17 18
03 0B 34 12
04 40
05 01 34 12
06 8E
07 34 12 00
08 61 34 12 31
09 01 01 02 03 04 05 06 07 08 34 12
0A 01 01 02 03 04 05 06 07 08 07 34 12
0B 0E 00
0C 00 05
0D 01 01 34 12 F6
0E 00 8E
0F 34 12 00
04
";

/// A header with every optional field: bits 14 and 15, both long addresses, multicast control and a source route; and broken ones.
const FRAMES: &str = "08 DD 00 00 34 12 1E 07 0102030405060708 1112131415161718 05 01 00 78 56 AA
0B 00 01
08 0
08
";

/// Everything that `--json` can print, as far as fields go.
fn printed() -> String {
    let mut all = run(&["command", "--json"], COMMANDS.as_bytes()).out;
    assert!(all.contains("\"frames\":16,\"accepted\":16,"), "{all}");
    for name in
        ["route request", "rejoin request", "network update", "link power delta", "network commissioning response"]
    {
        assert!(all.contains(&format!("\"name\":\"{name}\"")), "no {name} in {all}");
    }
    all += &run(&["read", "--json"], FRAMES.as_bytes()).out;
    all += &run(&["read", "--json", "--by", "hour", "samples/store.pcap"], b"").out;
    let files = ["samples/store.pcap", "samples/store.pcapng"];
    all += &run(&[&["open", "--key-file=samples/store.keys", "--json", "--by=day"][..], &files].concat(), b"").out;
    all += &run(&["open", "--key", KEY, "--json", "--by-sender", "samples/store.pcap"], b"").out;
    all += &run(&["open", "--key", &"01".repeat(16), "--json", "samples/store.pcap"], b"").out;
    all += &run(&["open", "--key", KEY, "--level=6", "--json", "samples/store.pcap"], b"").out;
    // The sample with zeros in the place of the frame check sequences: 24 bytes in front, 16 in front of each record.
    let mut replaced = fs::read(root().join("samples/store.pcap")).expect("the sample");
    let mut at = 24;
    while at < replaced.len() {
        at += 16 + usize::from(replaced[at + 8]);
        replaced[at - 2..at].fill(0);
    }
    all += &run(&["open", "--key", KEY, "--json"], &replaced).out;
    // Two PAN identifiers in a MAC header.
    let two_pans = "21 88 01 34 12 00 00 78 56 CD AB 08 00 00 00 34 12 1E 07 AA";
    all += &run(&["read", "--mac", "--json"], two_pans.as_bytes()).out;
    all += &run(&["seal", "--key", KEY, "--json", "--counter=1", "--ieee=0807060504030201"], FRAMES.as_bytes()).out;
    let shrunk = scratch("json-shrunk.journal");
    let _ = fs::remove_file(&shrunk);
    all += &run(&["journal", "samples/store.journal", "--json", "--shrink", shrunk.to_str().expect("UTF-8")], b"").out;
    let mut damaged = fs::read(root().join("samples/store.journal")).expect("the sample");
    damaged.truncate(59);
    damaged.extend([0; 512]);
    all += &run(&["journal", "--json"], &damaged).out;
    let repaired = scratch("json-repaired.journal");
    let _ = fs::remove_file(&repaired);
    all += &run(&["journal", "--json", "--repair", repaired.to_str().expect("UTF-8")], &damaged).out;
    all + &run(&["refusals", "--json"], b"").out
}

#[test]
fn the_page_names_every_field() {
    let page = fs::read_to_string(root().join("docs/JSON.md")).expect("docs/JSON.md");
    let words = page.split('`').skip(1).step_by(2);
    let is_name = |word: &&str| word.chars().all(|c| c.is_ascii_lowercase() || c.is_ascii_digit() || c == '_');
    // Commands and values that the page names beside the fields.
    let others = BTreeSet::from(["open", "read", "seal", "journal"].map(str::to_string));
    let named: BTreeSet<String> = words.filter(is_name).map(str::to_string).collect();
    let mut found = fields(&printed());
    // More than 100,000 rows are made by no test here.
    found.insert("further_senders".to_string());
    assert_eq!(&found - &named, BTreeSet::new(), "the page does not name these");
    assert_eq!(&(&named - &others) - &found, BTreeSet::new(), "these are not printed");
}
