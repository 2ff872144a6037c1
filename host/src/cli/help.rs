//! The help of each command, put together from parts that several share.

const ALL: &str = include_str!("help/all.txt");
const STATUS: &str = include_str!("help/status.txt");
const OPEN: &str = include_str!("help/open.txt");
const READ: &str = include_str!("help/read.txt");
const INPUT: &str = include_str!("help/input.txt");
const KEYS: &str = include_str!("help/keys.txt");
const SEVERAL: &str = include_str!("help/several.txt");
const SHOWN: &str = include_str!("help/shown.txt");
const FRAMES: &str = include_str!("help/frames.txt");
const REPLAY: &str = include_str!("help/replay.txt");
const PROTOCOLS: &str = include_str!("help/protocols.txt");
const SEAL: &str = include_str!("help/seal.txt");
const SEALING: &str = include_str!("help/sealing.txt");
const COMMAND: &str = include_str!("help/command.txt");
const JOURNAL: &str = include_str!("help/journal.txt");
const REFUSALS: &str = include_str!("help/refusals.txt");

/// Examples, each of the command that its first word behind `store-reader` names.
const EXAMPLES: [(&str, &str); 14] = [
    ("open", "store-reader open --key-file samples/store.key samples/store.pcap"),
    ("open", "store-reader open --key-file samples/store.keys --by-sender --summary-only samples/store.pcap"),
    ("open", "store-reader open --key-file samples/store.keys --by day --by-sender --csv samples/store.pcap"),
    ("open", "store-reader open --key-file samples/store.key --replay --refused samples/store.pcap"),
    ("open", "store-reader open --key C0C1C2C3C4C5C6C7C8C9CACBCCCDCECF --json samples/store.pcapng"),
    ("open", "store-reader open --key-file samples/store.key --csv --frames samples/store.pcap"),
    ("open", "store-reader open --key-file samples/store.key --summary-only samples/store.pcap samples/store.pcapng"),
    ("open", "cat samples/store.pcap | store-reader open --key-file samples/store.key --flush -"),
    ("read", "echo 08 00 00 00 34 12 1E 07 AA | store-reader read --full"),
    (
        "seal",
        "echo 08 00 00 00 34 12 1E 07 AA | store-reader seal --key C0C1C2C3C4C5C6C7C8C9CACBCCCDCECF \\\n      \
         --ieee 00:12:4B:00:1C:A1:B2:C3 --counter 74565",
    ),
    (
        "seal",
        "echo 08 00 00 00 34 12 1E 07 AA | store-reader seal --key-file samples/store.key --level 7 \\\n      \
         --ieee 00:12:4B:00:1C:A1:B2:C3 --counter 74566",
    ),
    ("command", "echo 08 E1 34 12 B9 | store-reader command"),
    ("journal", "store-reader journal samples/store.journal"),
    ("refusals", "store-reader refusals"),
];

/// The help of a command, or of all where none is named.
pub fn help(command: Option<&str>) -> String {
    let parts: &[&str] = match command {
        Some("open") => &[OPEN, INPUT, KEYS, SEVERAL, SHOWN, FRAMES, REPLAY, PROTOCOLS, STATUS],
        Some("read") => &[READ, INPUT, SHOWN, FRAMES, PROTOCOLS, STATUS],
        Some("seal") => &[SEAL, KEYS, SEALING, STATUS],
        Some("command") => &[COMMAND, SHOWN, STATUS],
        Some("journal") => &[JOURNAL, STATUS],
        Some(_) => &[REFUSALS, STATUS],
        None => &[ALL, STATUS],
    };
    let examples = EXAMPLES.iter().filter(|(of, _)| command.is_none_or(|command| command == *of));
    let examples = examples.map(|(_, example)| format!("  {example}\n"));
    parts.concat() + "Examples\n\n" + &examples.collect::<String>()
}
