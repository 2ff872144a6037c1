//! `store-reader journal`: what it prints of the sample, whose records `samples/capture.py` put in, and of journals of every kind, and
//! what it shrinks them to.
#[allow(dead_code)]
mod support;

use std::fs;
use std::os::unix::fs::{symlink, PermissionsExt};
use std::path::Path;
use store_reader::{JournalFile, Senders};
use support::command::{not_installed, root, run, scratch, tool};
use support::journal_files::{bytes, fresh, on_disk};
use support::model::journal::Entry;

/// The ceiling before the one that was being written, key number 0, and each sender's second counter in the place of its first; 2 and 5
/// bytes and four times 13 are 59.
const SAMPLE: &str = "ceiling 90300
key number 0
2 senders
  00:12:4B:00:1C:A1:B2:C3  counter 74571
  00:12:4B:00:1C:A1:00:02  counter 7002
59 bytes of complete records, 4 bytes of an incomplete one behind them
";

/// A key number, a ceiling and two senders are 2, 5 and 26 bytes of the 63.
const SAVED: &str = ": 33 bytes, 30 saved\n";

fn printed(journal: &[u8], options: &[&str]) -> String {
    let ran = run(&[&["journal"], options].concat(), journal);
    assert_eq!((ran.err.as_str(), ran.status), ("", 0), "{journal:02X?}");
    ran.out
}

/// From a file and from standard input, which may be called `-`; the file is as it was.
#[test]
fn the_sample_is_shown_and_not_changed() {
    let path = scratch("sample.journal");
    let sample = fs::read(root().join("samples/store.journal")).expect("the sample");
    fs::write(&path, &sample).expect("a file");
    let ran = run(&["journal", path.to_str().expect("UTF-8")], b"");
    assert_eq!((ran.out.as_str(), ran.err.as_str(), ran.status), (SAMPLE, "", 0));
    assert_eq!((printed(&sample, &[]).as_str(), printed(&sample, &["-"]).as_str()), (SAMPLE, SAMPLE));
    assert_eq!(fs::read(&path).expect("the file"), sample);
}

#[test]
fn the_reference_shows_what_is_printed() {
    let reference = fs::read_to_string(root().join("docs/COMMAND.md")).expect("docs/COMMAND.md");
    let last = SAMPLE.lines().last().expect("a line");
    for block in [
        format!("```text\n$ store-reader journal samples/store.journal\n{SAMPLE}```\n"),
        format!(
            "```text\n$ store-reader journal samples/store.journal --shrink shrunk.journal\n..\n{last}\nshrunk.journal{SAVED}```\n"
        ),
    ] {
        assert!(reference.contains(&block), "docs/COMMAND.md does not show:\n{block}");
    }
}

#[test]
fn nothing_and_one_of_each() {
    assert_eq!(printed(&[], &[]), "ceiling 0\nno key number\nno senders\n0 bytes of complete records\n");
    let cut =
        "ceiling 0\nno key number\nno senders\n0 bytes of complete records, 1 byte of an incomplete one behind them\n";
    assert_eq!(printed(&[2], &[]), cut);
    let one =
        bytes(&[Entry::Sender(0x0012_4B00_1CA1_B2C3, 7), Entry::Ceiling(9), Entry::Ceiling(5), Entry::KeyNumber(255)]);
    let expected = "ceiling 9
key number 255
1 sender
  00:12:4B:00:1C:A1:B2:C3  counter 7
25 bytes of complete records
";
    assert_eq!(printed(&one, &[]), expected);
}

#[test]
fn json_has_every_field() {
    let sample = fs::read(root().join("samples/store.journal")).expect("the sample");
    let expected = r#"{"refusal":0,"ceiling":90300,"key_number":0,"senders":[{"address":"00:12:4B:00:1C:A1:B2:C3","counter":74571},{"address":"00:12:4B:00:1C:A1:00:02","counter":7002}],"complete":59,"incomplete":4}"#;
    assert_eq!(printed(&sample, &["--json"]), format!("{expected}\n"));
    let none = r#"{"refusal":0,"ceiling":0,"senders":[],"complete":0,"incomplete":0}"#;
    assert_eq!(printed(&[], &["--json"]), format!("{none}\n"));
}

const KIND: &str = "a record of a journal, or the one to be written, has a kind that is not 1 to 3";
const PLACE: &str =
    "the sender is new and no place is free, or a journal names more senders than 64 or than the list has places";

fn naming(count: u64) -> Vec<u8> {
    bytes(&(0..count).map(|sender| Entry::Sender(sender, 1)).collect::<Vec<_>>())
}

/// A refusal is printed with its number and words, 25 with its place and what helps, and the status is 1. 64 senders are shown, 65
/// are refused. 25 comes before 24, but a tail that begins with 0 is an append that was cut.
#[test]
fn refusals_are_printed() {
    let damaged = |at: usize| {
        format!("refused by 25 at byte {at}: {KIND}; --repair OUT writes what is before it and says what that risks\n")
    };
    let no_place = format!("refused by 24: {PLACE}\n");
    for (journal, number, at, text) in [
        (vec![4], 25, Some(0), damaged(0)),
        ([naming(3), vec![4]].concat(), 25, Some(39), damaged(39)),
        ([naming(65), vec![4]].concat(), 25, Some(845), damaged(845)),
        ([naming(65), vec![0]].concat(), 24, None, no_place.clone()),
        (naming(65), 24, None, no_place.clone()),
        ([naming(2), vec![0; 209]].concat(), 25, Some(26), damaged(26)),
    ] {
        let ran = run(&["journal"], &journal);
        assert_eq!((ran.out, ran.err.as_str(), ran.status), (text, "", 1));
        let condition = if number == 25 { KIND } else { PLACE };
        let at = at.map_or(String::new(), |at| format!(",\"at\":{at}"));
        let json = format!("{{\"refusal\":{number},\"condition\":\"{condition}\"{at}}}\n");
        let ran = run(&["journal", "--json"], &journal);
        assert_eq!((ran.out, ran.status), (json, 1));
    }
    let full = printed(&naming(64), &[]);
    assert!(full.contains("\n64 senders\n") && full.lines().count() == 4 + 64, "{full}");
    let cut = printed(&[naming(1), vec![0; 208]].concat(), &[]);
    assert!(cut.ends_with("\n13 bytes of complete records, 208 bytes of an incomplete one behind them\n"), "{cut}");
}

#[test]
fn a_file_that_is_not_there() {
    let ran = run(&["journal", "no-such-file"], b"");
    let message = "store-reader: no-such-file: No such file or directory (os error 2)\n";
    assert_eq!((ran.out.as_str(), ran.err.as_str(), ran.status), ("", message, 2));
}

// ---- shrinking

/// By document 02: key number, ceiling, senders by rising address bytes, of which `02` is less than `C3`. The journal is as it was.
#[test]
fn the_sample_is_shrunk() {
    let (out, sample) = (fresh("command-shrunk.journal"), root().join("samples/store.journal"));
    let (name, journal) = (out.to_str().expect("UTF-8"), on_disk(&sample));
    let shrunk = bytes(&[
        Entry::KeyNumber(0),
        Entry::Ceiling(90300),
        Entry::Sender(0x0012_4B00_1CA1_0002, 7002),
        Entry::Sender(0x0012_4B00_1CA1_B2C3, 74571),
    ]);
    for (arguments, input) in [(&["samples/store.journal"][..], &[][..]), (&["-"], &journal), (&[], &journal)] {
        let _ = fs::remove_file(&out);
        let ran = run(&[&["journal", "--shrink", name], arguments].concat(), input);
        assert_eq!((ran.out, ran.err.as_str(), ran.status), (format!("{SAMPLE}{name}{SAVED}"), "", 0));
        assert_eq!(on_disk(&out), shrunk);
    }
    assert_eq!(on_disk(&sample), journal);
    // What is shrunk cannot be shrunk again.
    let again = fresh("command-shrunk-again.journal");
    let ran = run(&["journal", name, "--shrink", again.to_str().expect("UTF-8")], b"");
    assert!(ran.out.ends_with("/command-shrunk-again.journal: 33 bytes, 0 saved\n"), "{}", ran.out);
    assert_eq!(on_disk(&again), shrunk);
}

/// The disk has the copy before it is told of, as `strace` sees it, where it is installed and may trace.
#[test]
fn the_copy_is_on_disk_when_it_is_told_of() {
    let (out, trace) = (fresh("command-flushed.journal"), fresh("command-trace"));
    let (name, to) = (out.to_str().expect("UTF-8"), trace.to_str().expect("UTF-8"));
    let command = [env!("CARGO_BIN_EXE_store-reader"), "journal", "samples/store.journal", "--shrink", name];
    let Some(ran) = tool("strace", &[&["-y", "-e", "trace=write,fsync", "-o", to], &command[..]].concat()) else {
        return;
    };
    let lines = fs::read_to_string(&trace).unwrap_or_default();
    if lines.is_empty() {
        return not_installed("strace that may trace");
    }
    assert!(ran.status.success() && String::from_utf8_lossy(&ran.stdout).ends_with(SAVED));
    // `fsync(3</folder/command-flushed.journal>) = 0`: the call, and whether it is for the copy.
    let calls =
        lines.lines().filter_map(|line| Some((line.split_once('(')?.0, line.contains("/command-flushed.journal>"))));
    // The copy, then the folder with its name.
    let expected = [("write", true), ("fsync", true), ("fsync", false), ("write", false)];
    assert_eq!(calls.collect::<Vec<_>>(), expected, "{lines}");
}

/// Of an incomplete record nothing is left, and an empty journal is a file of no bytes.
#[test]
fn an_incomplete_record_is_saved_too() {
    let out = fresh("command-empty.journal");
    let name = out.to_str().expect("UTF-8");
    let ran = printed(&[2], &["--shrink", name]);
    assert!(ran.ends_with(&format!(" behind them\n{name}: 0 bytes, 1 saved\n")), "{ran}");
    assert_eq!(on_disk(&out), []);
    fs::remove_file(&out).expect("the file");
    let json = printed(&bytes(&[Entry::Ceiling(1), Entry::Ceiling(7)]), &["--json", "--shrink", name]);
    let expected = r#"{"refusal":0,"ceiling":7,"senders":[],"complete":10,"incomplete":0,"shrunk":5,"saved":5}"#;
    assert_eq!((json, on_disk(&out)), (format!("{expected}\n"), bytes(&[Entry::Ceiling(7)])));
}

/// A file, the journal itself, and a link to nothing: each stays what it was.
#[test]
fn nothing_is_overwritten() {
    let (out, link) = (fresh("command-there.journal"), fresh("command-link.journal"));
    symlink("nothing", &link).expect("a link");
    let sample = on_disk(&root().join("samples/store.journal"));
    fs::write(&out, &sample).expect("a file");
    for there in [&out, &link] {
        let (journal, name) = (out.to_str().expect("UTF-8"), there.to_str().expect("UTF-8"));
        let ran = run(&["journal", journal, "--shrink", name], b"");
        let message = format!("store-reader: {name} is there already, and nothing is overwritten\n");
        assert_eq!((ran.out.as_str(), ran.err, ran.status), ("", message, 2));
    }
    assert_eq!(on_disk(&out), sample);
    assert_eq!(fs::read_link(&link).expect("the link").to_str(), Some("nothing"));
    // The toolchain takes no repository that has a link in it.
    fs::remove_file(&link).expect("the link is removed");
}

/// By 25 and by 24, as without the option.
#[test]
fn a_refused_journal_is_not_shrunk() {
    let out = fresh("command-refused.journal");
    for journal in [vec![4], naming(65)] {
        let (shrunk, shown) =
            (run(&["journal", "--shrink", out.to_str().expect("UTF-8")], &journal), run(&["journal"], &journal));
        assert_eq!((shrunk.out, shrunk.status, out.exists()), (shown.out, 1, false));
    }
}

/// While a gateway has the journal open nothing is copied: what is appended later would not be in it. It may be looked at.
#[test]
fn a_journal_in_use_is_not_copied() {
    let (path, out) = (fresh("command-in-use.journal"), fresh("command-in-use.out"));
    let (journal, name) = (path.to_str().expect("UTF-8"), out.to_str().expect("UTF-8"));
    let mut gateway = JournalFile::create(&path, 5, &mut Senders::new()).expect("a journal");
    assert_eq!(gateway.next_counter().expect("a counter"), 1);
    let message = format!("store-reader: {journal}: the journal is open in another process: stop the gateway first\n");
    for option in ["--shrink", "--repair"] {
        let ran = run(&["journal", journal, option, name], b"");
        assert_eq!((ran.out.as_str(), ran.err.as_str(), ran.status), ("", message.as_str(), 2));
        assert!(!out.exists());
    }
    let shown = run(&["journal", journal], b"");
    assert_eq!((shown.out.lines().next(), shown.status), (Some("ceiling 5"), 0));
    drop(gateway);
    assert_eq!(run(&["journal", journal, "--shrink", name], b"").status, 0);
    assert_eq!(on_disk(&out), bytes(&[Entry::Ceiling(5)]));
}

/// A copy has the journal's permissions, and of standard input it is for its owner alone.
#[test]
fn a_copy_has_the_journals_permissions() {
    let (path, out) = (fresh("command-permissions.journal"), fresh("command-permissions.out"));
    fs::write(&path, bytes(&[Entry::Ceiling(5)])).expect("a file");
    let mode = |path: &Path| fs::metadata(path).expect("a file").permissions().mode() & 0o777;
    for wanted in [0o600, 0o640, 0o644] {
        fs::set_permissions(&path, fs::Permissions::from_mode(wanted)).expect("permissions");
        let _ = fs::remove_file(&out);
        let (journal, name) = (path.to_str().expect("UTF-8"), out.to_str().expect("UTF-8"));
        assert_eq!(run(&["journal", journal, "--shrink", name], b"").status, 0);
        assert_eq!(mode(&out), wanted);
    }
    fs::remove_file(&out).expect("the copy");
    printed(&bytes(&[Entry::Ceiling(5)]), &["--shrink", out.to_str().expect("UTF-8")]);
    assert_eq!(mode(&out), 0o600);
}

// ---- forgetting

/// The sample without one of its two senders, or without both; one that it does not name is told.
#[test]
fn senders_are_left_out() {
    let (probe, router, out) = ("00:12:4B:00:1C:A1:B2:C3", "00:12:4B:00:1C:A1:00:02", fresh("command-forgotten"));
    let name = out.to_str().expect("UTF-8");
    let command = ["journal", "samples/store.journal", "--shrink", name];
    let ran = run(&[&command[..], &["--forget", probe]].concat(), b"");
    let told = ": 20 bytes, 43 saved\nforgotten: 1 sender; what was sent before is taken once more\n";
    assert_eq!((ran.out, ran.err.as_str(), ran.status), (format!("{SAMPLE}{name}{told}"), "", 0));
    let left = [Entry::KeyNumber(0), Entry::Ceiling(90300), Entry::Sender(0x0012_4B00_1CA1_0002, 7002)];
    assert_eq!(on_disk(&out), bytes(&left));
    fs::remove_file(&out).expect("the copy");
    let ran = run(&[&command[..], &["--forget", probe, "--forget", router, "--json"]].concat(), b"");
    assert!(ran.out.ends_with(",\"shrunk\":7,\"saved\":56,\"forgotten\":2}\n"), "{}", ran.out);
    assert_eq!(on_disk(&out), bytes(&left[..2]));
    fs::remove_file(&out).expect("the copy");
    let ran = run(&[&command[..], &["--forget", "00:12:4B:00:1C:A1:B2:C4"]].concat(), b"");
    let message = "store-reader: --forget: the journal does not name 00:12:4B:00:1C:A1:B2:C4\n";
    assert_eq!((ran.out.as_str(), ran.err.as_str(), ran.status), ("", message, 2));
    assert!(!out.exists());
}

// ---- repair

/// A ceiling of 9, key number 3 and a sender, and 23 bytes of damage: they can have been four ceilings of 5 bytes.
fn damaged() -> Vec<u8> {
    let records = [Entry::Ceiling(9), Entry::KeyNumber(3), Entry::Sender(7, 50)];
    [bytes(&records), vec![9; 23]].concat()
}

/// The records before the damage with the ceiling raised, by 16,777,216 or by what is given; what is told of it; and the gateway goes
/// on.
#[test]
fn a_damaged_journal_is_repaired() {
    let (path, out) = (fresh("command-damaged.journal"), fresh("command-repaired.journal"));
    let (journal, name) = (path.to_str().expect("UTF-8"), out.to_str().expect("UTF-8"));
    fs::write(&path, damaged()).expect("a file");
    for (options, margin, most) in [
        (&[][..], 16_777_216, "4194304 counters"),
        (&["--margin", "0x4"], 4, "1 counter"),
        (&["--margin=0"], 0, "0 counters"),
    ] {
        let _ = fs::remove_file(&out);
        let ran = run(&[&["journal", journal, "--repair", name], options].concat(), b"");
        let expected = format!(
            "ceiling 9
key number 3
1 sender
  00:00:00:00:00:00:00:07  counter 50
20 bytes of complete records, 23 bytes of damage behind them
{name}: 20 bytes
kept: the complete records; the ceiling is raised by {margin} to {}
dropped: 23 bytes, which can have been 4 ceilings
risk: counters come twice if the gateway reserved more than {most} at a time
risk: frames can be replayed whose counters were noted in what was dropped
",
            9 + margin
        );
        assert_eq!((ran.out, ran.err.as_str(), ran.status), (expected, "", 0));
        let repaired = [Entry::KeyNumber(3), Entry::Ceiling(9 + margin), Entry::Sender(7, 50)];
        assert_eq!((on_disk(&out), on_disk(&path)), (bytes(&repaired), damaged()));
        let mut gateway = JournalFile::open(&out, 5, &mut Senders::new()).expect("a journal");
        assert_eq!(gateway.next_counter().expect("a counter"), 9 + margin + 1);
    }
}

/// A zeroed sector behind the sample's records, as the reference shows it: the margin over 102 ceilings is 164,482.
#[test]
fn the_reference_shows_a_repair() {
    let reference = fs::read_to_string(root().join("docs/COMMAND.md")).expect("docs/COMMAND.md");
    let shown = reference.split("| store-reader journal --repair repaired.journal\n..\n").nth(1).expect("a repair");
    let shown = shown.split("```").next().expect("its end");
    let out = fresh("command-reference.journal");
    let sample = on_disk(&root().join("samples/store.journal"));
    let damaged = [&sample[..59], &[0; 512]].concat();
    let told = printed(&damaged, &["--repair", out.to_str().expect("UTF-8")]);
    assert!(told.replace(out.to_str().expect("UTF-8"), "repaired.journal").ends_with(shown), "{told}");
    assert!(shown.contains("can have been 102 ceilings\n") && shown.contains(" more than 164482 counters "), "{shown}");
}

/// From standard input and as JSON; so short that no ceiling was in it; and where no counter is left.
#[test]
fn what_a_repair_risks() {
    let out = fresh("command-risks.journal");
    let name = out.to_str().expect("UTF-8");
    let json = printed(&damaged(), &["--repair", name, "--json"]);
    assert!(json.ends_with(",\"complete\":20,\"dropped\":23,\"repaired\":20,\"raised_to\":16777225}\n"), "{json}");
    for (journal, expected, ceiling) in [
        (vec![4], "risk: none that a counter comes twice, if no byte behind the damage is missing\n", 16_777_216),
        (
            [bytes(&[Entry::Ceiling(0xFFFF_FFF0)]), vec![4; 5]].concat(),
            "risk: no counter is left; the network needs another key\n",
            0xFFFF_FFFE,
        ),
    ] {
        fs::remove_file(&out).expect("the copy");
        let text = printed(&journal, &["--repair", name]);
        assert!(text.contains(expected), "{text}");
        assert_eq!(on_disk(&out), bytes(&[Entry::Ceiling(ceiling)]));
    }
}

/// Where nothing is damaged, and where 65 senders stand before the damage, nothing is written. A long one is repaired too.
#[test]
fn what_is_not_repaired() {
    let out = fresh("command-not-repaired.journal");
    let name = out.to_str().expect("UTF-8");
    let ran = run(&["journal", "samples/store.journal", "--repair", name], b"");
    let message = "store-reader: samples/store.journal: nothing is damaged, so nothing is repaired\n";
    assert_eq!((ran.out.as_str(), ran.err.as_str(), ran.status), ("", message, 2));
    let ran = run(&["journal", "--repair", name], &[naming(65), vec![4]].concat());
    assert_eq!((ran.out, ran.status), (format!("refused by 24: {PLACE}\n"), 1));
    assert!(!out.exists());
    let long = bytes(&(0..20_000).map(|at| Entry::Sender(at % 3, at as u32)).collect::<Vec<_>>());
    let text = printed(&[&long[..], &[4], &long].concat(), &["--repair", name, "--margin", "1"]);
    assert!(text.contains("260000 bytes of complete records, 260001 bytes of damage behind them\n"), "{text}");
    let last = [19_998, 19_999, 19_997].into_iter().zip(0..).map(|(counter, sender)| Entry::Sender(sender, counter));
    assert_eq!(on_disk(&out), bytes(&[Entry::Ceiling(1)].into_iter().chain(last).collect::<Vec<_>>()));
}

/// Options that do not go together, and values that are none.
#[test]
fn wrong_options_are_told() {
    for (options, message) in [
        (&["--shrink", "a", "--repair", "b"][..], "--shrink and --repair exclude each other"),
        (&["--margin", "5"], "--margin goes with --repair OUT"),
        (&["--shrink", "a", "--margin", "5"], "--margin goes with --repair OUT"),
        (&["--forget", "00:12:4B:00:1C:A1:B2:C3"], "--forget goes with --shrink OUT"),
        (&["--repair", "a", "--forget", "00:12:4B:00:1C:A1:B2:C3"], "--forget goes with --shrink OUT"),
        (&["--repair", "-"], "--repair: \"-\" is no name of a file"),
        (&["--repair", "a", "--margin", "4294967296"], "--margin: \"4294967296\" is no number that fits"),
    ] {
        let ran = run(&[&["journal"], options].concat(), b"");
        let expected = format!("store-reader: {message}\nstore-reader --help says more\n");
        assert_eq!((ran.out.as_str(), ran.err, ran.status), ("", expected, 2));
    }
}

/// Where the file cannot be made, or what is written does not fit, the error is told and no file is left.
#[test]
fn a_shrunk_journal_that_cannot_be_written() {
    let sample = "samples/store.journal";
    let ran = run(&["journal", sample, "--shrink", "no-such-folder/out"], b"");
    let message = "store-reader: no-such-folder/out: No such file or directory (os error 2)\n";
    assert_eq!((ran.out.as_str(), ran.err.as_str(), ran.status), ("", message, 2));
    let out = fresh("command-full.journal");
    let line = format!(
        "trap '' XFSZ; ulimit -f 0; {} journal {sample} --shrink {} 2>&1 | cat; exit ${{PIPESTATUS[0]}}",
        env!("CARGO_BIN_EXE_store-reader"),
        out.display()
    );
    let Some(ran) = tool("bash", &["-c", &line]) else { return };
    let message = format!("store-reader: {}: File too large (os error 27)\n", out.display());
    assert_eq!((String::from_utf8_lossy(&ran.stdout).as_ref(), ran.status.code()), (message.as_str(), Some(2)));
    assert!(!out.exists());
}
