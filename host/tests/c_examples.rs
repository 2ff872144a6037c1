//! The C programs of the README and of `examples/`: they compile without a warning and print what they are said to print.
use std::fs;
use std::path::{Path, PathBuf};
use std::process::Command;

fn root() -> PathBuf {
    PathBuf::from(env!("CARGO_MANIFEST_DIR")).join("..")
}

/// Compiles a C program against the archive and gives what it prints; it must end with 0.
fn output(name: &str, source: &Path) -> String {
    let program = Path::new(env!("CARGO_TARGET_TMPDIR")).join(name);
    let compiled = Command::new("cc")
        .args(["-std=c11", "-Wall", "-Wextra", "-Wpedantic", "-Werror", "-Iinclude"])
        .arg(source)
        .arg("target/staticlib/libnwk.a")
        .arg("-o")
        .arg(&program)
        .current_dir(root())
        .output()
        .expect("a C compiler called cc is needed");
    assert!(compiled.status.success(), "{}", String::from_utf8_lossy(&compiled.stderr));
    let ran = Command::new(&program).output().expect("the program starts");
    let printed = String::from_utf8(ran.stdout).expect("UTF-8");
    assert!(ran.status.success(), "{printed}");
    printed
}

/// The output of a program given as text.
fn output_of_text(name: &str, text: &str) -> String {
    let source = Path::new(env!("CARGO_TARGET_TMPDIR")).join(format!("{name}.c"));
    fs::write(&source, text).expect("a file for the program");
    output(name, &source)
}

/// What stands between two texts, the first of its kind.
fn between<'a>(text: &'a str, open: &str, close: &str) -> &'a str {
    let behind = text.split_once(open).expect("the opening mark").1;
    behind.split_once(close).expect("the closing mark").0
}

#[test]
fn the_readmes_program() {
    let readme = fs::read_to_string(root().join("README.md")).expect("README.md");
    let program = between(&readme, "```c\n", "```");
    let behind = readme.split_once("```c\n").expect("the program").1;
    let printed = between(behind, "and prints\n\n```text\n", "```");
    assert_eq!(output_of_text("readme", program), printed);
}

#[test]
fn the_example_that_seals_and_opens() {
    let printed = output("seal_open", &root().join("examples/seal_open.c"));
    assert!(printed.contains("opened, 12 bytes: store reader\n"), "{printed}");
    let refused = "damaged: refusal 19, length 0
last counter: refusal 21, length 0
address without its bit: refusal 28, length 0
";
    assert!(printed.ends_with(refused), "{printed}");
}

/// Headers of 8 and 14 bytes, 6 of payload, and a MIC of 4, 8 or 16. By document 02 a frame behind whose headers fewer bytes stand than
/// the MIC has is refused by 16, and a level that is not 5, 6 or 7 by 29.
#[test]
fn the_example_at_each_level() {
    let expected = "level 5: 32 bytes, opens at 5, at 6 refused by 19, at 7 refused by 16
level 6: 36 bytes, at 5 refused by 19, opens at 6, at 7 refused by 16
level 7: 44 bytes, at 5 refused by 19, at 6 refused by 19, opens at 7
level 4: refused by 29: the network's level is not 5, 6 or 7
";
    assert_eq!(output("level", &root().join("examples/level.c")), expected);
}

/// By document 02 a refused frame stops no other: the damaged one has its own answer, 19, and the empty one 2. The clear one
/// is accepted and marked so.
#[test]
fn the_example_that_opens_a_burst() {
    let expected = "5 frames in one call
frame 0: 6 bytes from 0x1234, counter 1: 21.5 C
frame 1: refused by 19: the MIC is not the one computed
frame 2: refused by 2: a header has fewer than 8 bytes
frame 3: 6 bytes from 0x1234, counter 3: 21.9 C
frame 4: 6 bytes, clear, said to be from 0x1234: 22.0 C
";
    assert_eq!(output("burst", &root().join("examples/burst.c")), expected);
}

/// The counters and the probe's label are those that `samples/capture.py` put in. By document 02 a counter that is not above the
/// stored one is refused by 23, noting gives the earlier one, and a sender that was forgotten is new.
#[test]
fn the_example_that_refuses_a_replay() {
    let expected = "00124B001CA1B2C3, counter 74565: taken, of a new sender
00124B001CA1B2C3, counter 74565: refused by 23: the frame counter is FFFFFFFF or not above the sender's stored one
00124B001CA1B2C3, counter 74571: taken, after 74565
00124B001CA1B2C3, counter 74571: taken, of a new sender
";
    assert_eq!(output("replay", &root().join("examples/replay.c")), expected);
}

/// Three counters are reserved at a time, so the ceilings are 3 and 6 before the cut: 10 bytes, and 13 of a sender. By document 02 after
/// recovery the last counter is the ceiling, and a shrunk journal has the largest ceiling and the sender, 5 and 13 bytes. The five bytes
/// of an append that was cut count for nothing. Another kind is refused by 25.
#[test]
fn the_example_that_survives_a_power_cut() {
    let expected = "start: ceiling 0, 0 of 0 bytes are complete records
shrunk from 0 to 0 bytes
counter 1
counter 2
counter 3
counter 4
power cut
start: ceiling 6, 23 of 28 bytes are complete records
00124B001CA1B2C3 had counter 74565
shrunk from 23 to 18 bytes
counter 7
counter 8
refused by 25: a record of a journal, or the one to be written, has a kind that is not 1 to 3
";
    assert_eq!(output("journal", &root().join("examples/journal.c")), expected);
}

/// The payloads are the reports that `samples/capture.py` put in: the neighbour's second with 1990 hundredths of a degree, the
/// probe's sixth with 2200. The clear one needs no output, the sealed one does.
#[test]
fn the_example_that_opens_a_clear_frame() {
    let expected = "clear, from 0x9C44, 16 bytes: 00 01 02 04 04 01 01 02 18 02 0A 00 00 29 C6 07
sealed, from 0x7A10, 16 bytes: 00 01 02 04 04 01 01 06 18 06 0A 00 00 29 98 08
refused by 18: the lent output is shorter than what is to be written
refused by 19: the MIC is not the one computed
";
    assert_eq!(output("clear", &root().join("examples/clear.c")), expected);
}
