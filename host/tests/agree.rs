//! The same calls from C and from Rust: `tests/agree.c` prints what it called and what was answered, and each line is
//! repeated here.
#[allow(dead_code)]
mod support;

use std::path::{Path, PathBuf};
use std::process::{Command, Output};
use support::calls::{check_boundary, perform, Call, Outcome, LEVEL};
use support::hex::unhex;
use support::model;
use support::operations::{Operation, LEVELLED, OPERATIONS};

/// `ROUNDS` of `tests/agree.c`.
const ROUNDS: usize = 300;
const FILL: u8 = 0xA5;

fn root() -> PathBuf {
    Path::new(env!("CARGO_MANIFEST_DIR")).join("..")
}

/// Compiles a C file of the repository against the archive, without warnings, and runs it.
fn built_and_run(source: &str, flags: &[&str]) -> Output {
    let name = Path::new(source).file_stem().expect("a C file").to_owned();
    let folder = Path::new(env!("CARGO_TARGET_TMPDIR")).join("c");
    std::fs::create_dir_all(&folder).expect("a folder for the C programs");
    let program = folder.join(name);
    let compiled = Command::new("cc")
        .args(flags)
        .args(["-Wall", "-Wextra", "-Werror"])
        .arg("-I")
        .arg(root().join("include"))
        .arg(root().join(source))
        .arg(root().join("target/staticlib/libnwk.a"))
        .arg("-o")
        .arg(&program)
        .output()
        .unwrap_or_else(|e| panic!("`cc` could not be started: {e}; this test needs a C compiler on the path"));
    let said = String::from_utf8_lossy(&compiled.stderr);
    assert!(compiled.status.success(), "{source} does not compile:\n{said}");
    assert!(said.is_empty(), "{source} compiles with warnings:\n{said}");
    Command::new(&program).output().unwrap_or_else(|e| panic!("{source} could not be run: {e}"))
}

/// A printed line: the call, and what was answered from C.
fn parsed(line: &str) -> Option<(Call, Outcome)> {
    let (called, answered) = line.split_once(" = ")?;
    let mut words = called.split(' ');
    let operation = Operation::named(words.next()?)?;
    let mut number = || u64::from_str_radix(words.next()?, 16).ok();
    let level = if operation.levelled() { number()? } else { LEVEL };
    let mut key = [0; 16];
    if operation.shape().keyed {
        for half in key.chunks_mut(8) {
            half.copy_from_slice(&number()?.to_le_bytes());
        }
    }
    let inputs: Vec<Vec<u8>> = words.map(unhex).collect::<Option<_>>()?;
    let (answer, outputs) = answered.split_once(' ').unwrap_or((answered, ""));
    let answer = u64::from_str_radix(answer, 16).ok().filter(|_| answer.len() == 16)?;
    let outputs: Vec<Vec<u8>> = outputs.split_terminator(' ').map(unhex).collect::<Option<_>>()?;
    let rooms = outputs.iter().map(Vec::len).collect();
    let shape = operation.shape();
    let complete = inputs.len() == shape.inputs.len() && outputs.len() == shape.outputs.len();
    complete.then_some((Call { operation, level, key, inputs, rooms }, Outcome { answer, outputs }))
}

#[test]
fn c_and_rust_get_the_same_answers() {
    let run = built_and_run("tests/agree.c", &["-std=c11"]);
    assert!(run.status.success(), "agree.c ended with {}", run.status);
    let printed = String::from_utf8(run.stdout).expect("lines of text");
    let mut calls = [0; OPERATIONS.len()];
    let mut accepted = [0; OPERATIONS.len()];
    let mut presence_bits = [0; OPERATIONS.len()];
    let (mut clear, mut last_counter) = (0, 0);
    let mut no_level = [0; OPERATIONS.len()];
    for line in printed.lines() {
        let (call, from_c) = parsed(line).unwrap_or_else(|| panic!("a line that says no call: {line}"));
        let from_rust = perform(&call, FILL, 0x69);
        check_boundary(&call, &from_rust, FILL);
        assert_eq!(from_rust, from_c, "{line}");
        assert_eq!(model::outcome(&call, FILL), from_c, "{line}");
        calls[call.operation as usize] += 1;
        accepted[call.operation as usize] += usize::from(from_c.refusal() == 0);
        clear += usize::from(from_c.clear());
        presence_bits[call.operation as usize] += usize::from(from_c.refusal() == 28);
        last_counter += usize::from(from_c.refusal() == 21);
        let refused = from_c.refusal() == 29;
        let of_frames = call.operation == Operation::OpenBurst && from_c.frames().any(|(record, _)| record[0] == 29);
        no_level[call.operation as usize] += usize::from(refused || of_frames);
    }
    println!("{} lines, accepted by operation {accepted:?}, {clear} clear frames", printed.lines().count());
    assert_eq!(printed.lines().count(), ROUNDS * OPERATIONS.len());
    assert_eq!(calls, [ROUNDS; OPERATIONS.len()]);
    assert!(accepted.iter().all(|&n| n >= ROUNDS / 8), "accepted by operation {accepted:?}");
    let sealed = accepted[Operation::Open as usize] - clear;
    assert!(last_counter >= ROUNDS / 50, "{last_counter} calls refused by 21");
    for operation in LEVELLED {
        assert!(no_level[operation as usize] >= ROUNDS / 30, "refused by 29 by operation {no_level:?}");
    }
    for writer in [Operation::WriteHeader, Operation::WriteFrame, Operation::Seal] {
        assert!(presence_bits[writer as usize] >= ROUNDS / 20, "refused by 28 by operation {presence_bits:?}");
    }
    assert!(clear >= ROUNDS / 20 && sealed >= ROUNDS / 20, "{clear} clear and {sealed} sealed frames opened");
}
