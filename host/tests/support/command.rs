//! `store-reader` as a user runs it, and outside tools where they are installed.
use std::collections::BTreeSet;
use std::io::Write;
use std::path::PathBuf;
use std::process::{Child, Command, Output, Stdio};
use std::sync::Mutex;

/// The sample's key.
pub const KEY: &str = "C0C1C2C3C4C5C6C7C8C9CACBCCCDCECF";

pub struct Ran {
    pub out: String,
    pub err: String,
    pub status: i32,
}

/// The repository's root.
pub fn root() -> PathBuf {
    PathBuf::from(env!("CARGO_MANIFEST_DIR")).join("..")
}

/// A file for a test to write.
pub fn scratch(name: &str) -> PathBuf {
    PathBuf::from(env!("CARGO_TARGET_TMPDIR")).join(name)
}

/// Starts the command from the repository's root, its input and outputs in pipes.
pub fn start(arguments: &[&str]) -> Child {
    // Without the feature std there is no command, and no test that runs it.
    Command::new(option_env!("CARGO_BIN_EXE_store-reader").unwrap_or("store-reader"))
        .args(arguments)
        .current_dir(root())
        .stdin(Stdio::piped())
        .stdout(Stdio::piped())
        .stderr(Stdio::piped())
        .spawn()
        .expect("the command starts")
}

/// Runs the command from the repository's root with this standard input.
pub fn run(arguments: &[&str], input: &[u8]) -> Ran {
    let mut child = start(arguments);
    let mut stdin = child.stdin.take().expect("standard input");
    let input = input.to_vec();
    // A command that refuses its arguments does not read its input.
    let writer = std::thread::spawn(move || {
        let _ = stdin.write_all(&input);
    });
    let done = child.wait_with_output().expect("the command ends");
    writer.join().expect("the input is written");
    Ran {
        out: String::from_utf8(done.stdout).expect("UTF-8"),
        err: String::from_utf8(done.stderr).expect("UTF-8"),
        status: done.status.code().expect("no signal"),
    }
}

/// What an outside tool answers; none where it is not installed, which is said once.
pub fn tool(name: &str, arguments: &[&str]) -> Option<Output> {
    let answered = Command::new(name).args(arguments).current_dir(root()).output().ok();
    if answered.is_none() {
        not_installed(name);
    }
    answered
}

/// Says in one line, on the standard error itself, that something is missing and what needs it is skipped.
pub fn not_installed(name: &str) {
    static SAID: Mutex<BTreeSet<String>> = Mutex::new(BTreeSet::new());
    if SAID.lock().expect("no panic").insert(name.to_string()) {
        let _ = writeln!(std::io::stderr(), "{name} is not installed: skipped");
    }
}
