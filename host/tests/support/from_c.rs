//! What a C program of `tests/` prints of its calls over lists of senders, to be repeated from Rust.
use super::command::{scratch, tool};
use super::hex::unhex;
use super::senders::{Record, FIELDS};

/// What the program of this name prints, compiled without a warning.
pub fn printed(name: &str) -> String {
    let program = scratch(name);
    let program = program.to_str().expect("UTF-8");
    let source = format!("tests/{name}.c");
    let flags = ["-std=c11", "-Wall", "-Wextra", "-Wpedantic", "-Werror", "-Iinclude"];
    let files = [&source, "target/staticlib/libnwk.a", "-o", program];
    let compiled = tool("cc", &[&flags[..], &files].concat()).expect("a C compiler called cc is needed");
    assert!(compiled.status.success(), "{}", String::from_utf8_lossy(&compiled.stderr));
    let ran = tool(program, &[]).expect("the program");
    assert!(ran.status.success(), "ended with {}", ran.status);
    String::from_utf8(ran.stdout).expect("UTF-8")
}

/// A number in hexadecimal digits.
pub fn number<T: TryFrom<u64>>(text: &str) -> Option<T> {
    T::try_from(u64::from_str_radix(text, 16).ok()?).ok()
}

/// The records of a list, the bytes of their fields end to end.
pub fn list_of(text: &str) -> Option<Vec<Record>> {
    Some(unhex(text)?.chunks(FIELDS).map(Record::of_bytes).collect())
}
