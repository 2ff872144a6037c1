//! On a terminal refusals are coloured and a long input has a progress line; elsewhere neither is seen. The terminal is made
//! by `script`, where it is installed.
#[allow(dead_code)]
mod support;

use support::command::{root, run, tool};

/// Runs a line of shell on a terminal, `$R` being the command, and gives what the terminal was sent.
fn on_a_terminal(line: &str, name: &str) -> Option<String> {
    let record = support::command::scratch(name);
    let line = format!("R={}; {line}", env!("CARGO_BIN_EXE_store-reader"));
    let ran = tool("script", &["-qec", &line, record.to_str().expect("UTF-8")])?;
    Some(String::from_utf8_lossy(&ran.stdout).into_owned())
}

const RED: &str = "\x1b[31mrefused by 2: a header has fewer than 8 bytes\x1b[0m";

#[test]
fn refusals_are_red_on_a_terminal() {
    let Some(shown) = on_a_terminal("echo 08 | TERM=xterm NO_COLOR= $R read", "colour") else {
        return;
    };
    assert!(shown.contains(RED), "{shown:?}");
    for line in ["echo 08 | TERM=xterm NO_COLOR=1 $R read", "echo 08 | TERM=dumb NO_COLOR= $R read"] {
        let shown = on_a_terminal(line, "no-colour").expect("script");
        assert!(!shown.contains('\x1b') && shown.contains("refused by 2: "), "{shown:?}");
    }
    assert!(!run(&["read"], b"08\n").out.contains('\x1b'));
}

/// An input that comes with a pause: the line tells bytes and records, and is deleted at the end.
#[test]
fn a_long_input_has_a_progress_line() {
    let input = "(echo 08; sleep 1.3; echo 08; echo 08)";
    let Some(shown) = on_a_terminal(&format!("{input} | $R read --summary-only"), "progress") else {
        return;
    };
    assert!(shown.starts_with("\r\x1b[K") && shown.contains(" bytes, 2 records"), "{shown:?}");
    let behind = shown.rsplit_once(" records").expect("a progress line").1;
    assert!(behind.starts_with("\r\x1b[K") && behind.contains("3 frames: 0 read, 3 refused"), "{shown:?}");
    // Where lines come on the same terminal there is none, nor where standard error is no terminal.
    let shown = on_a_terminal(&format!("{input} | $R read"), "no-progress").expect("script");
    assert!(!shown.contains("records"), "{shown:?}");
    let shown = on_a_terminal(&format!("{input} | $R read --summary-only 2>&1 | cat"), "no-terminal").expect("script");
    assert!(!shown.contains('\x1b'), "{shown:?}");
}

/// Into a pipe the output comes in large pieces: the writes that `strace` sees, where it is installed and may trace.
#[test]
fn output_into_a_pipe_is_buffered() {
    let input = root().join("samples/store.pcap");
    let line = format!(
        "strace -f -e trace=write -o /dev/stderr {} read {} 2>&1 >/dev/null | grep -c 'write(1,'",
        env!("CARGO_BIN_EXE_store-reader"),
        input.display()
    );
    let Some(ran) = tool("strace", &["-V"]).and_then(|_| tool("sh", &["-c", &line])) else {
        return;
    };
    let writes = String::from_utf8_lossy(&ran.stdout).trim().to_string();
    assert!(["0", "1"].contains(&writes.as_str()), "{writes} writes");
}

/// A reader that goes away early is no error.
#[test]
fn a_reader_that_goes_away() {
    let lines = "08\n".repeat(100_000);
    let path = support::command::scratch("many-lines");
    std::fs::write(&path, lines).expect("a file");
    let line =
        format!("{} read {} | head -n 1; exit ${{PIPESTATUS[0]}}", env!("CARGO_BIN_EXE_store-reader"), path.display());
    let Some(ran) = tool("bash", &["-c", &line]) else {
        return;
    };
    assert_eq!(String::from_utf8_lossy(&ran.stdout), "   1  refused by 2: a header has fewer than 8 bytes\n");
    assert_eq!((ran.status.code(), String::from_utf8_lossy(&ran.stderr).as_ref()), (Some(0), ""));
}
