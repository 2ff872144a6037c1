//! A capture that is still being written: lines come at once, and Ctrl-C ends the run with its summary.
#[allow(dead_code)]
mod support;

use std::fs;
use std::io::{BufRead, BufReader, Read, Write};
use std::process::{Child, ChildStdin};
use std::sync::mpsc::{channel, Receiver};
use std::time::{Duration, Instant};
use support::air::{Air, Device, Fate};
use support::command::{root, run, start, tool, KEY};

/// How long a line may take that is to come at once.
const SOON: Duration = Duration::from_secs(20);

/// The command with its input held open, and the lines that it prints as they come.
struct Live {
    child: Child,
    input: ChildStdin,
    lines: Receiver<String>,
}

impl Live {
    fn new(options: &[&str]) -> Self {
        let mut child = start(&[&["open", "--key", KEY], options].concat());
        let (sender, lines) = channel();
        let out = BufReader::new(child.stdout.take().expect("standard output"));
        std::thread::spawn(move || out.lines().map_while(Result::ok).try_for_each(|line| sender.send(line)));
        let input = child.stdin.take().expect("standard input");
        Self { child, input, lines }
    }

    fn write(&mut self, bytes: &[u8]) {
        self.input.write_all(bytes).expect("the input is read");
        self.input.flush().expect("the input is read");
    }

    fn line(&self) -> String {
        self.lines.recv_timeout(SOON).expect("a line")
    }

    /// Presses Ctrl-C while the input is open; what is printed then, what is said, and the exit status.
    fn interrupt(mut self) -> (Vec<String>, String, Option<i32>) {
        let pid = self.child.id().to_string();
        assert!(tool("kill", &["-INT", &pid]).expect("kill").status.success());
        let status = self.child.wait().expect("the command ends").code();
        let mut said = String::new();
        self.child.stderr.take().expect("standard error").read_to_string(&mut said).expect("UTF-8");
        let printed = std::iter::from_fn(|| self.lines.recv_timeout(SOON).ok()).collect();
        drop(self.input);
        (printed, said, status)
    }
}

/// Whether a process catches (`SigCgt:`) or ignores (`SigIgn:`) Ctrl-C, by its status.
fn has_signal(process: &str, field: &str) -> bool {
    let status = fs::read_to_string(format!("/proc/{process}/status")).unwrap_or_default();
    let signals = status.lines().find_map(|line| line.strip_prefix(field)).map_or("0", str::trim);
    u64::from_str_radix(signals, 16).is_ok_and(|signals| signals >> 1 & 1 == 1)
}

fn wait_until(holds: impl Fn() -> bool) {
    let end = Instant::now() + SOON;
    while !holds() {
        assert!(Instant::now() < end, "it takes too long");
        std::thread::sleep(Duration::from_millis(5));
    }
}

/// Whether the tests run where Ctrl-C is ignored, which the command then ignores too.
fn is_ignored() -> bool {
    let is_ignored = has_signal("self", "SigIgn:");
    if is_ignored {
        let _ = writeln!(std::io::stderr(), "Ctrl-C is ignored here: skipped");
    }
    is_ignored
}

fn sample() -> Vec<u8> {
    fs::read(root().join("samples/store.pcap")).expect("the sample")
}

/// With `--flush` a line is there as soon as its record is; the next record is yet to come.
#[test]
fn lines_come_at_once() {
    let expected = run(&["open", "--key", KEY, "samples/store.pcap"], b"").out;
    let mut expected = expected.lines();
    let sample = sample();
    let mut live = Live::new(&["--flush", "-"]);
    live.write(&sample[..24]);
    let mut at = 24;
    while at < sample.len() {
        let end = at + 16 + usize::from(sample[at + 8]);
        live.write(&sample[at..end]);
        assert_eq!(Some(live.line().as_str()), expected.next());
        at = end;
    }
    let Live { mut child, input, lines } = live;
    drop(input);
    assert_eq!(lines.recv_timeout(SOON).ok().as_deref(), expected.next(), "the summary");
    assert!(child.wait().expect("the command ends").success());
}

/// Ctrl-C: the summary of what came so far and 130. A record of which a part had come is not called damaged.
#[test]
fn the_summary_comes_after_an_interrupt() {
    if is_ignored() {
        return;
    }
    let sample = sample();
    let third = 24 + (16 + usize::from(sample[32])) + 16;
    for (options, is_summary) in [
        (&["--flush"][..], "1 frame: 1 opened, 0 refused"),
        (&["--flush", "--json"], "\"frames\":1,\"opened\":1,"),
        (&["--flush", "--by-sender", "--by=day"], "1 frame: 1 opened, 0 refused"),
    ] {
        let mut live = Live::new(options);
        let second = third + usize::from(sample[third - 16 + 8]);
        live.write(&sample[..second + 9]);
        assert!(live.line().contains("MAC beacon"));
        assert!(live.line().contains("0xFFFC"));
        let (printed, said, status) = live.interrupt();
        assert!(printed.iter().any(|line| line.contains(is_summary)), "{printed:?}");
        assert_eq!((said.as_str(), status), ("", Some(130)), "{options:?}");
    }
}

/// The same before anything has come, and while lines are read.
#[test]
fn an_interrupt_before_the_first_record() {
    if is_ignored() {
        return;
    }
    for front in [&b""[..], b"08 0", b"\xD4\xC3", &sample()[..10], &sample()[..24], &sample()[..30]] {
        let mut live = Live::new(&[]);
        live.write(front);
        // The command watches for the signal before it reads.
        wait_until(|| has_signal(&live.child.id().to_string(), "SigCgt:"));
        let (printed, said, status) = live.interrupt();
        assert_eq!(
            (printed, said.as_str(), status),
            (vec!["0 frames: 0 opened, 0 refused".to_string()], "", Some(130))
        );
    }
}

/// The most memory that a process has had, in KiB.
fn peak(process: &Child) -> u64 {
    let status = fs::read_to_string(format!("/proc/{}/status", process.id())).expect("its status");
    let peak = status.lines().find_map(|line| line.strip_prefix("VmHWM:")).expect("its peak");
    peak.trim().trim_end_matches(" kB").parse().expect("a number")
}

/// Ten times the frames take no more memory. A frame of one byte, the only one that is refused, tells that all before it were read.
#[test]
fn memory_does_not_grow_with_the_capture() {
    let mut air = Air::new(1, 1_795_000_000);
    let mut devices: Vec<Device> = (1..=20).map(|number| Device::new(number, 0, 1_000)).collect();
    for at in 0..110_000 {
        let fate = if air.random.percent(10) { Fate::Lost } else { Fate::Heard };
        air.send(&mut devices[at % 20], fate);
        air.now += 1;
    }
    let records = air.records();
    let mac = [0x41, 0x88, 1, 0x62, 0x1A, 0, 0, 1, 0, 0x08, 0, 0];
    let marker = [&[0; 8][..], &[mac.len() as u8, 0, 0, 0, mac.len() as u8, 0, 0, 0], &mac].concat();
    let [first, rest] = [(0, records / 11), (records / 11, records)].map(|(from, to)| air.part(from, to));
    let mut live = Live::new(&["--flush", "--refused", "--by-sender", "--by", "day", "-"]);
    live.write(&[&first[..], &marker].concat());
    assert!(live.line().contains("refused by 2: "));
    let before = peak(&live.child);
    live.write(&[&rest[24..], &marker].concat());
    assert!(live.line().contains("refused by 2: "));
    let after = peak(&live.child);
    assert!(after <= before + 256, "{before} KiB, then {after} KiB");
    let Live { mut child, input, lines } = live;
    drop(input);
    assert!(lines.iter().any(|line| line.contains(&format!("{} frames: ", records + 2))));
    assert!(child.wait().expect("the command ends").success());
}

/// What tshark writes into a pipe is read from it, as the help shows.
#[test]
fn tshark_into_a_pipe() {
    let command = env!("CARGO_BIN_EXE_store-reader");
    let line = format!("tshark -r samples/store.pcap -w - 2>/dev/null | {command} open --key {KEY} --flush -");
    let Some(piped) = tool("tshark", &["-v"]).and_then(|_| tool("sh", &["-c", &line])) else {
        return;
    };
    let expected = run(&["open", "--key", KEY, "samples/store.pcap"], b"");
    assert_eq!((String::from_utf8_lossy(&piped.stdout).into_owned(), piped.status.code()), (expected.out, Some(0)));
}
