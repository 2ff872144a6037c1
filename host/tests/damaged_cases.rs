//! The programs that run cases, on damaged copies of their files: every damaged line is named and does not count as one that
//! agrees. A damage is done to all lines of a file at once, so no line is passed over.
use std::collections::BTreeSet;
use std::fs;
use std::path::{Path, PathBuf};
use std::process::Command;
use std::sync::atomic::{AtomicUsize, Ordering};

/// A file of cases, the program that runs it, and what it calls its cases.
struct File {
    program: &'static str,
    name: &'static str,
    things: &'static str,
}

const FILES: [File; 13] = [
    File { program: "vectors", name: "aes128_ecb.txt", things: "blocks" },
    File { program: "vectors", name: "ccm_13_4.txt", things: "entries" },
    File { program: "vectors", name: "ccm_13_8.txt", things: "entries" },
    File { program: "vectors", name: "ccm_13_8_rfc3610.txt", things: "entries" },
    File { program: "vectors", name: "ccm_13_16_1.txt", things: "entries" },
    File { program: "vectors", name: "ccm_13_16_2.txt", things: "entries" },
    File { program: "vectors", name: "ccm_13_16_3.txt", things: "entries" },
    File { program: "vectors", name: "ccm_limits.txt", things: "entries" },
    File { program: "vectors", name: "types_rs.txt", things: "calls" },
    File { program: "frame_cases", name: "headers.txt", things: "cases" },
    File { program: "frame_cases", name: "frames.txt", things: "cases" },
    File { program: "frame_cases", name: "presence_bits.txt", things: "cases" },
    File { program: "command_cases", name: "commands.txt", things: "cases" },
];

/// The place of the mark in a case of opening.
const MARK: usize = 5;

const DAMAGED: &str = "is damaged";
const DIFFERS: &str = "differs";
/// The runs so far: each has a folder of its own.
static RUNS: AtomicUsize = AtomicUsize::new(0);

fn root() -> PathBuf {
    Path::new(env!("CARGO_MANIFEST_DIR")).join("..")
}

impl File {
    fn data(&self) -> PathBuf {
        root().join("crates").join(self.program).join("data")
    }

    /// Where `rt run` leaves the program.
    fn built(&self) -> PathBuf {
        root().join("crates").join(self.program).join("out").join(self.program)
    }

    fn original(&self) -> String {
        fs::read_to_string(self.data().join(self.name)).expect("a file of cases")
    }

    /// The places of the words of its cases.
    fn places(&self) -> std::ops::Range<usize> {
        let words = |line: &str| line.split(' ').count();
        0..self.original().lines().filter(|line| !line.starts_with('#')).map(words).max().expect("a case")
    }

    /// What the program prints of this file where it holds the text given, and the other files are as they are.
    fn printed(&self, text: &str) -> Vec<String> {
        let folder = format!("damaged/{}", RUNS.fetch_add(1, Ordering::Relaxed));
        let folder = Path::new(env!("CARGO_TARGET_TMPDIR")).join(folder);
        fs::create_dir_all(&folder).expect("a folder to run in");
        for entry in fs::read_dir(self.data()).expect("the program's files") {
            let from = entry.expect("a file").path();
            fs::copy(&from, folder.join(from.file_name().expect("a name"))).expect("a copy");
        }
        fs::write(folder.join(self.name), text).expect("a damaged copy");
        let program = self.built();
        let run = Command::new(&program).current_dir(&folder).output();
        let run = run.unwrap_or_else(|e| panic!("{} could not be run: {e}", program.display()));
        assert!(run.status.success(), "{} ended with {}", self.program, run.status);
        fs::remove_dir_all(&folder).expect("the folder is removed");
        let said = String::from_utf8(run.stdout).expect("lines of text");
        said.lines().filter(|line| line.starts_with(self.name)).map(str::to_owned).collect()
    }

    /// Runs the file with its lines damaged as `damage` says, which answers nothing for a line that it leaves. Exactly the
    /// damaged lines are named, as `verdict`, and the others agree.
    fn check(&self, what: &str, verdict: &str, damage: impl Fn(&[&str]) -> Option<String>) -> usize {
        let original = self.original();
        let cases = original.lines().filter(|line| !line.starts_with('#')).count();
        let mut expected = Vec::new();
        let mut text = String::new();
        for (i, line) in original.lines().enumerate() {
            let words: Vec<&str> = line.split(' ').collect();
            let damaged = if line.starts_with('#') { None } else { damage(&words) };
            if damaged.is_some() {
                expected.push(format!("{}, line {}: {verdict}", self.name, i + 1));
            }
            text.push_str(damaged.as_deref().unwrap_or(line));
            text.push('\n');
        }
        let damaged = expected.len();
        expected.push(format!("{}: {} of {cases} {} agree", self.name, cases - damaged, self.things));
        assert_eq!(self.printed(&text), expected, "{}: {what}", self.name);
        damaged
    }

    /// The words of digits that a case of this file gives as its answer. An entry that fails with one ciphertext fails with
    /// another.
    fn answers(&self, words: &[&str]) -> &'static [usize] {
        match (self.name, words[0]) {
            ("aes128_ecb.txt", _) => &[2],
            (name, _) if name.starts_with("ccm_") && words[6] == "pass" => &[3, 4, 5],
            (name, _) if name.starts_with("ccm_") => &[],
            ("types_rs.txt", _) => &[2, 3],
            ("commands.txt", "R") => &[3, 4, 5],
            ("commands.txt", "W") => &[6],
            ("commands.txt", "S" | "I") => &[3],
            (_, "header" | "aux" | "frame") => &[2, 3],
            (_, "fields" | "aux-fields") => &[2],
            (_, "write") => &[4, 5],
            (_, "seal") => &[6, 7],
            (_, "open") => &[4, 6, 7],
            (_, "split") => &[2, 3, 4],
            (_, kind) => panic!("{}: no answers are known for {kind}", self.name),
        }
    }
}

/// The line with word k changed, if it has one and that is changed.
fn with_word(words: &[&str], k: usize, change: impl Fn(&str) -> String) -> Option<String> {
    let changed = change(words.get(k)?);
    (changed != words[k]).then(|| [&words[..k], &[&changed], &words[k + 1..]].concat().join(" "))
}

/// A word of as many digits, the last of them another one; a byte where there was none.
fn another_answer(word: &str) -> String {
    match word.split_at(word.len() - 1) {
        ("", "-") => "00".to_owned(),
        (front, "9") => format!("{front}8"),
        (front, last) => format!("{front}{:x}", (u8::from_str_radix(last, 16).expect("a digit") + 1) % 16),
    }
}

fn run_if_built(test: impl Fn(&File)) {
    if !FILES.iter().any(|file| file.built().exists()) {
        println!("no program is built here: `make programs` makes them");
        return;
    }
    for file in &FILES {
        assert!(file.built().exists(), "{} is not built", file.program);
        test(file);
    }
}

#[test]
fn undamaged_files_agree() {
    run_if_built(|file| {
        let stdout = root().join("crates").join(file.program).join("stdout");
        let expected = fs::read_to_string(stdout).expect("what the program must print");
        let of_this: Vec<&str> = expected.lines().filter(|line| line.starts_with(file.name)).collect();
        assert_eq!(file.printed(&file.original()), of_this);
        assert_eq!(of_this.len(), 1, "{}", file.name);
    });
}

#[test]
fn damaged_lines_are_named() {
    run_if_built(|file| {
        file.check("an empty line", DAMAGED, |_| Some(String::new()));
        file.check("a space before the line", DAMAGED, |words| Some(format!(" {}", words.join(" "))));
        file.check("a space behind the line", DAMAGED, |words| Some(format!("{} ", words.join(" "))));
        file.check("a carriage return", DAMAGED, |words| Some(format!("{}\r", words.join(" "))));
        file.check("a word too many", DAMAGED, |words| Some(format!("{} 00", words.join(" "))));
        file.check("the first word alone", DAMAGED, |words| Some(words[0].to_owned()));
        for k in file.places() {
            let removed = |words: &[&str]| (k < words.len()).then(|| [&words[..k], &words[k + 1..]].concat().join(" "));
            file.check("a word removed", DAMAGED, removed);
            file.check("a word emptied", DAMAGED, |words| with_word(words, k, |_| String::new()));
            if (file.name, k) == ("commands.txt", 1) {
                continue; // the name of a case may be any word
            }
            file.check("a question mark", DAMAGED, |words| with_word(words, k, |_| "?".to_owned()));
            file.check("no digit at a word's end", DAMAGED, |words| {
                with_word(words, k, |word| format!("{}g", &word[..word.len() - 1]))
            });
            file.check("an unknown word or letter", DAMAGED, |words| with_word(words, k, |_| "X".to_owned()));
        }
    });
}

#[test]
fn lines_of_one_kind_made_empty_are_named() {
    run_if_built(|file| {
        let original = file.original();
        let cases = original.lines().filter(|line| !line.starts_with('#'));
        let kinds: BTreeSet<&str> = cases.map(|line| line.split(' ').next().unwrap_or("")).collect();
        for kind in kinds.into_iter().filter(|kind| kind.len() <= "aux-fields".len()) {
            let emptied = file.check(kind, DAMAGED, |words| (words[0] == kind).then(String::new));
            assert!(emptied > 0, "{}: {kind}", file.name);
        }
    });
}

#[test]
fn other_answers_differ() {
    run_if_built(|file| {
        let mut changed = 0;
        for k in file.places() {
            changed += file.check("another answer", DIFFERS, |words| {
                let answers = file.answers(words);
                answers.contains(&k).then(|| with_word(words, k, another_answer)).flatten()
            });
        }
        assert!(changed > 0, "{}", file.name);
    });
}

/// Each mark in the place of the two others.
#[test]
fn other_marks_differ() {
    run_if_built(|file| {
        if file.name == "frames.txt" {
            for mark in ["-", "clear", "sealed"] {
                let changed = file.check("another mark", DIFFERS, |words| {
                    (words[0] == "open").then(|| with_word(words, MARK, |_| mark.to_owned())).flatten()
                });
                assert!(changed > 0, "{mark}");
            }
        }
    });
}

/// An entry that fails has no payload, and one that passes has one.
#[test]
fn payloads_of_failing_entries_are_looked_at() {
    run_if_built(|file| {
        if ["ccm_13_4.txt", "ccm_13_16_3.txt"].contains(&file.name) {
            for payload in ["-", "00"] {
                let given = file.check("a payload", DAMAGED, |words| {
                    (words[6] == "fail").then(|| with_word(words, 3, |_| payload.to_owned())).flatten()
                });
                assert!(given > 0);
            }
            file.check("fail for pass and pass for fail", DAMAGED, |words| {
                with_word(words, 6, |word| if word == "pass" { "fail" } else { "pass" }.to_owned())
            });
        }
    });
}

#[test]
fn a_file_that_ends_early_is_noticed() {
    run_if_built(|file| {
        let original = file.original();
        let last = format!("{}, line {}: {DAMAGED}", file.name, original.lines().count());
        let whole = original.trim_end_matches('\n');
        for text in [whole, &whole[..whole.len() - 1], &whole[..whole.rfind(' ').expect("several words")]] {
            assert_eq!(file.printed(text)[0], last);
        }
        let comments = original.lines().filter(|line| line.starts_with('#'));
        let alone: String = comments.map(|line| format!("{line}\n")).collect();
        assert_eq!(file.printed(&alone), [format!("{}: has no cases", file.name)]);
        let without_last = &original[..whole.rfind('\n').expect("several lines") + 1];
        assert_ne!(file.printed(without_last), file.printed(&original));
    });
}
