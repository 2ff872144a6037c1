//! Code, definitions and proofs are there to be read: no line of them is longer than one can follow, imports, the clauses of
//! contracts and the names that a proof goes by aside, each of which the formatter keeps on one line, and no path into a
//! proof's facts goes back ten places without a name on the way.
#[allow(dead_code)]
mod support;

use std::fs;
use std::path::{Path, PathBuf};
use support::command::root;

const LONGEST: usize = 200;

fn sources(folder: &Path, found: &mut Vec<PathBuf>) {
    for entry in fs::read_dir(folder).unwrap() {
        let path = entry.unwrap().path();
        if path.ends_with("out") {
            continue; // What the toolchain makes.
        }
        if path.is_dir() {
            sources(&path, found);
        } else if path.extension().is_some_and(|ending| ending == "rt" || ending == "antt") {
            found.push(path);
        }
    }
}

fn may_be_long(line: &str) -> bool {
    ["use ", "ghost use ", "ensures ", "requires ", "#[tactic(", "#![tactic("]
        .iter()
        .any(|start| line.trim_start().starts_with(start))
}

#[test]
fn every_line_can_be_followed() {
    let mut files = Vec::new();
    sources(&root().join("crates"), &mut files);
    assert!(files.len() > 400, "only {} files were found", files.len());
    for file in files {
        let text = fs::read_to_string(&file).unwrap();
        for (at, line) in text.lines().enumerate().filter(|(_, line)| !may_be_long(line)) {
            let place = format!("{}:{}", file.display(), at + 1);
            assert!(line.chars().count() <= LONGEST, "{place}: {} characters", line.chars().count());
            assert!(!line.contains(&".before".repeat(10)), "{place}: ten places back without a name");
        }
    }
}
