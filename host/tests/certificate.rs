//! docs/CERTIFICATE.md points only at what is there. In a row the second column names definitions and claims, the third contracts and
//! proofs; a path is a crate and a file, in `specs/` by the second column, in `proofs/` by the third, in `src/` where it ends in `.rt`.
#[allow(dead_code)]
mod support;

use std::collections::BTreeSet;
use std::fs;
use std::path::PathBuf;
use support::command::root;

const LONGEST_ROW: usize = 300;
/// 18 kB for the base and seven requests, and 1.2 for each request after them.
const LONGEST_PAGE: usize = 20_400;

fn certificate() -> String {
    fs::read_to_string(root().join("docs/CERTIFICATE.md")).unwrap()
}

/// What stands between backquotes in a text.
fn quoted(text: &str) -> impl Iterator<Item = &str> {
    text.split('`').skip(1).step_by(2)
}

/// Whether the text has the name as a word of its own.
fn has_word(text: &str, name: &str) -> bool {
    let part = |c: char| c.is_alphanumeric() || c == '_' || c == '-';
    text.match_indices(name).any(|(at, _)| !text[..at].ends_with(part) && !text[at + name.len()..].starts_with(part))
}

/// The cells of a row.
fn cells(row: &str) -> Vec<&str> {
    row.trim_matches('|').split('|').map(str::trim).collect()
}

/// The file that a path of a column names: `frame/Marks`, or `frame/opening.rt` for the code.
fn file(path: &str, folder: &str) -> PathBuf {
    let (name, rest) = path.split_once('/').unwrap_or_else(|| panic!("{path}: no crate"));
    let in_crate = root().join("crates").join(name);
    if rest.ends_with(".rt") {
        in_crate.join("src").join(rest)
    } else {
        in_crate.join(folder).join(format!("{rest}.antt"))
    }
}

#[test]
fn every_reference_leads_somewhere() {
    let certificate = certificate();
    let folders = ["specs", "proofs"];
    let mut of_heading = [None, None];
    let mut references = 0;
    for row in certificate.lines().filter(|line| line.starts_with('|') && cells(line).len() == 3) {
        let heading = ["Sentence", "Operation"].contains(&cells(row)[0]);
        for (column, cell) in cells(row)[1..].iter().enumerate() {
            let mut inside: Option<PathBuf> = None;
            if heading {
                of_heading[column] = quoted(cell).next().map(|path| file(path, folders[column]));
                continue;
            }
            for word in quoted(cell) {
                let name = match word.split_once('#') {
                    Some((path, name)) => {
                        inside = Some(file(path, folders[column]));
                        name
                    }
                    None => word,
                };
                let path = inside.as_ref().or(of_heading[column].as_ref());
                let path = path.unwrap_or_else(|| panic!("{row}: {word} is in no file"));
                let text = fs::read_to_string(path).unwrap_or_else(|e| panic!("{word}: {}: {e}", path.display()));
                assert!(has_word(&text, name), "{word}: {} has no such name", path.display());
                references += 1;
            }
        }
    }
    assert!(references > 150, "only {references} references were found: has the form of a reference changed?");
    for path in quoted(&certificate).filter(|word| word.starts_with("docs/")) {
        assert!(root().join(path).exists(), "{path}: no such file");
    }
}

/// The first table has every file of definitions; a crate's `Lib.antt` only lists them. `command_reader` and `command_writer` have
/// definitions for the contracts of their building blocks alone, and `casefile` those of the test programs.
#[test]
fn every_definition_is_in_the_reading_order() {
    let certificate = certificate();
    let mut listed = BTreeSet::new();
    for row in certificate.lines().filter(|line| line.starts_with("| `") && cells(line).len() == 2) {
        let (crates, files) = (cells(row)[0], cells(row)[1]);
        let groups: Vec<&str> = if quoted(crates).count() > 1 { files.split(';').collect() } else { vec![files] };
        for (name, group) in quoted(crates).zip(groups) {
            for word in group.split([',', ';', ' ']).filter(|word| word.starts_with(|c: char| c.is_ascii_uppercase())) {
                let path = file(&format!("{name}/{word}"), "specs");
                assert!(path.exists(), "{}", path.display());
                listed.insert(path);
            }
        }
    }
    for entry in fs::read_dir(root().join("crates")).unwrap() {
        let folder = entry.unwrap().path();
        let left_out = ["command_reader", "command_writer", "casefile"].iter().any(|name| folder.ends_with(name));
        if left_out || !folder.join("specs").exists() {
            continue;
        }
        for entry in fs::read_dir(folder.join("specs")).unwrap() {
            let path = entry.unwrap().path();
            assert!(path.ends_with("Lib.antt") || listed.contains(&path), "{} is not in the table", path.display());
        }
    }
}

#[test]
fn rows_and_page_are_short() {
    let certificate = certificate();
    assert!(certificate.len() <= LONGEST_PAGE, "{} bytes", certificate.len());
    for line in certificate.lines().filter(|line| line.starts_with('|')) {
        assert!(line.chars().count() <= LONGEST_ROW, "{} characters: {line}", line.chars().count());
    }
}
