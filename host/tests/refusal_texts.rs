//! Each refusal has one name, one number and one text: in the code, in Rust, in C and in the papers.
#[allow(dead_code)]
mod support;

use std::collections::BTreeSet;
use std::fs;
use store_reader::Refusal;
use support::command::{root, run};
use support::header_comments::refusals;

/// The enum of the code, with the documents' words above each variant.
const CODE: &str = "crates/octets/src/refusals.rt";

/// Name, number and text of each refusal.
type Listed = Vec<(String, u8, String)>;

fn in_rust() -> Listed {
    Refusal::all().map(|r| (r.name().to_string(), r.number(), r.condition().to_string())).collect()
}

/// The variants of the code: a comment line `// a frame ..` above `TooLong = 1,`. A comment may run on.
fn in_code(text: &str) -> Listed {
    let mut listed = Listed::new();
    let mut comment: Vec<&str> = Vec::new();
    for line in text.lines().map(str::trim) {
        if let Some(words) = line.strip_prefix("//") {
            comment.push(words.trim());
        } else if let Some((name, number)) = line.strip_suffix(',').and_then(|variant| variant.split_once(" = ")) {
            listed.push((in_capitals(name), number.parse().expect("a number"), comment.join(" ")));
            comment.clear();
        } else {
            comment.clear();
        }
    }
    listed
}

/// `TooLong` as `TOO_LONG`.
fn in_capitals(variant: &str) -> String {
    let mut name = String::new();
    for letter in variant.chars() {
        if letter.is_uppercase() && !name.is_empty() {
            name.push('_');
        }
        name.push(letter.to_ascii_uppercase());
    }
    name
}

#[test]
fn the_code_has_the_same_list() {
    let modules = fs::read_to_string(root().join("crates/octets/src/lib.rt")).expect("the crate octets");
    if !modules.contains("mod refusals;") {
        eprintln!("octets has no module of refusals: skipped");
        return;
    }
    let text = fs::read_to_string(root().join(CODE)).expect(CODE);
    assert_eq!(in_code(&text), in_rust());
}

#[test]
fn variants_are_read_with_the_words_above_them() {
    let text = "// The refusals.\npub enum Refusal {\n    // too\n    // long\n    TooLong = 1,\n    // short\n    Short = 2,\n}\n";
    let listed = [("TOO_LONG", 1, "too long"), ("SHORT", 2, "short")];
    assert_eq!(in_code(text), listed.map(|(name, number, words)| (name.to_string(), number, words.to_string())));
}

#[test]
fn the_papers_have_the_same_list() {
    let printed = run(&["refusals"], b"").out;
    let lines: String = in_rust().iter().map(|(_, number, text)| format!("{number:>2}  {text}\n")).collect();
    assert_eq!(printed, lines);
    let table = page();
    for (_, number, text) in in_rust() {
        let row = format!("| {number} | {text}");
        assert!(table.contains(&row), "docs/REFUSALS.md has no row {row:?}");
    }
    let rows =
        table.lines().filter(|line| line.starts_with("| ") && line[2..].starts_with(|c: char| c.is_ascii_digit()));
    assert_eq!(rows.count(), in_rust().len());
}

/// Each C function has a row, with its numbers in the order that its comment in `include/nwk.h` gives.
#[test]
fn each_function_has_its_numbers_in_order() {
    let header = fs::read_to_string(root().join("include/nwk.h")).expect("include/nwk.h");
    let page = page();
    for line in header.lines().filter_map(|line| line.strip_prefix("uint64_t ")) {
        let name = line.split('(').next().expect("a name");
        let row = page.lines().find(|row| row.starts_with(&format!("| `{name}` |")));
        let row = row.unwrap_or_else(|| panic!("docs/REFUSALS.md has no row for {name}"));
        let cell = row.split('|').nth(2).expect("the numbers").trim();
        assert_eq!(numbers(cell), refusals(name), "{name}");
    }
}

/// The numbers of a cell, `1 to 8, 18`, without those that were there before.
fn numbers(cell: &str) -> Vec<u8> {
    let mut found: Vec<u8> = Vec::new();
    let mut up_to = false;
    for word in cell.split([' ', ',', ';']) {
        if let Ok(number) = word.parse() {
            let first = if up_to { found.last().expect("a number before") + 1 } else { number };
            found.extend((first..=number).filter(|number| !found.contains(number)).collect::<Vec<u8>>());
        }
        up_to = word == "to";
    }
    found
}

/// Each must-fail edit is there and is named.
#[test]
fn each_edit_is_named() {
    let page = page();
    let operations = page.split_once("## The operations").expect("the operations").1;
    let named: BTreeSet<String> = operations
        .lines()
        .filter(|line| line.starts_with("| "))
        .filter_map(|row| row.split('|').nth(4))
        .flat_map(|cell| cell.split('`').skip(1).step_by(2))
        .map(str::to_string)
        .collect();
    let mut there = BTreeSet::new();
    for entry in fs::read_dir(root().join("crates")).expect("crates") {
        let folder = entry.expect("a crate").path();
        let name = folder.file_name().expect("a name").to_string_lossy().to_string();
        for edit in fs::read_dir(folder.join("must-fail")).into_iter().flatten() {
            let edit = edit.expect("an edit").path();
            there.insert(format!("{name}/{}", edit.file_stem().expect("a name").to_string_lossy()));
        }
    }
    assert_eq!(named, there);
}

/// Each definition that a condition names stands in `specs/` of some crate, and each crate is there.
#[test]
fn each_definition_is_there() {
    let mut definitions = String::new();
    for entry in fs::read_dir(root().join("crates")).expect("crates") {
        for file in fs::read_dir(entry.expect("a crate").path().join("specs")).into_iter().flatten() {
            definitions += &fs::read_to_string(file.expect("a file").path()).expect("a definition");
        }
    }
    let page = page();
    let conditions = page.split_once("## The operations").expect("the operations").0;
    for row in conditions.lines().filter(|line| line.starts_with("| ")) {
        let cell = row.split('|').nth(3).expect("the definitions");
        for name in cell.split('`').skip(1).step_by(2) {
            let there = definitions.contains(&format!("pub {name} :")) || root().join("crates").join(name).is_dir();
            assert!(there, "{name}: no such definition");
        }
    }
}

fn page() -> String {
    fs::read_to_string(root().join("docs/REFUSALS.md")).expect("docs/REFUSALS.md")
}

#[test]
fn names_are_found_by_number_and_match_in_patterns() {
    let mut numbers = 1..;
    for refusal in Refusal::all() {
        assert_eq!(Some(refusal.number()), numbers.next());
        assert_eq!(Refusal::from_number(refusal.number()), Some(refusal));
    }
    assert_eq!((Refusal::from_number(0), Refusal::from_number(30), Refusal::from_number(255)), (None, None, None));
    const NUMBER: u8 = Refusal::NO_AUXILIARY.number();
    assert_eq!(NUMBER, 14);
    assert!(matches!(Refusal::from_number(19), Some(Refusal::WRONG_MIC)));
    assert!(matches!(Refusal::from_number(20), Some(Refusal::BURST)));
    assert!(matches!(Refusal::from_number(21), Some(Refusal::LAST_COUNTER)));
    assert!(matches!(Refusal::from_number(22), Some(Refusal::KEY_SEQUENCE)));
    assert!(matches!(Refusal::from_number(23), Some(Refusal::FRAME_COUNTER)));
    assert!(matches!(Refusal::from_number(24), Some(Refusal::NO_PLACE)));
    assert!(matches!(Refusal::from_number(25), Some(Refusal::JOURNAL_KIND)));
    assert!(matches!(Refusal::from_number(26), Some(Refusal::COUNTERS_USED_UP)));
    assert!(matches!(Refusal::from_number(27), Some(Refusal::NO_CEILING)));
    assert!(matches!(Refusal::from_number(28), Some(Refusal::PRESENCE_BITS)));
    assert!(matches!(Refusal::from_number(29), Some(Refusal::LEVEL)));
    assert_eq!(format!("{:?}", Refusal::WRONG_MIC), "WRONG_MIC(19)");
}

/// The internal error is none of the codec's answers, and does not call itself a refusal.
#[test]
fn the_internal_error_is_not_in_the_list() {
    assert!(Refusal::all().all(|refusal| refusal != Refusal::INTERNAL));
    assert_eq!(Refusal::INTERNAL.to_string(), "internal error: the codec answered what this crate does not know");
}
