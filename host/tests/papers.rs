//! What the papers point at is there, and they name the same version and source.
#[allow(dead_code)]
mod support;

use std::fs;
use support::command::root;

const PAPERS: [&str; 5] = ["README.md", "CONTRIBUTING.md", "CHANGELOG.md", "docs/COMMAND.md", "docs/JSON.md"];

fn read(path: &str) -> String {
    fs::read_to_string(root().join(path)).unwrap_or_else(|e| panic!("{path}: {e}"))
}

/// Every path between backticks that starts at a folder of the repository; what is built is left out.
#[test]
fn every_path_is_there() {
    let folders = ["crates/", "host/", "include/", "examples/", "samples/", "tests/", "bench/", "docs/"];
    let mut found = 0;
    for paper in PAPERS {
        for path in read(paper).split('`').skip(1).step_by(2) {
            let whole = path.split_whitespace().count() == 1 && !path.contains(['*', ',']);
            let built = path.contains("/target/");
            if whole && !built && folders.iter().any(|folder| path.starts_with(folder)) {
                assert!(root().join(path).exists(), "{paper} names {path}");
                found += 1;
            }
        }
    }
    assert!(found >= 20, "{found} paths");
}

#[test]
fn the_version_is_one() {
    let version = env!("CARGO_PKG_VERSION");
    let changes = read("CHANGELOG.md");
    let mut headings = changes.lines().filter_map(|line| line.strip_prefix("## "));
    let newest = headings.find(|heading| *heading != "Unreleased");
    assert_eq!(newest, Some(version));
}

/// The ported source by name and commit, its licence in NOTICE, ours in LICENSE, and the processor that the archive is for.
#[test]
fn source_licence_and_processor_are_named() {
    let readme = read("README.md");
    for named in ["`ziggurat-zigbee`", "b5b68c20c0", "`LICENSE`", "`NOTICE`", "Apache-2.0", "x86-64"] {
        assert!(readme.contains(named), "README.md does not name {named}");
    }
    for file in ["LICENSE", "NOTICE"] {
        let text = read(file);
        assert!(text.contains("Apache License") && text.contains("Version 2.0, January 2004"), "{file}");
    }
    assert!(read("include/nwk.h").contains("compiled for x86-64"));
    assert!(read("host/build.rs").contains("compiled for x86_64 Linux"));
}

/// Each fact has one home: README has at most 10 kB, and it, CONTRIBUTING, the pages of `docs/` and the headers at most 130 kB together.
/// The pages of the port, of the design pass and of the look back at it are aside: they list what was moved and how each promise read before.
#[test]
fn the_papers_are_short() {
    assert!(read("README.md").len() <= 10_000, "README.md has {} bytes", read("README.md").len());
    let mut sizes = vec![("README.md".to_string(), read("README.md").len())];
    sizes.push(("CONTRIBUTING.md".to_string(), read("CONTRIBUTING.md").len()));
    for (folder, ending) in [("docs", "md"), ("include", "h")] {
        for entry in fs::read_dir(root().join(folder)).expect(folder) {
            let path = entry.expect("a file").path();
            if path.extension().is_some_and(|found| found == ending)
                && !path.ends_with("PORT.md")
                && !path.ends_with("DESIGN-PASS.md")
                && !path.ends_with("LOOK-BACK.md")
            {
                sizes.push((path.display().to_string(), fs::metadata(&path).expect("a file").len() as usize));
            }
        }
    }
    let all: usize = sizes.iter().map(|(_, size)| size).sum();
    assert!(all <= 130_000, "{all} bytes: {sizes:?}");
}
