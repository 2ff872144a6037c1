//! The man page and the completions say what the help says, and the help what the command takes.
#[allow(dead_code)]
mod support;

use std::collections::BTreeSet;
use std::fs;
use support::command::{root, run, tool, KEY};
use support::man::{self, man_page, COMMANDS};

/// The long options that a text names, each behind a blank, a bracket, a bar or at the start of a line.
fn options(text: &str) -> BTreeSet<String> {
    let words = text.split(|c: char| c.is_whitespace() || "[]()|,\"".contains(c));
    let names = words.filter(|word| word.starts_with("--") && word.len() > 2);
    names.map(|word| word.trim_end_matches(['.', ':', ';']).split('=').next().unwrap_or("").to_string()).collect()
}

/// The help of all commands, each up to its examples.
fn help() -> String {
    let pages = [None].into_iter().chain(COMMANDS.map(Some)).map(man::help);
    pages.map(|page| page.split("Examples").next().expect("a help").to_string()).collect()
}

fn file(path: &str) -> String {
    fs::read_to_string(root().join(path)).unwrap_or_else(|e| panic!("{path}: {e}"))
}

/// The help is the one home of what the man page says: with `WRITE_MAN` set the page is written.
#[test]
fn the_man_page_is_made_of_the_help() {
    let page = man_page();
    if std::env::var_os("WRITE_MAN").is_some() {
        fs::write(root().join("host/man/store-reader.1"), &page).expect("the man page");
    }
    assert!(file("host/man/store-reader.1") == page, "WRITE_MAN=1 cargo test --test help writes the man page");
    assert_eq!(options(&page.replace("\\-", "-")), options(&help()));
}

/// A command's help is about that command: it names each option that the command takes, and no other.
#[test]
fn each_command_has_its_own_help() {
    for name in COMMANDS {
        let page = man::help(Some(name));
        assert!(page.starts_with(&format!("store-reader {name} ")), "{page}");
        assert_eq!(run(&["help", name], b"").out, page);
        let examples = page.split("Examples").nth(1).expect("examples");
        assert!(examples.lines().filter(|line| !line.trim().is_empty()).count() > 0);
        let named = options(&page);
        for option in options(&help()) {
            let has = !run(&[name, &option], b"").err.contains(&format!("{name} has no option {option}"));
            let of_all = ["--help", "--version"].contains(&option.as_str());
            assert!(named.contains(&option) == (has && !of_all), "{name} {option}: {has}");
        }
    }
    assert!(options(&man::help(None)).contains("--version"));
}

/// groff, where it is installed, has nothing to say against the man page.
#[test]
fn the_man_page_is_clean() {
    let Some(checked) = tool("groff", &["-man", "-ww", "-z", "-Tutf8", "host/man/store-reader.1"]) else {
        return;
    };
    assert_eq!(String::from_utf8_lossy(&checked.stderr), "");
    assert!(checked.status.success());
}

/// What bash completes behind these words.
fn completed(words: &str) -> Option<BTreeSet<String>> {
    let script = format!(
        ". host/completions/store-reader.bash; COMP_WORDS=({words}); COMP_CWORD=$((${{#COMP_WORDS[@]}} - 1)); \
         _store_reader; printf '%s\\n' \"${{COMPREPLY[@]}}\""
    );
    let ran = tool("bash", &["-c", &script])?;
    assert!(ran.status.success() && ran.stderr.is_empty(), "{}", String::from_utf8_lossy(&ran.stderr));
    let printed = String::from_utf8(ran.stdout).expect("UTF-8");
    Some(printed.lines().filter(|line| !line.is_empty()).map(str::to_string).collect())
}

#[test]
fn bash_completes_what_the_command_takes() {
    let Some(names) = completed("store-reader ''") else {
        return;
    };
    assert!(COMMANDS.iter().all(|name| names.contains(*name)), "{names:?}");
    let mut all = BTreeSet::new();
    for name in COMMANDS {
        let offered = completed(&format!("store-reader {name} --")).expect("bash");
        for option in options(&help()) {
            // The command itself says whether it has the option.
            let said = run(&[name, &option], b"").err;
            let has = !said.contains(&format!("{name} has no option {option}"));
            assert_eq!(offered.contains(&option), has, "{name} {option}");
        }
        all.extend(offered);
    }
    assert_eq!(all, options(&help()));
    let files = completed("store-reader open --key-file samples/store.k").expect("bash");
    assert_eq!(files, BTreeSet::from(["samples/store.key".to_string(), "samples/store.keys".to_string()]));
}

/// The help says where a summary is printed: by open, read and command, and not by seal.
#[test]
fn the_help_is_true_of_the_summary() {
    assert!(help().contains("open, read and command count refusals in their summary"));
    assert!(help().contains("prints the sealed frames, a line each and without a summary"));
    assert!(
        help().contains("a\n                      counter that is sealed twice under one key repeats the key stream")
    );
    let frame = b"0800000034121E07AA\n";
    for arguments in [&["open", "--key", KEY][..], &["read"], &["command"]] {
        let out = run(arguments, frame).out;
        assert!(out.contains("refused\n"), "{arguments:?}: {out}");
        let json = run(&[arguments, &["--json"]].concat(), frame).out;
        assert!(json.lines().last().expect("a line").starts_with("{\"summary\":"), "{arguments:?}: {json}");
    }
    let sealing = ["seal", "--key", KEY, "--counter=1", "--ieee=0807060504030201"];
    assert_eq!(run(&sealing, frame).out.lines().count(), 1);
    assert_eq!(run(&[&sealing[..], &["--json"]].concat(), frame).out.lines().count(), 1);
}

/// The reference names every option that the help has.
#[test]
fn the_reference_names_every_option() {
    let reference = file("docs/COMMAND.md").replace('`', " ");
    assert_eq!(&options(&help()) - &options(&reference), BTreeSet::new());
}
