//! The man page, made of the help of each command.
use super::command::run;
use std::collections::BTreeSet;

/// The commands, in the order of the help.
pub const COMMANDS: [&str; 6] = ["open", "read", "seal", "command", "journal", "refusals"];

/// The help of a command, or of all.
pub fn help(command: Option<&str>) -> String {
    let arguments: Vec<&str> = command.into_iter().chain(["--help"]).collect();
    let ran = run(&arguments, b"");
    assert_eq!((ran.err.as_str(), ran.status), ("", 0));
    ran.out
}

/// The page: the help of all, then of each command what no earlier one has said.
pub fn man_page() -> String {
    let version = env!("CARGO_PKG_VERSION");
    let mut page = format!(".TH STORE-READER 1 \"\" \"store-reader {version}\" \"User Commands\"\n.SH NAME\n");
    let mut said = BTreeSet::new();
    for command in [None].into_iter().chain(COMMANDS.map(Some)) {
        let text = help(command);
        let (text, examples) = text.split_once("Examples\n\n").expect("examples");
        let mut blocks = text.trim_end().split("\n\n");
        let first = blocks.next().expect("a first line");
        page += &match command {
            None => format!("{}\n.SH SYNOPSIS\n{}", escaped(&first.replacen(": ", " - ", 1)), synopsis(blocks.next())),
            Some(name) => format!(".SH {}\n{}", name.to_uppercase(), synopsis(Some(first))),
        };
        if command.is_none() {
            page += ".SH DESCRIPTION\n";
        }
        let (new, old): (Vec<&str>, Vec<&str>) = blocks.partition(|block| said.insert(block.to_string()));
        new.into_iter().for_each(|block| page += &shown(block));
        let options: Vec<&str> =
            old.iter().flat_map(|block| block.lines().filter_map(option)).map(|(name, _)| name).collect();
        if !options.is_empty() {
            page += &escaped(&format!(".PP\nAs for an earlier command: {}.\n", options.join("; ")));
        }
        if command.is_some() {
            page += &escaped(&format!(".PP\n.EX\n{}.EE\n", examples.replace('\\', "\\\\")).replace("\\\\", "\\e"));
        }
    }
    page + ".SH SEE ALSO\n.BR tshark (1),\n.BR editcap (1),\n.BR mergecap (1)\n"
}

/// Text for groff: an option's hyphens are hyphens to be copied.
fn escaped(text: &str) -> String {
    text.replace('-', "\\-")
}

/// The forms of a command, one below the other.
fn synopsis(block: Option<&str>) -> String {
    let lines: Vec<&str> = block.expect("a synopsis").lines().map(str::trim).collect();
    format!(".nf\n{}\n.fi\n", escaped(&lines.join("\n")))
}

/// An option's name and the beginning of its text.
fn option(line: &str) -> Option<(&str, &str)> {
    let line = line.strip_prefix("  ").filter(|line| line.starts_with('-'))?;
    let (name, text) = line.split_once("  ")?;
    Some((name, text.trim_start()))
}

/// A paragraph, the table of commands, or options below their title.
fn shown(block: &str) -> String {
    let mut page = ".PP\n".to_string();
    for line in block.lines() {
        let command = COMMANDS.iter().find_map(|name| line.strip_prefix(&format!("{name}  ")));
        page += &match (option(line), command) {
            (Some((name, text)), _) => format!(".TP\n.B {}\n{}\n", escaped(name), escaped(text)),
            (_, Some(text)) => {
                format!(".TP\n.B {}\n{}\n", line.split(' ').next().expect("a name"), escaped(text.trim()))
            }
            _ => escaped(line.trim()) + "\n",
        };
    }
    page
}
