//! The command line.
use super::keys::{self, NumberedKey};
use super::losses::JUMP;
use super::nearest::nearest;
use super::period::By;
use super::senders::Telling;
use super::source::Reading;
use store_reader::{Eui64, Level, Nwk};

/// How the answers are shown.
#[derive(Debug, Clone, Copy, PartialEq)]
pub enum Show {
    Line,
    Full,
    Json,
    /// The summary alone, as a table of comma-separated values.
    Csv,
    /// One row a frame, as comma-separated values.
    Frames,
}

/// What sealing adds to clear frames.
#[derive(Debug, Clone, PartialEq)]
pub struct Sealing {
    pub key: NumberedKey,
    pub ieee: Option<Eui64>,
    pub counter: u32,
    pub key_sequence: u8,
}

/// What frames are opened with.
#[derive(Debug, Clone, PartialEq)]
pub struct Opening {
    pub keys: Vec<NumberedKey>,
    /// The active key sequence number, where replays are refused.
    pub replay: Option<u8>,
}

#[derive(Debug, PartialEq)]
pub enum Task {
    Open(Opening),
    Read,
    Seal(Sealing),
    Command,
    Journal {
        /// The new journal to be written.
        copy: Option<JournalCopy>,
    },
    Refusals,
}

/// A new journal of what is in one, and the file for it.
#[derive(Debug, PartialEq)]
pub enum JournalCopy {
    Shrunk { out: String, without: Vec<Eui64> },
    Repaired { out: String, margin: u32 },
}

/// How far a repaired ceiling is raised where nothing is said. A journal that `JournalFile` keeps has less than 4,096 bytes, so damage
/// hides at most 820 ceilings: this covers gateways that reserve up to 20,000 counters at a time, and takes one 256th of all counters.
const MARGIN: u32 = 1 << 24;

/// A source to show, by its short or its long address.
#[derive(Debug, Clone, Copy, PartialEq)]
pub enum SourceAddress {
    Short(Nwk),
    Long(Eui64),
}

/// Which inputs are shown; all are counted.
#[derive(Debug, Default, PartialEq)]
pub struct Filter {
    pub summary_only: bool,
    pub refused: bool,
    pub sources: Vec<SourceAddress>,
}

#[derive(Debug, PartialEq)]
pub struct Arguments {
    pub task: Task,
    pub show: Show,
    pub filter: Filter,
    /// Figures by sender or by time, where they are asked for.
    pub telling: Option<Telling>,
    pub reading: Reading,
    /// Each line is written out at once, also into a pipe.
    pub flush: bool,
    /// The inputs by name; none for standard input.
    pub files: Vec<String>,
}

impl Arguments {
    /// The first input's name, of a command that takes one.
    pub fn file(&self) -> Option<&str> {
        self.files.first().map(String::as_str)
    }
}

pub enum Parsed {
    Run(Arguments),
    /// The help of a command, or of all.
    Help(Option<&'static str>),
    Version,
}

const COMMANDS: [&str; 6] = ["open", "read", "seal", "command", "journal", "refusals"];

/// The options: the commands that have them, whether they take a value, and whether they may be given more than once.
const OPTIONS: [(&str, &[&str], bool, bool); 26] = [
    ("--key", &["open", "seal"], true, true),
    ("--key-file", &["open", "seal"], true, true),
    ("--level", &["open", "seal"], true, false),
    ("--full", &["open", "read", "command"], false, false),
    ("--json", &COMMANDS, false, false),
    ("--csv", &["open", "read", "command", "refusals"], false, false),
    ("--by-sender", &["open", "read"], false, false),
    ("--by", &["open", "read"], true, false),
    ("--jump", &["open", "read"], true, false),
    ("--local", &["open", "read"], false, false),
    ("--frames", &["open", "read"], false, false),
    ("--mac", &["open", "read"], false, false),
    ("--flush", &["open", "read", "command"], false, false),
    ("--summary-only", &["open", "read", "command"], false, false),
    ("--refused", &["open", "read", "command"], false, false),
    ("--source", &["open", "read"], true, true),
    ("--replay", &["open"], false, false),
    ("--ieee", &["seal"], true, false),
    ("--counter", &["seal"], true, false),
    ("--key-sequence", &["open", "seal"], true, false),
    ("--shrink", &["journal"], true, false),
    ("--forget", &["journal"], true, true),
    ("--repair", &["journal"], true, false),
    ("--margin", &["journal"], true, false),
    ("--help", &COMMANDS, false, true),
    ("--version", &COMMANDS, false, true),
];

/// The options as given, in their order, and what is no option.
#[derive(Default)]
struct Given {
    options: Vec<(&'static str, String)>,
    operands: Vec<String>,
}

impl Given {
    fn has(&self, name: &str) -> bool {
        self.options.iter().any(|(option, _)| *option == name)
    }

    fn values<'a>(&'a self, name: &'a str) -> impl Iterator<Item = &'a str> {
        self.options.iter().filter(move |(option, _)| *option == name).map(|(_, value)| value.as_str())
    }

    fn value(&self, name: &str) -> Option<&str> {
        self.options.iter().find(|(option, _)| *option == name).map(|(_, value)| value.as_str())
    }
}

/// Reads the arguments behind the program's name; an error is what to tell the user.
pub fn parse(mut arguments: impl Iterator<Item = String>) -> Result<Parsed, String> {
    let Some(name) = arguments.next() else {
        return Err("a command is missing".to_string());
    };
    match name.as_str() {
        "--help" | "-h" => return Ok(Parsed::Help(None)),
        "help" => return help(arguments.next()),
        "--version" | "-V" => return Ok(Parsed::Version),
        name if COMMANDS.contains(&name) => {}
        other => return Err(no_command(other)),
    }
    let given = given(&name, arguments)?;
    match (given.has("--help"), given.has("--version")) {
        (true, _) => help(Some(name)),
        (_, true) => Ok(Parsed::Version),
        _ => arguments_of(&name, given).map(Parsed::Run),
    }
}

/// The help of a command, where one is named.
fn help(name: Option<String>) -> Result<Parsed, String> {
    let Some(name) = name else {
        return Ok(Parsed::Help(None));
    };
    let found = COMMANDS.into_iter().find(|command| *command == name);
    found.map(|command| Parsed::Help(Some(command))).ok_or(no_command(&name))
}

fn no_command(typed: &str) -> String {
    let near = nearest(typed, COMMANDS.into_iter());
    format!("{typed:?} is no command{}", near.map_or(String::new(), |near| format!("; did you mean {near}?")))
}

/// Takes the arguments of a command apart; behind `--` there are no options.
fn given(name: &str, mut arguments: impl Iterator<Item = String>) -> Result<Given, String> {
    let mut given = Given::default();
    while let Some(argument) = arguments.next() {
        if argument == "--" {
            given.operands.extend(arguments);
            break;
        }
        if !argument.starts_with('-') || argument == "-" {
            given.operands.push(argument);
            continue;
        }
        let (option, attached) = match argument.split_once('=') {
            Some((option, value)) => (option, Some(value.to_string())),
            None => (argument.as_str(), None),
        };
        let (option, takes_value, repeats) = known(name, option)?;
        if !repeats && given.has(option) {
            return Err(format!("{option} is given twice"));
        }
        let value = match (takes_value, attached) {
            (true, Some(value)) => value,
            (true, None) => arguments.next().ok_or(format!("{option} needs a value"))?,
            (false, None) => String::new(),
            (false, Some(_)) => return Err(format!("{option} takes no value")),
        };
        given.options.push((option, value));
    }
    Ok(given)
}

/// An option of a command: its name, whether it takes a value, and whether it may be given more than once.
fn known(name: &str, option: &str) -> Result<(&'static str, bool, bool), String> {
    let long = match option {
        "-h" => "--help",
        "-V" => "--version",
        other => other,
    };
    let found = OPTIONS.iter().find(|(option, commands, _, _)| *option == long && commands.contains(&name));
    match found {
        Some((option, _, takes_value, repeats)) => Ok((option, *takes_value, *repeats)),
        None => Err(no_option(name, option)),
    }
}

/// What is said of an option that a command has not, with the nearest that it has. The key of `--key=..` is not repeated.
fn no_option(name: &str, option: &str) -> String {
    let options = OPTIONS.iter().filter(|(_, commands, _, _)| commands.contains(&name)).map(|(option, ..)| *option);
    let near = nearest(option, options);
    format!("{name} has no option {option}{}", near.map_or(String::new(), |near| format!("; did you mean {near}?")))
}

fn arguments_of(name: &str, given: Given) -> Result<Arguments, String> {
    let task = match name {
        "open" => Task::Open(opening(&given)?),
        "seal" => Task::Seal(sealing(&given)?),
        "read" => Task::Read,
        "command" => Task::Command,
        "journal" => Task::Journal { copy: journal_copy(&given)? },
        _ => Task::Refusals,
    };
    let filter = Filter {
        summary_only: given.has("--summary-only"),
        refused: given.has("--refused"),
        sources: given.values("--source").map(source).collect::<Result<_, _>>()?,
    };
    let (show, telling) = (show(&given)?, telling(name, &given)?);
    if let (Show::Frames, Some(_)) = (show, &telling) {
        return Err("--frames has a row for each frame, and no rows by sender or time".to_string());
    }
    let reading = Reading { local: given.has("--local"), mac: given.has("--mac") };
    let flush = given.has("--flush");
    let files = files(name, given.operands)?;
    Ok(Arguments { task, show, filter, telling, reading, flush, files })
}

/// The inputs: any number of captures, one journal, one input of lines.
fn files(name: &str, operands: Vec<String>) -> Result<Vec<String>, String> {
    let (most, takes) = match name {
        "open" | "read" => (usize::MAX, ""),
        "refusals" => (0, "no file"),
        _ => (1, "one file"),
    };
    match operands.get(most) {
        Some(further) => Err(format!("{name} takes {takes} here: {further:?}")),
        None if operands.iter().filter(|file| *file == "-").count() > 1 => Err("- is given twice".to_string()),
        None => Ok(operands),
    }
}

/// The figures that are asked for. A rise of a counter is a jump above the limit, which is 1 at least.
fn telling(name: &str, given: &Given) -> Result<Option<Telling>, String> {
    let by = match given.value("--by") {
        None => None,
        Some("day") => Some(By::Day),
        Some("hour") => Some(By::Hour),
        Some(other) => return Err(format!("--by: {other:?} is neither day nor hour")),
    };
    let by_sender = given.has("--by-sender");
    let jump = match given.value("--jump").map(|text| number("--jump", text)).transpose()? {
        Some(0) => return Err("--jump: a counter rises by 1 at least".to_string()),
        jump => jump,
    };
    match (by_sender || by.is_some(), jump) {
        (false, Some(_)) => Err(format!("{name} has --jump only beside --by-sender or --by")),
        (false, None) => Ok(None),
        (true, jump) => Ok(Some(Telling { by, by_sender, jump: jump.unwrap_or(JUMP) })),
    }
}

fn show(given: &Given) -> Result<Show, String> {
    let shows = [("--full", Show::Full), ("--json", Show::Json), ("--csv", Show::Csv)];
    let mut chosen = shows.iter().filter(|(option, _)| given.has(option));
    let show = match (chosen.next(), chosen.next()) {
        (Some((first, _)), Some((second, _))) => return Err(format!("{first} and {second} exclude each other")),
        (Some((_, show)), None) => *show,
        _ => Show::Line,
    };
    match (given.has("--frames"), show) {
        (false, show) => Ok(show),
        (true, Show::Csv) if given.has("--summary-only") => {
            Err("--frames and --summary-only exclude each other".to_string())
        }
        (true, Show::Csv) => Ok(Show::Frames),
        (true, _) => Err("--frames is given only beside --csv".to_string()),
    }
}

/// The keys of `--key` and `--key-file`, in the order given, at the level of `--level`.
fn keys(given: &Given) -> Result<Vec<NumberedKey>, String> {
    let level = given.value("--level").map_or(Ok(Level::default()), level)?;
    let mut keys = Vec::new();
    for (option, value) in &given.options {
        match *option {
            "--key" => keys.push(NumberedKey::parse(value, level).map_err(|e| format!("--key: {e}"))?),
            "--key-file" => keys.extend(keys::of_file(value, level)?),
            _ => {}
        }
    }
    match keys.is_empty() {
        true => Err("--key HEX or --key-file FILE is missing".to_string()),
        false => Ok(keys),
    }
}

fn level(text: &str) -> Result<Level, String> {
    text.parse().map_err(|_| format!("--level: {text:?} is not 5, 6 or 7"))
}

fn opening(given: &Given) -> Result<Opening, String> {
    let (keys, sequence) = (keys(given)?, key_sequence(given)?);
    let active = sequence.or(keys[0].sequence).unwrap_or(0);
    match (given.has("--replay"), sequence) {
        (false, Some(_)) => {
            Err("open has --key-sequence only beside --replay: else no key sequence number is active".to_string())
        }
        (asked, _) => Ok(Opening { keys, replay: asked.then_some(active) }),
    }
}

fn key_sequence(given: &Given) -> Result<Option<u8>, String> {
    given.value("--key-sequence").map(|text| number("--key-sequence", text)).transpose()
}

fn sealing(given: &Given) -> Result<Sealing, String> {
    let mut keys = keys(given)?;
    let key = keys.remove(0);
    if !keys.is_empty() {
        return Err("seal takes one key".to_string());
    }
    let counter = given
        .value("--counter")
        .ok_or("--counter N is missing: a counter sealed twice under one key repeats the key stream")?;
    let sequence = key_sequence(given)?;
    if let (Some(given), Some(of_key)) = (sequence, key.sequence.filter(|of_key| Some(*of_key) != sequence)) {
        return Err(format!("--key-sequence {given} for a key of number {of_key}"));
    }
    Ok(Sealing {
        ieee: given.value("--ieee").map(ieee).transpose()?,
        counter: number("--counter", counter)?,
        key_sequence: sequence.or(key.sequence).unwrap_or(0),
        key,
    })
}

/// What `--shrink` or `--repair` is to write.
fn journal_copy(given: &Given) -> Result<Option<JournalCopy>, String> {
    let new_file = |option| given.value(option).map(|name| new_file(option, name)).transpose();
    let without = given.values("--forget").map(|text| text.parse().map_err(|e| format!("--forget: {e}")));
    let without = without.collect::<Result<Vec<Eui64>, _>>()?;
    let margin = given.value("--margin").map(|text| number("--margin", text)).transpose()?;
    match (new_file("--shrink")?, new_file("--repair")?) {
        (Some(_), Some(_)) => Err("--shrink and --repair exclude each other".to_string()),
        (_, None) if margin.is_some() => Err("--margin goes with --repair OUT".to_string()),
        (None, _) if !without.is_empty() => Err("--forget goes with --shrink OUT".to_string()),
        (Some(out), None) => Ok(Some(JournalCopy::Shrunk { out, without })),
        (None, Some(out)) => Ok(Some(JournalCopy::Repaired { out, margin: margin.unwrap_or(MARGIN) })),
        (None, None) => Ok(None),
    }
}

/// The name of a file to be written. Standard output has what is printed.
fn new_file(option: &str, text: &str) -> Result<String, String> {
    match text {
        "" | "-" => Err(format!("{option}: {text:?} is no name of a file")),
        name => Ok(name.to_string()),
    }
}

fn ieee(text: &str) -> Result<Eui64, String> {
    text.parse().map_err(|e| format!("--ieee: {e}"))
}

/// An address as it is printed: two bytes, perhaps behind `0x`, or the eight of a long one.
fn source(text: &str) -> Result<SourceAddress, String> {
    let short = text.strip_prefix("0x").unwrap_or(text);
    if (1..=4).contains(&short.len()) && short.bytes().all(|digit| digit.is_ascii_hexdigit()) {
        if let Ok(address) = u16::from_str_radix(short, 16) {
            return Ok(SourceAddress::Short(Nwk(address)));
        }
    }
    text.parse().map(SourceAddress::Long).map_err(|e| format!("--source: {e}"))
}

/// A decimal number, or a hexadecimal one behind `0x`, that fits the type: digits alone, without a sign.
fn number<T: TryFrom<u64>>(option: &str, text: &str) -> Result<T, String> {
    let (digits, radix) = text.strip_prefix("0x").map_or((text, 10), |digits| (digits, 16));
    let unsigned = !digits.starts_with(['+', '-']);
    let parsed = u64::from_str_radix(digits, radix).ok().filter(|_| unsigned);
    parsed.and_then(|number| T::try_from(number).ok()).ok_or(format!("{option}: {text:?} is no number that fits"))
}
