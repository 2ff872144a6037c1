//! What each command does with its inputs.
use super::answer::{as_read, command, opened, Answer};
use super::arguments::{Arguments, Show, Task};
use super::csv;
use super::csv_table::csv_table;
use super::frames;
use super::interrupt;
use super::journal::recovered;
use super::keys::{other_level, NumberedKey};
use super::progress::Progress;
use super::protocol::is_inter_pan;
use super::replay::Replays;
use super::rows::Layout;
use super::seal::seal_each;
use super::senders::{Senders, MOST_DEVICES, MOST_ROWS};
use super::show::{complain, note_mac, note_offset, Printer};
use super::source::{name, Content, Entry, Source};
use super::summary::{Summary, UNOPENED};
use super::text_table::table;
use super::time::Time;
use super::value::{write_json_line, Fields, Value};
use std::fs;
use std::io::{self, Write};
use store_reader::{Level, Refusal};

/// Why a run ended early.
pub enum Failure {
    Input(String),
    Output(io::Error),
}

impl From<io::Error> for Failure {
    fn from(e: io::Error) -> Self {
        Self::Output(e)
    }
}

/// The exit status for wrong arguments, a file that cannot be opened or written, standard output included, or one of another kind.
pub const USAGE: u8 = 2;

/// How many bytes of an inter-PAN frame are its NWK header.
const INTER_PAN_HEADER: usize = 2;

/// Runs a command and gives the exit status; refusals are coloured if asked for.
pub fn run(arguments: &Arguments, colour: bool, out: &mut impl Write) -> Result<u8, Failure> {
    let several = arguments.files.len() > 1;
    let (show, filter) = (arguments.show, &arguments.filter);
    let (file, fields, text) = (String::new(), Fields::new(), Vec::new());
    let mut printer = Printer { out, show, filter, colour, file, several, done: "read", fields, text };
    match &arguments.task {
        Task::Refusals => refusals(arguments.show, printer.out),
        Task::Open(opening) => {
            let run = Run::new(arguments, Summary::of_opening(opening.replay.is_some()), true);
            let mut replays = opening.replay.map(Replays::new);
            run.over(arguments, &mut printer, |bytes| opened(&opening.keys, replays.as_mut(), bytes))
        }
        Task::Read => {
            let run = Run::new(arguments, Summary::new("frame", "read", "read"), true);
            run.over(arguments, &mut printer, as_read)
        }
        Task::Command => {
            let run = Run::new(arguments, Summary::new("command", "read", "read"), false);
            let source = lines(arguments, "command")?;
            run.over_lines(source, &mut printer, command)
        }
        Task::Journal { copy } => {
            let answer = recovered(arguments.file(), copy.as_ref()).map_err(Failure::Input)?;
            Ok(printer.journal(&answer).map(|()| u8::from(answer.is_err()))?)
        }
        Task::Seal(sealing) => Ok(seal_each(lines(arguments, "seal")?, sealing, &mut printer)?),
    }
}

/// An input of lines, for the commands that take no capture.
fn lines(arguments: &Arguments, name: &str) -> Result<Source, Failure> {
    let source = Source::open(arguments.file(), arguments.reading).map_err(Failure::Input)?;
    if source.is_capture() {
        return Err(Failure::Input(format!("the input is a capture; {name} takes lines of hexadecimal digits")));
    }
    Ok(source)
}

/// Opens each file once before the first is read, so that a name that is wrong is told first. A pipe can be opened once only.
fn look_at(arguments: &Arguments) -> Result<(), Failure> {
    let files = arguments.files.iter().filter(|file| fs::metadata(file).map_or(*file != "-", |data| data.is_file()));
    for file in files.filter(|_| arguments.files.len() > 1) {
        Source::open(Some(file), arguments.reading).map_err(Failure::Input)?;
    }
    Ok(())
}

fn refusals(show: Show, out: &mut impl Write) -> Result<u8, Failure> {
    if show == Show::Csv {
        write!(out, "{}", csv::row(["refusal", "condition"]))?;
    }
    for refusal in Refusal::all() {
        let number = refusal.number();
        match show {
            Show::Json => {
                let fields = vec![("refusal", number.into()), ("condition", Value::text(refusal.condition()))];
                write_json_line(&fields, out)?;
            }
            Show::Csv => write!(out, "{}", csv::row([number.to_string().as_str(), refusal.condition()]))?,
            _ => writeln!(out, "{number:>2}  {}", refusal.condition())?,
        }
    }
    Ok(0)
}

/// A run over inputs and what it counts.
struct Run<'a> {
    summary: Summary,
    /// The keys that frames are opened with, and the first sealed frame that none opened.
    keys: &'a [NumberedKey],
    unopened: Option<Vec<u8>>,
    senders: Option<Senders>,
    /// The inputs are frames, of which inter-PAN frames are not handed over: their NWK header is short.
    of_frames: bool,
    lines_come: bool,
    layout: Layout,
    flush: bool,
    /// The latest time of the inputs so far.
    latest: Option<Time>,
    /// An input had nothing that could be used.
    unusable: bool,
    /// An input behind the first, a pipe, could not be opened.
    not_opened: bool,
}

impl<'a> Run<'a> {
    fn new(arguments: &'a Arguments, summary: Summary, of_frames: bool) -> Self {
        Self {
            keys: match &arguments.task {
                Task::Open(opening) => &opening.keys,
                _ => &[],
            },
            unopened: None,
            layout: Layout {
                names: summary.names(),
                by: arguments.telling.and_then(|telling| telling.by),
                by_sender: arguments.telling.is_some_and(|telling| telling.by_sender),
                local: arguments.reading.local,
            },
            flush: arguments.flush,
            latest: None,
            unusable: false,
            not_opened: false,
            summary,
            senders: arguments.telling.map(Senders::new),
            of_frames,
            lines_come: arguments.show != Show::Csv && !arguments.filter.summary_only,
        }
    }

    /// Counts and shows what the operation says of each input, one file behind the other, and gives the exit status.
    fn over<W: Write>(
        mut self,
        arguments: &Arguments,
        printer: &mut Printer<'_, W>,
        mut operation: impl FnMut(&[u8]) -> Answer,
    ) -> Result<u8, Failure> {
        look_at(arguments)?;
        interrupt::watch();
        let inputs: Vec<Option<&str>> = match arguments.files.as_slice() {
            [] => vec![None],
            files => files.iter().map(|file| Some(file.as_str())).collect(),
        };
        printer.done = self.layout.names.done;
        for (at, file) in inputs.into_iter().enumerate() {
            let source = match Source::open(file, arguments.reading) {
                Ok(source) => source,
                Err(_) if interrupt::is_interrupted() => break,
                Err(why) if at == 0 => return Err(Failure::Input(why)),
                Err(why) => {
                    complain(&why);
                    self.not_opened = true;
                    continue;
                }
            };
            if let (0, Show::Frames) = (at, printer.show) {
                write!(printer.out, "{}", frames::heads())?;
            }
            printer.begin(name(file))?;
            self.source(source, printer, &mut operation)?;
            if interrupt::is_interrupted() {
                break;
            }
        }
        self.end(printer)
    }

    /// The same for one input of lines.
    fn over_lines<W: Write>(
        mut self,
        source: Source,
        printer: &mut Printer<'_, W>,
        mut operation: impl FnMut(&[u8]) -> Answer,
    ) -> Result<u8, Failure> {
        interrupt::watch();
        self.source(source, printer, &mut operation)?;
        self.unusable = false;
        self.end(printer)
    }

    /// Counts and shows what the operation says of each frame of an input.
    fn source<W: Write>(
        &mut self,
        mut source: Source,
        printer: &mut Printer<'_, W>,
        operation: &mut impl FnMut(&[u8]) -> Answer,
    ) -> io::Result<()> {
        let mut progress = Progress::new(source.extent(), self.lines_come);
        let mut noted = (None, None);
        let mut used = false;
        let mut before = self.latest;
        while let Some(entry) = source.next() {
            if let Some(time) = entry.time {
                self.in_order(before.take(), time, &printer.file);
            }
            let notes = (source.first_offset(), source.first_mac);
            if matches!(entry.content, Content::Broken(_)) || notes != noted {
                progress.clear();
            }
            if let (Some(line), None) = (notes.0, noted.0) {
                note_offset(&printer.of_several(), line);
            }
            if let (Some(line), None, true) = (notes.1, noted.1, self.of_frames) {
                note_mac(&printer.of_several(), line);
            }
            noted = notes;
            // One that is broken has been told.
            used |= matches!(entry.content, Content::Frame(_) | Content::Broken(_)) || entry.mac.is_some();
            self.entry(&entry, printer, &mut *operation)?;
            if self.flush {
                printer.out.flush()?;
            }
            progress.step(|| self.summary.inputs());
        }
        progress.clear();
        self.summary.unread += source.unread;
        if !used && !interrupt::is_interrupted() && self.of_frames {
            complain(&format!("{}: {}", printer.file, source.without()));
            self.unusable = true;
        }
        Ok(())
    }

    /// Notes a time. Where figures are told, the first of an input is compared with the latest of those before it.
    fn in_order(&mut self, before: Option<Time>, time: Time, file: &str) {
        if self.senders.is_some() && before.is_some_and(|before| time < before) {
            complain(&format!(
                "{file}: begins before what was read has ended; counters are followed in the order given"
            ));
        }
        self.latest = self.latest.max(Some(time));
    }

    fn entry<W: Write>(
        &mut self,
        entry: &Entry,
        printer: &mut Printer<'_, W>,
        mut operation: impl FnMut(&[u8]) -> Answer,
    ) -> io::Result<()> {
        match &entry.content {
            Content::Frame(bytes) if self.of_frames && is_inter_pan(bytes) => {
                let kind = "inter-PAN frame";
                self.summary.other(kind.into());
                printer.other(entry, kind, &bytes[INTER_PAN_HEADER..])
            }
            Content::Frame(bytes) => {
                let answer = operation(bytes);
                self.summary.count(&answer, entry.fcs);
                if self.unopened.is_none() && answer.refusal.is_some_and(|refusal| UNOPENED.contains(&refusal)) {
                    self.unopened = Some(bytes.to_vec());
                }
                if let Some(senders) = &mut self.senders {
                    senders.note(&answer, entry);
                }
                printer.answer(entry, &answer, bytes)
            }
            Content::Other(kind, bytes) => {
                self.summary.other(kind.clone());
                printer.other(entry, kind, bytes)
            }
            Content::Broken(why) => {
                self.summary.broken += 1;
                printer.broken(entry, why)
            }
        }
    }

    /// Another level at which the first sealed frame opens, where none was opened.
    fn opens_at(&self) -> Option<Level> {
        let frame = self.unopened.as_ref().filter(|_| !self.summary.any_opened())?;
        other_level(self.keys, frame)
    }

    /// Prints the senders and the summary, and gives the exit status.
    fn end<W: Write>(mut self, printer: &mut Printer<'_, W>) -> Result<u8, Failure> {
        self.summary.opens_at = self.opens_at();
        let out = &mut printer.out;
        let status = match () {
            () if interrupt::is_interrupted() => interrupt::STATUS,
            () if self.not_opened => USAGE,
            () => u8::from(self.summary.broken > 0 || self.unusable),
        };
        if self.senders.as_ref().is_some_and(Senders::is_full) {
            complain(&format!(
                "more than {MOST_ROWS} rows or {MOST_DEVICES} devices: the rest is told as further senders"
            ));
        }
        let rows = self.senders.map(Senders::rows);
        match (printer.show, &rows) {
            (Show::Frames, _) => self.summary.wrong_keys().iter().for_each(|why| complain(why)),
            (Show::Csv, rows) => {
                let table = rows.as_ref().map_or_else(|| self.summary.csv(), |rows| csv_table(rows, self.layout));
                write!(out, "{table}")?;
                self.summary.wrong_keys().iter().for_each(|why| complain(why));
            }
            (Show::Json, _) => {
                for row in rows.iter().flatten() {
                    write_json_line(&row.fields(self.layout), out)?;
                }
                write_json_line(&self.summary.fields(), out)?;
            }
            (_, Some(rows)) => write!(out, "{}{}", table(rows, self.layout), self.summary)?,
            (_, None) => write!(out, "{}", self.summary)?,
        }
        self.summary.wrong_level().iter().for_each(|why| complain(why));
        Ok(status)
    }
}
