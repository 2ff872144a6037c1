//! What is printed of each input.
use super::answer::{condition, Answer};
use super::arguments::{Filter, Show, SourceAddress};
use super::frames;
use super::journal::{Found, Refused};
use super::mac::{Check, MacAddress, MacHeader};
use super::source::{Entry, Place};
use super::value::{write_full, write_json_line, Fields, Value};
use std::fmt;
use std::io::{self, Write};
use store_reader::Refusal;

const RED: &str = "\x1b[31m";
const PLAIN: &str = "\x1b[0m";

/// Prints the inputs that the filter lets through.
pub struct Printer<'a, W> {
    pub out: &'a mut W,
    pub show: Show,
    pub filter: &'a Filter,
    /// Refusals are coloured.
    pub colour: bool,
    /// The input's name, and whether there are several, so that it is told.
    pub file: String,
    pub several: bool,
    /// What is done with frames.
    pub done: &'static str,
    /// The fields of an object and the text of an input while they are made; kept, so that neither has to grow for each input.
    pub fields: Fields,
    pub text: Vec<u8>,
}

impl<W: Write> Printer<'_, W> {
    /// An input that was accepted or refused.
    pub fn answer(&mut self, entry: &Entry, answer: &Answer, bytes: &[u8]) -> io::Result<()> {
        if !self.shows(entry, answer) {
            return Ok(());
        }
        match self.show {
            Show::Line => {
                write_front(entry, &mut self.text)?;
                answer.write_line(&mut self.text)?;
                if let Some(refusal) = answer.refusal {
                    write!(self.text, "  {}", self.refusal(refusal))?;
                }
                writeln!(self.text, "{}", note(entry))?;
                self.write_text()
            }
            Show::Full => {
                let mut fields = Fields::new();
                add_record(entry, &mut fields);
                answer.add_fields(&mut fields);
                writeln!(self.text, "{}{}", entry.place, note(entry))?;
                if let Some(refusal) = answer.refusal {
                    writeln!(self.text, "  {}", self.refusal(refusal))?;
                    fields.push(("bytes", Value::bytes(bytes)));
                }
                write_full(&fields, 2, &mut self.text)?;
                self.write_text()
            }
            Show::Json => self.json(entry, |fields| {
                match answer.refusal {
                    None => fields.push(("refusal", 0u8.into())),
                    Some(refusal) => fields.extend(refusal_fields(refusal)),
                }
                answer.add_fields(fields);
                if answer.refusal.is_some() {
                    fields.push(("bytes", Value::bytes(bytes)));
                }
            }),
            Show::Frames => write!(self.out, "{}", frames::of_answer(&self.file, entry, answer, self.done)),
            Show::Csv => Ok(()),
        }
    }

    /// The name of the next input, in front of its lines where there are several.
    pub fn begin(&mut self, file: &str) -> io::Result<()> {
        self.file = file.to_string();
        match self.show {
            Show::Line | Show::Full if self.several && !self.filter.summary_only => writeln!(self.out, "{file}:"),
            _ => Ok(()),
        }
    }

    /// What is no NWK frame, by its kind.
    pub fn other(&mut self, entry: &Entry, kind: &str, bytes: &[u8]) -> io::Result<()> {
        let hidden = self.filter.summary_only || self.filter.refused || !self.filter.sources.is_empty();
        if hidden {
            return Ok(());
        }
        match self.show {
            Show::Line => {
                write_front(entry, &mut self.text)?;
                writeln!(self.text, "  {kind}{}", note(entry))?;
                self.write_text()
            }
            Show::Full => {
                let mut fields = Fields::new();
                add_record(entry, &mut fields);
                if !bytes.is_empty() {
                    fields.push(("bytes", Value::bytes(bytes)));
                }
                writeln!(self.text, "{}{}\n  {kind}", entry.place, note(entry))?;
                write_full(&fields, 2, &mut self.text)?;
                self.write_text()
            }
            Show::Json => self.json(entry, |fields| {
                fields.push(("skipped", Value::text(kind)));
                if !bytes.is_empty() {
                    fields.push(("bytes", Value::bytes(bytes)));
                }
            }),
            Show::Frames => {
                write!(self.out, "{}", frames::of_other(&self.file, entry, "not a NWK frame", kind))
            }
            Show::Csv => Ok(()),
        }
    }

    /// What is in a journal, or why it is refused.
    pub fn journal(&mut self, answer: &Result<Found, Refused>) -> io::Result<()> {
        match (self.show, answer) {
            (Show::Json, Ok(found)) => {
                let mut fields: Fields = vec![("refusal", 0u8.into())];
                fields.extend(found.fields());
                write_json_line(&fields, self.out)
            }
            (Show::Json, Err(refused)) => write_json_line(&refused.fields(), self.out),
            (_, Ok(found)) => write!(self.out, "{found}"),
            (_, Err(refused)) => writeln!(self.out, "{}", self.coloured(refused.to_string())),
        }
    }

    /// An input that cannot be read: among the answers for `--json`, else on standard error.
    pub fn broken(&mut self, entry: &Entry, why: &str) -> io::Result<()> {
        match self.show {
            Show::Json => return self.json(entry, |fields| fields.push(("error", Value::text(why)))),
            Show::Frames => write!(self.out, "{}", frames::of_other(&self.file, entry, "not read", why))?,
            _ => {}
        }
        complain(&format!("{}{}: {why}", self.of_several(), entry.place));
        Ok(())
    }

    /// The input's name in front of a message, where there are several.
    pub fn of_several(&self) -> String {
        match self.several {
            true => format!("{}: ", self.file),
            false => String::new(),
        }
    }

    /// One object: the input's name where there are several, its place, what a capture says beside it, and what is added.
    pub fn json(&mut self, entry: &Entry, add: impl FnOnce(&mut Fields)) -> io::Result<()> {
        let (kind, number) = entry.place.parts();
        let fields = &mut self.fields;
        fields.clear();
        if self.several {
            fields.push(("file", Value::text(&self.file)));
        }
        fields.push((kind, Value::Number(number)));
        add_record(entry, fields);
        if entry.fcs == Check::Wrong {
            fields.push(("wrong_fcs", Value::Flag(true)));
        }
        add(fields);
        write_json_line(fields, &mut self.text)?;
        self.write_text()
    }

    /// Writes out the text that was made of an input, all of it at once: a pipe gets whole lines.
    fn write_text(&mut self) -> io::Result<()> {
        let written = self.out.write_all(&self.text);
        self.text.clear();
        written
    }

    fn refusal(&self, refusal: Refusal) -> String {
        let text = match refusal {
            Refusal::INTERNAL => refusal.to_string(),
            _ => format!("refused by {}: {}", refusal.number(), condition(refusal)),
        };
        self.coloured(text)
    }

    fn coloured(&self, text: String) -> String {
        match self.colour {
            true => format!("{RED}{text}{PLAIN}"),
            false => text,
        }
    }

    fn shows(&self, entry: &Entry, answer: &Answer) -> bool {
        let filter = self.filter;
        let from_source =
            filter.sources.is_empty() || filter.sources.iter().any(|source| is_from(entry, answer, *source));
        !filter.summary_only && (!filter.refused || answer.refusal.is_some()) && from_source
    }
}

/// Whether an address is the frame's source, or that of the device that sent it on its last hop.
fn is_from(entry: &Entry, answer: &Answer, source: SourceAddress) -> bool {
    let mac = entry.mac.and_then(|mac| mac.source);
    match source {
        SourceAddress::Short(address) => {
            answer.header.as_ref().is_some_and(|header| header.source == address)
                || mac == Some(MacAddress::Short(address))
        }
        SourceAddress::Long(address) => {
            answer.header.as_ref().is_some_and(|header| header.source_ieee == Some(address))
                || answer.auxiliary.is_some_and(|auxiliary| auxiliary.extended_source == Some(address))
                || mac == Some(MacAddress::Long(address))
        }
    }
}

/// Writes a line's front: the input's number, its time, and the MAC addresses.
fn write_front(entry: &Entry, out: &mut impl Write) -> io::Result<()> {
    write!(out, "{:>4}", entry.place.parts().1)?;
    if let Some(time) = entry.time {
        write!(out, "  {time}")?;
    }
    if let Some(hop) = entry.mac.and_then(|mac| hop(&mac)) {
        write!(out, "  {hop:<21}")?;
    }
    Ok(())
}

/// PAN identifier, MAC source and destination.
fn hop(mac: &MacHeader) -> Option<String> {
    Some(format!("{} {}>{}", mac.pan?, End(mac.source), End(mac.destination)))
}

/// One end of a hop, which may have no address.
struct End(Option<MacAddress>);

impl fmt::Display for End {
    fn fmt(&self, f: &mut fmt::Formatter<'_>) -> fmt::Result {
        match self.0 {
            Some(address) => address.fmt(f),
            None => f.write_str("none"),
        }
    }
}

/// Adds the time and the MAC addresses of a record.
fn add_record(entry: &Entry, fields: &mut Fields) {
    fields.extend(entry.time.map(|time| ("time", Value::text(time))));
    if let Some(mac) = entry.mac {
        fields.extend(mac.pan.map(|pan| ("pan", Value::text(pan))));
        fields.extend(mac.source_pan.map(|pan| ("mac_source_pan", Value::text(pan))));
        fields.extend(mac.source.map(|address| ("mac_source", Value::text(address))));
        fields.extend(mac.destination.map(|address| ("mac_destination", Value::text(address))));
    }
}

/// What a line says of a wrong frame check sequence, behind two blanks.
fn note(entry: &Entry) -> &'static str {
    match entry.fcs {
        Check::Wrong => "  (wrong frame check sequence)",
        Check::Missing | Check::Right => "",
    }
}

/// A refusal's number and condition as fields.
pub fn refusal_fields(refusal: Refusal) -> Fields {
    vec![("refusal", refusal.number().into()), ("condition", Value::text(condition(refusal)))]
}

/// A message on standard error; where even that cannot be written there is nobody to tell.
pub fn complain(why: &str) {
    let _ = writeln!(io::stderr(), "store-reader: {why}");
}

/// A note on a line of the input, behind the input's name where there are several.
pub fn note_offset(front: &str, line: u64) {
    complain(&format!("{front}{}: the offset in front is passed over, here and in what follows", Place::Line(line)));
}

/// A note on a line that is read as it stands, though it looks like a MAC frame.
pub fn note_mac(front: &str, line: u64) {
    complain(&format!(
        "{front}{}: this looks like a MAC frame, and is read as a NWK frame; see --mac",
        Place::Line(line)
    ));
}
