//! What is in a journal: ceiling, key number, senders with their counters, and how much of it is complete records. And a shrunk or a
//! repaired copy of it.
use super::arguments::JournalCopy;
use super::value::{Fields, Value};
use std::fmt;
use std::fs::{self, File, Metadata, OpenOptions};
use std::io::{self, ErrorKind, Read, Write};
use std::os::unix::fs::OpenOptionsExt;
use std::path::Path;
use store_reader::{
    keep_owner, open_journal_to_copy, recover, shrink_without, write_record, Eui64, JournalError, JournalReading,
    JournalRecord, Recovered, Refusal, SenderRecord, Senders, MAX_JOURNAL_RECORD, MAX_SHRUNK_JOURNAL,
};

/// The last counter that is handed out.
const LAST_COUNTER: u32 = 0xFFFF_FFFE;

/// The bytes of a ceiling's record.
const CEILING_RECORD: u64 = 5;

/// What recovery gives of a journal.
pub struct Found {
    recovered: Recovered,
    /// The senders by first appearance, with their last counters.
    senders: Vec<(Eui64, u32)>,
    /// The bytes of the complete records, and those behind them: an incomplete one, or damage.
    complete: u64,
    behind: u64,
    copy: Option<Copied>,
}

/// Why a journal is refused, and for 25 where.
pub struct Refused {
    pub refusal: Refusal,
    at: Option<u64>,
}

/// A copy: its file and its bytes.
struct Copied {
    file: String,
    length: usize,
    kind: Kind,
}

enum Kind {
    /// How many fewer bytes it has than the journal, and how many senders were left out.
    Shrunk { saved: u64, forgotten: usize },
    /// How far the ceiling was raised, and to what.
    Repaired { margin: u32, ceiling: u32 },
}

/// Where a journal is read from. It is locked where a copy of it is to be made.
struct Input {
    name: String,
    from: Box<dyn Read>,
    metadata: Option<Metadata>,
}

/// Recovers the journal of a file, or of standard input where none or `-` is named, and writes the copy that is asked for. Nothing else
/// is written.
pub fn recovered(path: Option<&str>, copy: Option<&JournalCopy>) -> Result<Result<Found, Refused>, String> {
    let mut input = input(path, copy.is_some())?;
    let reading = JournalReading::of(&mut input.from).map_err(|e| format!("{}: {e}", input.name))?;
    if reading.damaged && !matches!(copy, Some(JournalCopy::Repaired { .. })) {
        return Ok(Err(Refused { refusal: Refusal::JOURNAL_KIND, at: Some(reading.complete) }));
    }
    let mut found = match reading.refused.map_or_else(|| found(&reading), Err) {
        Ok(found) => found,
        Err(refusal) => return Ok(Err(Refused { refusal, at: None })),
    };
    if reading.damaged {
        found.behind += io::copy(&mut input.from, &mut io::sink()).map_err(|e| format!("{}: {e}", input.name))?;
    }
    found.copy = match copy {
        None => None,
        Some(JournalCopy::Shrunk { out, without }) => Some(found.shrunk(&reading, out, without, &input)?),
        Some(JournalCopy::Repaired { .. }) if !reading.damaged => {
            return Err(format!("{}: nothing is damaged, so nothing is repaired", input.name));
        }
        Some(JournalCopy::Repaired { out, margin }) => Some(found.repaired(&reading, out, *margin, &input)?),
    };
    Ok(Ok(found))
}

fn input(path: Option<&str>, is_copied: bool) -> Result<Input, String> {
    let Some(name) = path.filter(|path| *path != "-") else {
        return Ok(Input { name: "standard input".to_string(), from: Box::new(io::stdin()), metadata: None });
    };
    let file = match is_copied {
        true => open_journal_to_copy(Path::new(name)).map_err(|error| match error {
            JournalError::Locked(_) => format!("{error}: stop the gateway first"),
            JournalError::Io { error, .. } => format!("{name}: {error}"),
            other => other.to_string(),
        })?,
        false => File::open(name).map_err(|e| format!("{name}: {e}"))?,
    };
    let metadata = file.metadata().map_err(|e| format!("{name}: {e}"))?;
    Ok(Input { name: name.to_string(), from: Box::new(file), metadata: Some(metadata) })
}

fn found(reading: &JournalReading) -> Result<Found, Refusal> {
    let mut senders = Senders::new();
    let recovered = recover(&reading.records, &mut senders)?;
    let senders = senders.records().iter().filter_map(SenderRecord::noted).collect();
    Ok(Found { recovered, senders, complete: reading.complete, behind: reading.behind, copy: None })
}

/// Writes a shrunk journal into a file that is not there yet: nothing is overwritten, the journal itself least of all.
fn write_new(out: &str, records: &[u8], without: &[Eui64], like: Option<&Metadata>) -> Result<usize, String> {
    let mut bytes = [0; MAX_SHRUNK_JOURNAL];
    let length = shrink_without(records, without, &mut bytes).map_err(|refusal| refusal.to_string())?;
    let file = OpenOptions::new().write(true).create_new(true).mode(0o600).open(out).map_err(|e| match e.kind() {
        ErrorKind::AlreadyExists => format!("{out} is there already, and nothing is overwritten"),
        _ => format!("{out}: {e}"),
    })?;
    write_whole(file, out, &bytes[..length], like).map_err(|e| {
        let _ = fs::remove_file(out);
        format!("{out}: {e}")
    })?;
    Ok(length)
}

/// Writes a file with the journal's owner and permissions, and waits until the disk has it with its name.
fn write_whole(mut file: File, out: &str, bytes: &[u8], of: Option<&Metadata>) -> io::Result<()> {
    if let Some(of) = of {
        keep_owner(of, &file);
    }
    file.write_all(bytes)?;
    file.sync_all()?;
    let folder = Path::new(out).parent().filter(|folder| !folder.as_os_str().is_empty());
    File::open(folder.unwrap_or(Path::new(".")))?.sync_all()
}

impl Found {
    fn shrunk(&self, reading: &JournalReading, out: &str, without: &[Eui64], input: &Input) -> Result<Copied, String> {
        let is_named = |sender: &&Eui64| self.senders.iter().any(|(named, _)| named == *sender);
        if let Some(sender) = without.iter().find(|sender| !is_named(sender)) {
            return Err(format!("--forget: the journal does not name {sender}"));
        }
        let length = write_new(out, &reading.records, without, input.metadata.as_ref())?;
        let saved = (self.complete + self.behind).saturating_sub(length as u64);
        let kind = Kind::Shrunk { saved, forgotten: without.len() };
        Ok(Copied { file: out.to_string(), length, kind })
    }

    fn repaired(&self, reading: &JournalReading, out: &str, margin: u32, input: &Input) -> Result<Copied, String> {
        let before = self.recovered.ceiling;
        let ceiling = before.saturating_add(margin).min(LAST_COUNTER).max(before);
        let mut record = [0; MAX_JOURNAL_RECORD];
        let raised = write_record(&reading.records, JournalRecord::Ceiling(ceiling), &mut record);
        let raised = &record[..raised.map_err(|refusal| refusal.to_string())?];
        let records = [&reading.records, raised].concat();
        let length = write_new(out, &records, &[], input.metadata.as_ref())?;
        Ok(Copied { file: out.to_string(), length, kind: Kind::Repaired { margin, ceiling } })
    }

    /// How many ceilings what was dropped can have had.
    fn dropped_ceilings(&self) -> u64 {
        self.behind / CEILING_RECORD
    }

    /// Every field; the key number where there is one, what a copy has where there is one.
    pub fn fields(&self) -> Fields {
        let sender = |(address, counter): &(Eui64, u32)| {
            Value::Object(vec![("address", Value::text(address)), ("counter", (*counter).into())])
        };
        let mut fields: Fields = vec![("ceiling", self.recovered.ceiling.into())];
        fields.extend(self.recovered.key_number.map(|number| ("key_number", number.into())));
        fields.push(("senders", Value::list(&self.senders, sender)));
        fields.push(("complete", Value::Number(self.complete)));
        match &self.copy {
            Some(Copied { length, kind: Kind::Repaired { ceiling, .. }, .. }) => {
                fields.push(("dropped", Value::Number(self.behind)));
                fields.push(("repaired", Value::Number(*length as u64)));
                fields.push(("raised_to", (*ceiling).into()));
            }
            Some(Copied { length, kind: Kind::Shrunk { saved, forgotten }, .. }) => {
                fields.push(("incomplete", Value::Number(self.behind)));
                fields.push(("shrunk", Value::Number(*length as u64)));
                fields.push(("saved", Value::Number(*saved)));
                fields.extend((*forgotten > 0).then_some(("forgotten", Value::Number(*forgotten as u64))));
            }
            None => fields.push(("incomplete", Value::Number(self.behind))),
        }
        fields
    }
}

impl Refused {
    /// The number, its condition, and where the record is.
    pub fn fields(&self) -> Fields {
        let mut fields: Fields = vec![("refusal", self.refusal.number().into())];
        fields.push(("condition", Value::text(self.refusal.condition())));
        fields.extend(self.at.map(|at| ("at", Value::Number(at))));
        fields
    }
}

impl fmt::Display for Refused {
    fn fmt(&self, f: &mut fmt::Formatter<'_>) -> fmt::Result {
        match self.at {
            None => self.refusal.fmt(f),
            Some(at) => {
                let (number, condition) = (self.refusal.number(), self.refusal.condition());
                write!(f, "refused by {number} at byte {at}: {condition}; ")?;
                f.write_str("--repair OUT writes what is before it and says what that risks")
            }
        }
    }
}

/// A line for each of them.
impl fmt::Display for Found {
    fn fmt(&self, f: &mut fmt::Formatter<'_>) -> fmt::Result {
        writeln!(f, "ceiling {}", self.recovered.ceiling)?;
        match self.recovered.key_number {
            None => writeln!(f, "no key number")?,
            Some(number) => writeln!(f, "key number {number}")?,
        }
        match self.senders.len() {
            0 => writeln!(f, "no senders")?,
            1 => writeln!(f, "1 sender")?,
            n => writeln!(f, "{n} senders")?,
        }
        for (address, counter) in &self.senders {
            writeln!(f, "  {address}  counter {counter}")?;
        }
        write!(f, "{} of complete records", counted(self.complete, "byte"))?;
        let repaired = matches!(&self.copy, Some(Copied { kind: Kind::Repaired { .. }, .. }));
        match (self.behind, repaired) {
            (0, _) => writeln!(f)?,
            (n, false) => writeln!(f, ", {} of an incomplete one behind them", counted(n, "byte"))?,
            (n, true) => writeln!(f, ", {} of damage behind them", counted(n, "byte"))?,
        }
        match &self.copy {
            None => Ok(()),
            Some(copy) => self.fmt_copy(copy, f),
        }
    }
}

impl Found {
    fn fmt_copy(&self, copy: &Copied, f: &mut fmt::Formatter<'_>) -> fmt::Result {
        let length = counted(copy.length as u64, "byte");
        match copy.kind {
            Kind::Shrunk { saved, forgotten } => {
                writeln!(f, "{}: {length}, {saved} saved", copy.file)?;
                match forgotten {
                    0 => Ok(()),
                    n => writeln!(
                        f,
                        "forgotten: {}; what was sent before is taken once more",
                        counted(n as u64, "sender")
                    ),
                }
            }
            Kind::Repaired { margin, ceiling } => {
                let (dropped, ceilings) = (counted(self.behind, "byte"), self.dropped_ceilings());
                writeln!(f, "{}: {length}", copy.file)?;
                writeln!(f, "kept: the complete records; the ceiling is raised by {margin} to {ceiling}")?;
                writeln!(f, "dropped: {dropped}, which can have been {}", counted(ceilings, "ceiling"))?;
                self.fmt_risk(margin, ceiling, f)
            }
        }
    }

    /// What a repaired journal may do that the one before the damage did not.
    fn fmt_risk(&self, margin: u32, ceiling: u32, f: &mut fmt::Formatter<'_>) -> fmt::Result {
        match (ceiling >= LAST_COUNTER, u64::from(margin).checked_div(self.dropped_ceilings())) {
            (true, _) => writeln!(f, "risk: no counter is left; the network needs another key")?,
            (_, None) => writeln!(f, "risk: none that a counter comes twice, if no byte behind the damage is missing")?,
            (_, Some(most)) => {
                let reserved = counted(most, "counter");
                writeln!(f, "risk: counters come twice if the gateway reserved more than {reserved} at a time")?;
            }
        }
        writeln!(f, "risk: frames can be replayed whose counters were noted in what was dropped")
    }
}

fn counted(n: u64, of: &str) -> String {
    format!("{n} {of}{}", if n == 1 { "" } else { "s" })
}
