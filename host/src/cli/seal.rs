//! Sealing clear frames.
use super::arguments::{Sealing, Show};
use super::show::{complain, note_offset, refusal_fields, Printer};
use super::source::{Content, Entry, Source};
use super::value::{digits, Value};
use std::io::{self, Write};
use store_reader::{read, seal, NwkAuxHeader, Refusal, MAX_FRAME};

/// Why a frame was not sealed: the codec refused it, or it was not handed over.
enum NotSealed {
    Refused(Refusal),
    Because(String),
}

impl From<Refusal> for NotSealed {
    fn from(refusal: Refusal) -> Self {
        Self::Refused(refusal)
    }
}

/// Seals each clear frame under the next counter, and gives the exit status.
pub fn seal_each<W: Write>(mut source: Source, sealing: &Sealing, printer: &mut Printer<'_, W>) -> io::Result<u8> {
    let mut counter = sealing.counter;
    let mut status = 0;
    let mut noted = false;
    while let Some(entry) = source.next() {
        if let (Some(line), false) = (source.first_offset(), noted) {
            note_offset("", line);
            noted = true;
        }
        match sealed(&entry, sealing, counter) {
            Ok(frame) => {
                // The last counter is never sealed, so there is a next one.
                counter = counter.saturating_add(1);
                match printer.show {
                    Show::Json => {
                        let fields = [("refusal", 0u8.into()), ("frame", Value::bytes(&frame))];
                        printer.json(&entry, |all| all.extend(fields))?;
                    }
                    _ => writeln!(printer.out, "{}", digits(&frame))?,
                }
            }
            Err(why) => {
                status = 1;
                report(&entry, why, printer)?;
            }
        }
    }
    Ok(status)
}

/// A frame that was not sealed: among the answers for `--json`, a refusal by its number; else on standard error.
fn report<W: Write>(entry: &Entry, why: NotSealed, printer: &mut Printer<'_, W>) -> io::Result<()> {
    match (why, printer.show) {
        (NotSealed::Refused(refusal), Show::Json) => printer.json(entry, |all| all.extend(refusal_fields(refusal))),
        (NotSealed::Refused(refusal), _) => {
            complain(&format!("{}: {refusal}", entry.place));
            Ok(())
        }
        (NotSealed::Because(why), _) => printer.broken(entry, &why),
    }
}

fn sealed(entry: &Entry, sealing: &Sealing, counter: u32) -> Result<Vec<u8>, NotSealed> {
    match &entry.content {
        Content::Frame(bytes) => seal_frame(bytes, sealing, counter),
        Content::Broken(why) => Err(NotSealed::Because(why.clone())),
        Content::Other(kind, _) => Err(NotSealed::Because(kind.to_string())),
    }
}

/// The sealed form of a clear frame: its security bit set, and an auxiliary header behind its header. What was read has presence bits
/// that agree, so it is never refused by 28.
fn seal_frame(bytes: &[u8], sealing: &Sealing, counter: u32) -> Result<Vec<u8>, NotSealed> {
    let frame = read(bytes)?;
    if frame.auxiliary.is_some() {
        return Err(NotSealed::Because("the frame is sealed already".to_string()));
    }
    let mut auxiliary = match sealing.ieee {
        Some(ieee) => NwkAuxHeader::new(counter, ieee),
        None => NwkAuxHeader::without_ieee(counter),
    };
    auxiliary.key_sequence_number = sealing.key_sequence;
    let mut out = vec![0; MAX_FRAME];
    let n = seal(&sealing.key.network, &frame.header.secured(), Some(&auxiliary), frame.rest, &mut out)?;
    out.truncate(n);
    Ok(out)
}
