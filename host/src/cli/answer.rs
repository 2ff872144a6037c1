//! What is said of an input: the codec's answer, and the headers as far as they can be read.
use super::describe;
use super::keys::{open_with, Accepted, NumberedKey};
use super::replay::{was_opened, Replays};
use super::value::{digits, Fields, Value};
use std::io::{self, Write};
use store_reader::{read, NwkAuxHeader, NwkCommand, NwkFrameType, NwkHeader, NwkPayload, Refusal, MAX_FRAME};

/// What opening says of a frame that it accepts: whether it was sealed, and so authenticated.
#[derive(Debug, Clone, Copy, PartialEq, Eq)]
pub enum Mark {
    Sealed,
    Clear,
}

impl Mark {
    fn name(self) -> &'static str {
        match self {
            Self::Sealed => "sealed",
            Self::Clear => "clear",
        }
    }
}

/// What is said of an input.
#[derive(Default)]
pub struct Answer {
    /// None where the input was accepted.
    pub refusal: Option<Refusal>,
    /// The mark of a frame that opening accepted; none beside a refusal, and none where nothing was opened.
    pub mark: Option<Mark>,
    pub header: Option<NwkHeader>,
    pub auxiliary: Option<NwkAuxHeader>,
    /// The place of the key that opened the frame, where there are several.
    pub key: Option<usize>,
    behind: Behind,
}

/// What is behind the headers. It is put in words only where it is shown.
#[derive(Default)]
enum Behind {
    #[default]
    Nothing,
    /// A payload, and the command that it was read as.
    Payload(Vec<u8>, Option<NwkCommand>),
    /// What is sealed, where no key was used.
    Sealed(Vec<u8>),
    /// A command that came alone.
    Command(NwkCommand),
}

impl Answer {
    /// A refusal, and the headers where they read. A frame that is too long has its header all the same.
    fn refused(bytes: &[u8], refusal: Refusal) -> Self {
        let mut answer = Self { refusal: Some(refusal), ..Self::default() };
        let front = bytes.get(..MAX_FRAME).unwrap_or(bytes);
        if let Ok((header, n)) = NwkHeader::read(front) {
            if header.frame_control.security {
                answer.auxiliary = NwkAuxHeader::read(&front[n..]).ok().map(|(auxiliary, _)| auxiliary);
            }
            answer.header = Some(header);
        }
        answer
    }

    /// Whether the frame's addresses are more than claimed: it was opened, or read without a key. Anyone may have sent a clear
    /// frame, or one that was refused before it was opened.
    pub fn shows_addresses(&self) -> bool {
        self.refusal.is_none_or(was_opened) && self.mark != Some(Mark::Clear)
    }

    /// Writes the answer to a line, each part behind two blanks, without the refusal.
    pub fn write_line(&self, out: &mut impl Write) -> io::Result<()> {
        if let Some(header) = &self.header {
            let (kind, source, destination) = (kind(header), header.source, header.destination);
            write!(out, "  {kind:<9} {source} -> {destination}  sequence {}", header.sequence_number)?;
        }
        if let Some(auxiliary) = &self.auxiliary {
            write!(out, "  counter {}", auxiliary.frame_counter)?;
            if let (Some(address), Some(_)) = (auxiliary.extended_source, self.refusal) {
                write!(out, "  ieee {address}")?;
            }
        }
        if let Some(key) = self.key {
            write!(out, "  key {key}")?;
        }
        if self.mark == Some(Mark::Clear) {
            write!(out, "  clear")?;
        }
        self.write_words(out)
    }

    /// Writes what is behind the headers in words, behind two blanks. Of a payload that is refused there are none.
    fn write_words(&self, out: &mut impl Write) -> io::Result<()> {
        match (&self.behind, self.command()) {
            (_, Some(command)) => {
                out.write_all(b"  ")?;
                describe::write_command(command, out)
            }
            (Behind::Sealed(bytes), _) => write!(out, "  sealed {}", counted_digits(bytes)),
            (Behind::Payload(bytes, _), _) if self.refusal.is_none() => {
                write!(out, "  payload {}", counted_digits(bytes))
            }
            _ => Ok(()),
        }
    }

    /// Adds every field.
    pub fn add_fields(&self, fields: &mut Fields) {
        fields.extend(self.mark.map(|mark| ("mark", Value::text(mark.name()))));
        if let Some(header) = &self.header {
            describe::add_header(header, fields);
        }
        if let Some(auxiliary) = &self.auxiliary {
            fields.push(("auxiliary", Value::Object(describe::auxiliary(auxiliary))));
        }
        fields.extend(self.key.map(|key| ("opened_with_key", Value::Number(key as u64))));
        match &self.behind {
            Behind::Nothing => {}
            Behind::Command(command) => fields.extend(describe::command(command)),
            Behind::Sealed(bytes) => fields.push(("sealed", Value::bytes(bytes))),
            Behind::Payload(bytes, command) => {
                let command = command.as_ref().map(describe::command);
                fields.extend(command.map(|command| ("command", Value::Object(command))));
                fields.push(("payload", Value::bytes(bytes)));
            }
        }
    }

    /// The frame's type in a word.
    pub fn kind(&self) -> Option<&'static str> {
        self.header.as_ref().map(kind)
    }

    /// The command that the frame carries, or that came alone.
    fn command(&self) -> Option<&NwkCommand> {
        match &self.behind {
            Behind::Payload(_, command) => command.as_ref(),
            Behind::Command(command) => Some(command),
            Behind::Nothing | Behind::Sealed(_) => None,
        }
    }

    /// The name of the command that the frame carries; empty where it carries none.
    pub fn command_name(&self) -> String {
        self.command().map_or(String::new(), describe::command_name)
    }

    /// The payload, or what is sealed, in hexadecimal digits.
    pub fn payload_digits(&self) -> String {
        match &self.behind {
            Behind::Payload(bytes, _) | Behind::Sealed(bytes) => digits(bytes),
            Behind::Nothing | Behind::Command(_) => String::new(),
        }
    }

    /// Adds what opening gave of a frame. The mark is left out if the payload turns out to be refused.
    fn accepted(mut self, mark: Mark, header: NwkHeader, payload: Vec<u8>) -> Self {
        self.add_payload(&header, payload);
        self.mark = self.refusal.is_none().then_some(mark);
        self.header = Some(header);
        self
    }

    /// Adds a payload: a decoded command, or the bytes where it is opaque.
    fn add_payload(&mut self, header: &NwkHeader, bytes: Vec<u8>) {
        let command = match header.frame_control.frame_type.payload() {
            Ok(NwkPayload::Command) => NwkCommand::read(&bytes).map(Some),
            Ok(NwkPayload::Opaque) => Ok(None),
            Err(refusal) => Err(refusal),
        };
        self.refusal = command.as_ref().err().copied();
        self.behind = Behind::Payload(bytes, command.ok().flatten());
    }
}

fn kind(header: &NwkHeader) -> &'static str {
    match header.frame_control.frame_type {
        NwkFrameType::Data => "data",
        NwkFrameType::Command => "command",
        NwkFrameType::Interpan => "inter-PAN",
    }
}

/// A frame opened with one of the keys, or a clear one. Where replays are refused, an opened one is also asked for and noted.
pub fn opened(keys: &[NumberedKey], replays: Option<&mut Replays>, bytes: &[u8]) -> Answer {
    match open_with(keys, bytes) {
        Err(refusal) => Answer::refused(bytes, refusal),
        Ok(Accepted::Sealed { header, auxiliary, nonce_ieee, payload, key }) => {
            let taken = replays.map(|replays| replays.take(&keys[key - 1].network.key, nonce_ieee, &auxiliary));
            if let Some(Err(refusal)) = taken {
                return Answer::refused(bytes, refusal);
            }
            let key = (keys.len() > 1).then_some(key);
            let answer = Answer { auxiliary: Some(auxiliary), key, ..Answer::default() };
            answer.accepted(Mark::Sealed, header, payload)
        }
        Ok(Accepted::Clear { header, payload }) => Answer::default().accepted(Mark::Clear, header, payload),
    }
}

/// A frame read without a key.
pub fn as_read(bytes: &[u8]) -> Answer {
    match read(bytes) {
        Err(refusal) => Answer::refused(bytes, refusal),
        Ok(frame) => {
            let mut answer = Answer { auxiliary: frame.auxiliary, ..Answer::default() };
            if frame.auxiliary.is_some() {
                answer.behind = Behind::Sealed(frame.rest.to_vec());
            } else {
                answer.add_payload(&frame.header, frame.rest.to_vec());
            }
            answer.header = Some(frame.header);
            answer
        }
    }
}

/// A command read from its bytes.
pub fn command(bytes: &[u8]) -> Answer {
    match NwkCommand::read(bytes) {
        Err(refusal) => Answer { refusal: Some(refusal), ..Answer::default() },
        Ok(command) => Answer { behind: Behind::Command(command), ..Answer::default() },
    }
}

fn counted_digits(bytes: &[u8]) -> String {
    let unit = if bytes.len() == 1 { "byte" } else { "bytes" };
    let colon = if bytes.is_empty() { "" } else { ": " };
    format!("{} {unit}{colon}{}", bytes.len(), digits(bytes))
}

/// A frame's refusal in words, in fewer of them where CCM alone or a journal cannot be meant.
pub fn condition(refusal: Refusal) -> &'static str {
    match refusal {
        Refusal::TOO_LONG => "a frame has more than 118 bytes",
        Refusal::NO_PLACE => "the sender is new and no place is free",
        other => other.condition(),
    }
}
