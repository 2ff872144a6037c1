//! Frames from a file or standard input: a capture, or hexadecimal digits.
use super::bytes::take;
use super::input::{Extent, Input};
use super::interrupt::is_interrupted;
use super::lines::Lines;
use super::link::{Fcs, Link, TAP, WITH_PHY_HEADER};
use super::mac::{fcs, fcs_of_four, mac_frame, Carried, Check, MacHeader};
use super::pcap::{self, Packet, Pcap};
use super::pcapng::{self, Pcapng};
use super::protocol::other_protocol;
use super::time::Time;
use super::zone::Zone;
use std::borrow::Cow;
use std::fmt;
use std::fs::File;
use std::io::{self, Read};

/// Where an input stands, counted from 1.
#[derive(Debug, Clone, Copy, PartialEq)]
pub enum Place {
    Line(u64),
    Record(u64),
}

impl Place {
    /// What the place is called, and its number.
    pub fn parts(self) -> (&'static str, u64) {
        match self {
            Self::Line(n) => ("line", n),
            Self::Record(n) => ("record", n),
        }
    }
}

impl fmt::Display for Place {
    fn fmt(&self, f: &mut fmt::Formatter<'_>) -> fmt::Result {
        let (kind, number) = self.parts();
        write!(f, "{kind} {number}")
    }
}

/// The kind of what is no NWK frame.
pub type Kind = Cow<'static, str>;

/// What stands at a place.
#[derive(Debug, PartialEq)]
pub enum Content {
    /// A NWK frame, or the bytes of a line.
    Frame(Vec<u8>),
    /// Something else; its kind, and its bytes where it is another protocol's.
    Other(Kind, Vec<u8>),
    /// A line or record that cannot be read.
    Broken(String),
}

/// An input: its place, what a capture says beside it, and its content.
#[derive(Debug, PartialEq)]
pub struct Entry {
    pub place: Place,
    pub time: Option<Time>,
    pub mac: Option<MacHeader>,
    pub fcs: Check,
    pub content: Content,
}

/// How an input is read.
#[derive(Debug, Clone, Copy, Default, PartialEq)]
pub struct Reading {
    /// Times are shown in local time.
    pub local: bool,
    /// Lines and dumps hold MAC frames.
    pub mac: bool,
}

/// An input, and how it is read.
pub struct Source {
    input: Input,
    format: Format,
    records: u64,
    ended: bool,
    /// The bytes of a damaged capture that were not read.
    pub unread: u64,
    /// The zone that times are shown in, where it is not UTC.
    zone: Option<Zone>,
    mac: bool,
    /// The MAC frames of lines and dumps, and those whose last two bytes are a right FCS.
    mac_frames: u64,
    right_fcs: u64,
    /// The first line that looks like a MAC frame and is read as a NWK frame.
    pub first_mac: Option<u64>,
}

enum Format {
    Lines(Lines),
    Pcap(Pcap),
    Pcapng(Pcapng),
}

/// The most bytes that tell a file's kind.
const LONGEST_MAGIC: usize = 9;

/// Files that are told by their first bytes and not read, and what helps.
const NOT_READ: [(&[u8], &str); 11] = [
    (&[0x1F, 0x8B], "a gzip file; unpack it first: gunzip -c FILE | store-reader .."),
    (&[0x28, 0xB5, 0x2F, 0xFD], "a zstd file; unpack it first"),
    (&[0xFD, b'7', b'z', b'X', b'Z', 0], "an xz file; unpack it first"),
    (b"BZh", "a bzip2 file; unpack it first"),
    (b"PK\x03\x04", "a zip file; unpack it first"),
    (&[0x04, 0x22, 0x4D, 0x18], "an lz4 file; unpack it first"),
    (b"snoop\0\0\0", "a snoop capture; editcap -F pcapng FILE OUT converts it"),
    (&[0x34, 0xCD, 0xB2, 0xA1], "a pcap capture with longer records; editcap -F pcapng FILE OUT converts it"),
    (&[0xA1, 0xB2, 0xCD, 0x34], "a pcap capture with longer records; editcap -F pcapng FILE OUT converts it"),
    (b"GMBU", "a Network Monitor capture; editcap -F pcapng FILE OUT converts it"),
    (b"#Format=4", "a Daintree capture; editcap -F pcapng FILE OUT converts it"),
];

impl Source {
    /// Opens a file, or standard input where none or `-` is named.
    pub fn open(path: Option<&str>, reading: Reading) -> Result<Self, String> {
        let source = match path {
            None | Some("-") => Self::new(Box::new(io::stdin()), None),
            Some(path) => Self::file(path),
        };
        let source = source.map_err(|e| format!("{}: {e}", name(path)))?;
        Ok(Self { zone: reading.local.then(Zone::of_system), mac: reading.mac, ..source })
    }

    fn file(path: &str) -> Result<Self, String> {
        let file = File::open(path).map_err(|e| e.to_string())?;
        let total = file.metadata().ok().filter(std::fs::Metadata::is_file).map(|data| data.len());
        Self::new(Box::new(file), total)
    }

    /// Looks at the first bytes to tell a capture from lines.
    pub fn new(input: Box<dyn Read>, total: Option<u64>) -> Result<Self, String> {
        let mut input = Input::new(input, total);
        let front = front(&mut input)?;
        let is_binary = front.iter().chain(input.at_hand().iter().take(LONGEST_MAGIC)).any(|byte| *byte == 0);
        input.put_back(front.clone());
        let format = if let Some((order, resolution)) = pcap::magic(&front) {
            Format::Pcap(Pcap::new(&mut input, order, resolution)?)
        } else if front.starts_with(&pcapng::MAGIC) {
            Format::Pcapng(Pcapng::new(&mut input)?)
        } else if let Some((_, what)) = NOT_READ.iter().find(|(magic, _)| front.starts_with(magic)) {
            return Err((*what).to_string());
        } else if is_binary {
            return Err("neither a capture of a known kind nor lines of hexadecimal digits".to_string());
        } else {
            Format::Lines(Lines::default())
        };
        let (zone, first_mac) = (None, None);
        let (records, mac_frames, right_fcs, unread) = (0, 0, 0, 0);
        Ok(Self { input, format, records, ended: false, unread, zone, mac: false, mac_frames, right_fcs, first_mac })
    }

    pub fn is_capture(&self) -> bool {
        !matches!(self.format, Format::Lines(_))
    }

    /// What an input is called of which nothing could be used.
    pub fn without(&self) -> &'static str {
        match (self.input.is_empty(), self.is_capture()) {
            (true, _) => "no bytes",
            (_, true) => "no record that can be used",
            (_, false) => "no frame",
        }
    }

    pub fn extent(&self) -> Extent {
        self.input.extent()
    }

    /// The first line that had an offset in front, which was passed over.
    pub fn first_offset(&self) -> Option<u64> {
        match &self.format {
            Format::Lines(lines) => lines.first_offset,
            _ => None,
        }
    }

    /// The end of an input that cannot be read further; of a capture the bytes that are left are counted.
    fn broken(&mut self, place: Place, why: String) -> Entry {
        self.ended = true;
        if self.is_capture() {
            self.unread = self.input.rest();
        }
        Entry { place, time: None, mac: None, fcs: Check::Missing, content: Content::Broken(why) }
    }

    /// A line's frame. A MAC frame in a dump is taken for one by its first byte, which no NWK frame of Zigbee has.
    fn line_entry(&mut self, number: u64, bytes: Result<Vec<u8>, String>, in_dump: bool) -> Entry {
        let content = bytes.map_or_else(Content::Broken, Content::Frame);
        let mut entry = Entry { place: Place::Line(number), time: None, mac: None, fcs: Check::Missing, content };
        let Content::Frame(bytes) = &entry.content else {
            return entry;
        };
        let looks_like_mac = is_mac(bytes);
        if self.mac || in_dump && looks_like_mac {
            let bytes = bytes.clone();
            self.take_off(&mut entry, &bytes);
        } else if looks_like_mac && bytes[1] & ADDRESSED != 0 {
            self.first_mac.get_or_insert(number);
        }
        entry
    }

    /// Takes off what stands around a NWK frame in a dump. A FCS that is right is taken off; one that is wrong is taken for one if
    /// most frames so far had a right one: any two bytes are right by chance once in 65,536.
    fn take_off(&mut self, entry: &mut Entry, bytes: &[u8]) {
        let behind_header = match bytes {
            [0, 0, 0, 0, START_OF_FRAME, ..] => Link::of(WITH_PHY_HEADER).mac_frame(bytes),
            [0, 0, ..] => Link::of(TAP).mac_frame(bytes),
            _ => {
                let is_right = matches!(without_fcs(bytes, Fcs::Two), Ok((_, Check::Right)));
                self.mac_frames += 1;
                self.right_fcs += u64::from(is_right);
                let has_fcs = is_right || 2 * self.right_fcs >= self.mac_frames;
                Ok((bytes, if has_fcs { Fcs::Two } else { Fcs::None }))
            }
        };
        fill(entry, behind_header);
    }
}

/// The first byte of the frame control of a MAC frame without MAC security: where a NWK frame has its version, bits 0 and 1 of it are
/// off. Zigbee has used the versions 1, 2 and 3.
fn is_mac(bytes: &[u8]) -> bool {
    bytes.len() > 2 && bytes[0] & 0x0C == 0
}

/// The upper byte of a MAC frame control whose source has an address.
const ADDRESSED: u8 = 0xC0;

/// What stands in front of a frame behind a preamble of four zeros.
const START_OF_FRAME: u8 = 0xA7;

/// An input's name.
pub fn name(path: Option<&str>) -> &str {
    match path {
        None | Some("-") => "standard input",
        Some(path) => path,
    }
}

/// The first bytes of an input, as many as telling its kind takes: an input may come piece by piece.
fn front(input: &mut impl Read) -> Result<Vec<u8>, String> {
    let magics = || pcap::MAGICS.iter().map(|(magic, _, _)| &magic[..]).chain([&pcapng::MAGIC[..]]);
    let known = || magics().chain(NOT_READ.iter().map(|(magic, _)| *magic));
    let mut front = Vec::new();
    while known().any(|magic| magic.starts_with(&front) && magic != front) {
        let next = take(input, 1)?;
        if next.is_empty() {
            break;
        }
        front.extend(next);
    }
    Ok(front)
}

impl Iterator for Source {
    type Item = Entry;

    fn next(&mut self) -> Option<Entry> {
        if self.ended {
            return None;
        }
        self.records += 1;
        let place = Place::Record(self.records);
        let record = match &mut self.format {
            Format::Lines(lines) => {
                let at = Place::Line(lines.number());
                let next = lines.next(&mut self.input);
                let in_dump = lines.in_dump;
                return match next {
                    Ok(next) => next.map(|(number, bytes)| self.line_entry(number, bytes, in_dump)),
                    Err(e) => Some(self.broken(at, e.to_string())),
                };
            }
            Format::Pcap(capture) => capture.next(&mut self.input).map(|packet| packet.map(Ok)),
            Format::Pcapng(capture) => capture.next(&mut self.input),
        };
        match record {
            Ok(record) => record.map(|record| {
                let mut entry = record_entry(place, record);
                entry.time = entry.time.map(|time| self.zone.iter_mut().fold(time, Time::in_zone));
                entry
            }),
            // What Ctrl-C cut off is not damaged.
            Err(_) if is_interrupted() => None,
            Err(why) => Some(self.broken(place, why)),
        }
    }
}

fn record_entry(place: Place, record: Result<Packet, String>) -> Entry {
    let mut entry = Entry { place, time: None, mac: None, fcs: Check::Missing, content: Content::Frame(Vec::new()) };
    match record {
        Err(why) => entry.content = Content::Broken(why),
        Ok(packet) if packet.bytes.len() < packet.whole => {
            entry.time = packet.time;
            let why = format!("only {} of the frame's {} bytes were captured", packet.bytes.len(), packet.whole);
            entry.content = Content::Broken(why);
        }
        Ok(packet) => {
            entry.time = packet.time;
            fill(&mut entry, packet.link.mac_frame(&packet.bytes));
        }
    }
    entry
}

/// Takes off what the MAC puts around a NWK frame.
fn fill(entry: &mut Entry, frame: Result<(&[u8], Fcs), String>) {
    let unchecked = frame.and_then(|(frame, fcs)| without_fcs(frame, fcs));
    let (frame, fcs) = match unchecked {
        Ok(frame) => frame,
        Err(kind) => {
            entry.content = Content::Other(kind.into(), Vec::new());
            return;
        }
    };
    let (header, carried) = mac_frame(frame);
    entry.mac = Some(header);
    entry.fcs = fcs;
    entry.content = match carried {
        Carried::Nothing(kind) => Content::Other(kind.into(), Vec::new()),
        Carried::Payload(payload) => match other_protocol(payload) {
            Some(kind) => Content::Other(kind.into(), payload.to_vec()),
            None => Content::Frame(payload.to_vec()),
        },
    };
}

/// The frame in front of its FCS, and what that says.
fn without_fcs(frame: &[u8], kind: Fcs) -> Result<(&[u8], Check), String> {
    match (kind, frame) {
        (Fcs::None, _) => Ok((frame, Check::Missing)),
        (Fcs::Two, [frame @ .., low, high]) => Ok((frame, Check::of(fcs(frame) == u16::from_le_bytes([*low, *high])))),
        (Fcs::Four, [frame @ .., a, b, c, d]) => {
            Ok((frame, Check::of(fcs_of_four(frame) == u32::from_le_bytes([*a, *b, *c, *d]))))
        }
        _ => Err("MAC frame too short for an FCS".to_string()),
    }
}
