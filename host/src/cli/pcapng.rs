//! Records of a pcapng capture: several sections, each with its byte order and its interfaces.
use super::bytes::{long, number, skip, take, Order, LONGEST_RECORD};
use super::input::Input;
use super::link::{Fcs, Link};
use super::pcap::Packet;
use super::time::Resolution;
use std::io::Read;

/// The first four bytes of a capture, and of each of its sections.
pub const MAGIC: [u8; 4] = [0x0A, 0x0D, 0x0D, 0x0A];

const BYTE_ORDER: u32 = 0x1A2B_3C4D;

const INTERFACE: u32 = 1;
const OLD_PACKET: u32 = 2;
const SIMPLE_PACKET: u32 = 3;
const ENHANCED_PACKET: u32 = 6;

const IF_TSRESOL: u32 = 9;
const IF_FCSLEN: u32 = 13;
const IF_TSOFFSET: u32 = 14;
const EPB_FLAGS: u32 = 2;

/// What a block has around its body: its type, its length, and its length again.
const AROUND: usize = 12;

/// The longest block that is kept: a record with options around it.
const LONGEST_BLOCK: usize = LONGEST_RECORD + 65_536;

/// The most interfaces of a section.
const MOST_INTERFACES: usize = 65_536;

/// What is known of an interface.
#[derive(Debug, Clone, PartialEq)]
struct Interface {
    link: Link,
    /// The most bytes that it captured of a record; 0 for no limit.
    most: usize,
    /// How it counts time; none where that is too fine to be told.
    resolution: Option<Resolution>,
    offset: i64,
}

pub struct Pcapng {
    order: Order,
    interfaces: Vec<Interface>,
}

/// A record, or why it cannot be read though the next one can.
pub type Record = Result<Packet, String>;

impl Pcapng {
    /// Reads the first section's header.
    pub fn new(input: &mut impl Read) -> Result<Self, String> {
        let mut capture = Self { order: Order::Little, interfaces: Vec::new() };
        match take(input, 4)? == MAGIC && capture.section(input)? {
            true => Ok(capture),
            false => Err("the capture ends inside its header".to_string()),
        }
    }

    /// The next record, none at the capture's end. Behind an error nothing more can be read.
    pub fn next(&mut self, input: &mut Input) -> Result<Option<Record>, String> {
        loop {
            input.begin();
            let kind = take(input, 4)?;
            if kind.is_empty() {
                return Ok(None);
            }
            if kind == MAGIC {
                if !self.section(input)? {
                    return Err("the capture ends inside a section's header".to_string());
                }
                continue;
            }
            if let Some(record) = self.block(number(&kind, self.order), kind.len(), input)? {
                return Ok(Some(record));
            }
        }
    }

    /// Reads a section's header behind its type: it has the byte order, and its interfaces are yet to come. False if the
    /// input ends before.
    fn section(&mut self, input: &mut impl Read) -> Result<bool, String> {
        let front = take(input, 8)?;
        let Some((length, mark)) = front.split_at_checked(4).filter(|(_, mark)| mark.len() == 4) else {
            return Ok(false);
        };
        self.order = match (number(mark, Order::Little), number(mark, Order::Big)) {
            (BYTE_ORDER, _) => Order::Little,
            (_, BYTE_ORDER) => Order::Big,
            _ => return Err("a section has no byte order; the rest of the capture is not read".to_string()),
        };
        self.interfaces.clear();
        let length = number(length, self.order);
        if length < 28 || length % 4 != 0 {
            return Err(format!("a section's header claims {length} bytes; the rest of the capture is not read"));
        }
        skip(input, u64::from(length) - AROUND as u64)
    }

    /// Reads a block behind its type; none if it holds no record. A block of an unknown type is passed over.
    fn block(&mut self, kind: u32, kind_length: usize, input: &mut impl Read) -> Result<Option<Record>, String> {
        let ends = || "the capture ends inside a block".to_string();
        let length = take(input, 4)?;
        if kind_length < 4 || length.len() < 4 {
            return Err(ends());
        }
        let length = number(&length, self.order) as usize;
        if length < AROUND || length % 4 != 0 {
            return Err(format!("a block claims {length} bytes; the rest of the capture is not read"));
        }
        let wanted = matches!(kind, INTERFACE | OLD_PACKET | SIMPLE_PACKET | ENHANCED_PACKET);
        if !wanted || length > LONGEST_BLOCK {
            return match skip(input, (length - 8) as u64)? {
                true if wanted => Ok(Some(Err(format!("the record claims {length} bytes")))),
                true => Ok(None),
                false => Err(ends()),
            };
        }
        let body = take(input, length - AROUND)?;
        let again = take(input, 4)?;
        if again.len() < 4 {
            return Err(ends());
        }
        if number(&again, self.order) as usize != length {
            return Err("the two lengths of a block differ; the rest of the capture is not read".to_string());
        }
        Ok(self.content(kind, &body))
    }

    /// What a block's body holds.
    fn content(&mut self, kind: u32, body: &[u8]) -> Option<Record> {
        let cut = || "a block that is too short for its fields".to_string();
        match kind {
            INTERFACE => match self.interface(body) {
                Some(_) if self.interfaces.len() == MOST_INTERFACES => Some(Err("one interface too many".to_string())),
                Some(interface) => {
                    self.interfaces.push(interface);
                    None
                }
                None => Some(Err(cut())),
            },
            SIMPLE_PACKET => Some(self.simple(body).ok_or_else(cut).and_then(|packet| packet)),
            _ => Some(self.packet(kind, body).ok_or_else(cut).and_then(|packet| packet)),
        }
    }

    fn interface(&self, body: &[u8]) -> Option<Interface> {
        let front = body.get(..8)?;
        let mut link = Link { link_type: number(&front[..2], self.order), fcs: None };
        let mut interface = Interface {
            link,
            most: number(&front[4..8], self.order) as usize,
            resolution: Some(Resolution::MICROSECONDS),
            offset: 0,
        };
        for (code, value) in self.options(&body[8..]) {
            match (code, value) {
                (IF_TSRESOL, [resolution, ..]) => interface.resolution = Resolution::of_option(*resolution),
                (IF_TSOFFSET, [_, _, _, _, _, _, _, _]) => interface.offset = long(value, self.order) as i64,
                // The standard counts bits and its example bytes.
                (IF_FCSLEN, [16, ..]) => link.fcs = Some(Fcs::Two),
                (IF_FCSLEN, [32, ..]) => link.fcs = Some(Fcs::Four),
                (IF_FCSLEN, [length, ..]) => link.fcs = Some(Fcs::of_length((*length).into())),
                _ => {}
            }
        }
        interface.link = link;
        Some(interface)
    }

    /// The options behind a block's fields: code and value.
    fn options<'a>(&self, mut bytes: &'a [u8]) -> Vec<(u32, &'a [u8])> {
        let mut options = Vec::new();
        while let Some((front, behind)) = bytes.split_at_checked(4) {
            let (code, length) = (number(&front[..2], self.order), number(&front[2..], self.order) as usize);
            let Some(value) = behind.get(..length).filter(|_| code != 0) else {
                break;
            };
            options.push((code, value));
            bytes = behind.get(length.next_multiple_of(4)..).unwrap_or(&[]);
        }
        options
    }

    /// A record with its interface and time; none if the block is too short.
    fn packet(&self, kind: u32, body: &[u8]) -> Option<Record> {
        let front = body.get(..20)?;
        let field = |at: usize| number(&front[4 * at..4 * at + 4], self.order);
        // The older block has a count of lost records behind a shorter number of the interface.
        let index = if kind == OLD_PACKET { number(&front[..2], self.order) } else { field(0) };
        let captured = field(3) as usize;
        if captured > LONGEST_RECORD {
            return Some(Err(format!("the record claims {captured} bytes")));
        }
        let bytes = body.get(20..20 + captured)?.to_vec();
        let Some(interface) = self.interfaces.get(index as usize) else {
            return Some(Err(format!("the record is of interface {index}, which the capture does not describe")));
        };
        let units = u64::from(field(1)) << 32 | u64::from(field(2));
        let time = interface.resolution.map(|resolution| resolution.time(units, interface.offset));
        let mut link = interface.link;
        let options = body.get(20 + captured.next_multiple_of(4)..).unwrap_or(&[]);
        for (_, value) in self.options(options).iter().filter(|(code, value)| *code == EPB_FLAGS && value.len() == 4) {
            // Bits 5 to 8 have the length of the FCS, 0 where it is not known.
            let length = number(value, self.order) >> 5 & 0xF;
            link.fcs = if length == 0 { link.fcs } else { Some(Fcs::of_length(length)) };
        }
        Some(Ok(Packet { link, time, bytes, whole: field(4) as usize }))
    }

    /// A record of the first interface without a time; none if the block is too short.
    fn simple(&self, body: &[u8]) -> Option<Record> {
        let (front, behind) = body.split_at_checked(4)?;
        let whole = number(front, self.order) as usize;
        let Some(interface) = self.interfaces.first() else {
            return Some(Err("the record is of interface 0, which the capture does not describe".to_string()));
        };
        let captured = if interface.most == 0 { whole } else { whole.min(interface.most) };
        let bytes = behind.get(..captured)?.to_vec();
        Some(Ok(Packet { link: interface.link, time: None, bytes, whole }))
    }
}
