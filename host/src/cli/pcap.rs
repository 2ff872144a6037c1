//! Records of a pcap capture.
use super::bytes::{number, take, take_into, Order, LONGEST_RECORD};
use super::input::Input;
use super::link::{Fcs, Link};
use super::time::{Resolution, Time};
use std::io::Read;

/// A captured record.
#[derive(Debug, PartialEq)]
pub struct Packet {
    pub link: Link,
    pub time: Option<Time>,
    pub bytes: Vec<u8>,
    /// How many bytes were on the air; more than there are if the capture cut them.
    pub whole: usize,
}

/// A capture of one link type.
pub struct Pcap {
    order: Order,
    resolution: Resolution,
    link: Link,
}

/// The first four bytes of a capture, its byte order and resolution.
pub const MAGICS: [([u8; 4], Order, Resolution); 4] = [
    ([0xD4, 0xC3, 0xB2, 0xA1], Order::Little, Resolution::MICROSECONDS),
    ([0x4D, 0x3C, 0xB2, 0xA1], Order::Little, Resolution::NANOSECONDS),
    ([0xA1, 0xB2, 0xC3, 0xD4], Order::Big, Resolution::MICROSECONDS),
    ([0xA1, 0xB2, 0x3C, 0x4D], Order::Big, Resolution::NANOSECONDS),
];

/// Byte order and resolution of a capture that starts so.
pub fn magic(front: &[u8]) -> Option<(Order, Resolution)> {
    MAGICS.iter().find(|(magic, _, _)| front.starts_with(magic)).map(|(_, order, resolution)| (*order, *resolution))
}

const HEADER: usize = 24;
const RECORD_HEADER: usize = 16;

impl Pcap {
    /// Reads a capture's header, whose front has told order and resolution.
    pub fn new(input: &mut impl Read, order: Order, resolution: Resolution) -> Result<Self, String> {
        let header = take(input, HEADER)?;
        let Some(link_type) = header.get(20..HEADER).map(|bytes| number(bytes, order)) else {
            return Err("the capture ends inside its header".to_string());
        };
        let link = Link { link_type: link_type & 0xFFFF, fcs: said_fcs(link_type) };
        match link.is_known() {
            true => Ok(Self { order, resolution, link }),
            false => Err(format!("a capture of link type {}; {}", link.link_type, Link::KNOWN)),
        }
    }

    /// The next record, none at the capture's end. Behind an error nothing more can be read.
    pub fn next(&mut self, input: &mut Input) -> Result<Option<Packet>, String> {
        input.begin();
        let mut header = [0; RECORD_HEADER];
        match take_into(input, &mut header)? {
            0 => return Ok(None),
            RECORD_HEADER => {}
            _ => return Err("the capture ends inside this record's header".to_string()),
        }
        let field = |at: usize| number(&header[at..at + 4], self.order);
        let captured = field(8) as usize;
        if captured > LONGEST_RECORD {
            return Err(format!("the record claims {captured} bytes; the rest of the capture is not read"));
        }
        let bytes = take(input, captured)?;
        if bytes.len() < captured {
            return Err("the capture ends inside this record".to_string());
        }
        let time = Some(Time::of_parts(field(0), field(4), self.resolution));
        Ok(Some(Packet { link: self.link, time, bytes, whole: field(12) as usize }))
    }
}

/// What the upper bits of the link type say of the FCS: bit 26, that they do, and bits 28 to 31 its length in two bytes.
fn said_fcs(link_type: u32) -> Option<Fcs> {
    (link_type >> 26 & 1 == 1).then(|| Fcs::of_length(2 * (link_type >> 28)))
}
