//! The NWK header (document 01, "Frame"): its bytes, and the record of `include/nwk.h`.
use super::{refuse, MAX_FRAME};
use crate::support::operations::HEADER_RECORD;

pub const MIN_HEADER: usize = 8;
pub const MAX_RELAYS: usize = 54;

#[derive(Clone, PartialEq, Eq, Debug)]
pub struct Header {
    pub frame_type: u8,
    pub version: u8,
    pub discovery: u8,
    /// Bits 8 to 13 of frame control: multicast, security, source route, destination IEEE, source IEEE, end device initiator.
    pub bits: [bool; 6],
    /// Bits 14 and 15.
    pub kept: u8,
    pub destination: [u8; 2],
    pub source: [u8; 2],
    pub radius: u8,
    pub sequence: u8,
    pub destination_ieee: Option<[u8; 8]>,
    pub source_ieee: Option<[u8; 8]>,
    pub multicast_control: Option<u8>,
    pub source_route: Option<SourceRoute>,
}

#[derive(Clone, PartialEq, Eq, Debug)]
pub struct SourceRoute {
    pub index: u8,
    pub relays: Vec<[u8; 2]>,
}

/// Places in `Header::bits`, and those of them that are presence bits: bits 8, 10, 11 and 12 of frame control.
pub const MULTICAST: usize = 0;
pub const SECURITY: usize = 1;
pub const SOURCE_ROUTE: usize = 2;
pub const DESTINATION_IEEE: usize = 3;
pub const SOURCE_IEEE: usize = 4;
pub const PRESENCE: [usize; 4] = [MULTICAST, SOURCE_ROUTE, DESTINATION_IEEE, SOURCE_IEEE];

/// The bytes not yet read.
struct Rest<'a>(&'a [u8]);

impl<'a> Rest<'a> {
    /// The next n bytes, or the refusal if fewer remain.
    fn take(&mut self, n: usize, refusal: u8) -> Result<&'a [u8], u8> {
        refuse(&[(refusal, self.0.len() < n)])?;
        let (taken, rest) = self.0.split_at(n);
        self.0 = rest;
        Ok(taken)
    }

    fn ieee(&mut self, refusal: u8) -> Result<[u8; 8], u8> {
        let taken = self.take(8, refusal)?;
        Ok(std::array::from_fn(|i| taken[i]))
    }

    fn source_route(&mut self) -> Result<SourceRoute, u8> {
        let front = self.take(2, 8)?;
        let places = self.take(2 * usize::from(front[0]), 8)?;
        Ok(SourceRoute { index: front[1], relays: places.chunks(2).map(|place| [place[0], place[1]]).collect() })
    }
}

/// Reads a header from the front of bytes: the header, and how many bytes it takes. Refusals 1 to 8.
pub fn read(bytes: &[u8]) -> Result<(Header, usize), u8> {
    refuse(&[(1, bytes.len() > MAX_FRAME), (2, bytes.len() < MIN_HEADER)])?;
    let control = u16::from_le_bytes([bytes[0], bytes[1]]);
    let field = |from: u16, width: u16| (control >> from & ((1 << width) - 1)) as u8;
    let bits: [bool; 6] = std::array::from_fn(|i| field(8 + i as u16, 1) == 1);
    refuse(&[(3, field(0, 2) == 2), (4, field(6, 2) == 3)])?;

    let mut rest = Rest(&bytes[MIN_HEADER..]);
    let destination_ieee = bits[DESTINATION_IEEE].then(|| rest.ieee(5)).transpose()?;
    let source_ieee = bits[SOURCE_IEEE].then(|| rest.ieee(6)).transpose()?;
    let multicast_control = bits[MULTICAST].then(|| rest.take(1, 7)).transpose()?.map(|taken| taken[0]);
    let source_route = bits[SOURCE_ROUTE].then(|| rest.source_route()).transpose()?;
    let header = Header {
        frame_type: field(0, 2),
        version: field(2, 4),
        discovery: field(6, 2),
        bits,
        kept: field(14, 2),
        destination: [bytes[2], bytes[3]],
        source: [bytes[4], bytes[5]],
        radius: bytes[6],
        sequence: bytes[7],
        destination_ieee,
        source_ieee,
        multicast_control,
        source_route,
    };
    Ok((header, bytes.len() - rest.0.len()))
}

impl Header {
    /// The header's bytes, by the fields present and with the bits as they stand.
    pub fn bytes(&self) -> Vec<u8> {
        let mut bytes = self.frame_control().to_le_bytes().to_vec();
        bytes.extend(self.destination);
        bytes.extend(self.source);
        bytes.extend([self.radius, self.sequence]);
        bytes.extend(self.destination_ieee.iter().flatten());
        bytes.extend(self.source_ieee.iter().flatten());
        bytes.extend(self.multicast_control);
        if let Some(route) = &self.source_route {
            bytes.extend([route.relays.len() as u8, route.index]);
            bytes.extend(route.relays.iter().flatten());
        }
        bytes
    }

    fn frame_control(&self) -> u16 {
        let bits = (0..6).map(|i| u16::from(self.bits[i]) << (8 + i)).sum::<u16>();
        let numbers = [(self.frame_type, 0), (self.version, 2), (self.discovery, 6), (self.kept, 14)];
        numbers.iter().fold(bits, |sum, (number, at)| sum | u16::from(*number) << at)
    }

    /// Each presence bit is set exactly if its field is present.
    pub fn agrees(&self) -> bool {
        self.bits[MULTICAST] == self.multicast_control.is_some()
            && self.bits[SOURCE_ROUTE] == self.source_route.is_some()
            && self.bits[DESTINATION_IEEE] == self.destination_ieee.is_some()
            && self.bits[SOURCE_IEEE] == self.source_ieee.is_some()
    }

    /// The header record: absent fields and places past the relay count are 0.
    pub fn record(&self) -> Vec<u8> {
        let mut record = vec![self.frame_type, self.version, self.discovery];
        record.extend(self.bits.map(u8::from));
        record.push(self.kept);
        record.extend(self.destination);
        record.extend(self.source);
        record.extend([self.radius, self.sequence]);
        for ieee in [self.destination_ieee, self.source_ieee] {
            record.push(u8::from(ieee.is_some()));
            record.extend(ieee.unwrap_or_default());
        }
        record.extend([u8::from(self.multicast_control.is_some()), self.multicast_control.unwrap_or(0)]);
        record.push(u8::from(self.source_route.is_some()));
        if let Some(route) = &self.source_route {
            record.extend([route.relays.len() as u8, route.index]);
            record.extend(route.relays.iter().flatten());
        }
        record.resize(HEADER_RECORD, 0);
        record
    }

    /// The header of a record, or refusal 13.
    pub fn of_record(record: &[u8]) -> Result<Header, u8> {
        refuse(&[(13, record.len() != HEADER_RECORD)])?;
        let present = [record[16], record[25], record[34], record[36]];
        let flags = record[3..9].iter().chain(&present).any(|&flag| flag > 1);
        refuse(&[
            (13, ![0, 1, 3].contains(&record[0]) || record[1] > 15 || record[2] > 2),
            (13, flags || record[9] > 3),
            (13, present[3] == 1 && usize::from(record[37]) > MAX_RELAYS),
        ])?;
        let ieee = |at: usize| -> [u8; 8] { std::array::from_fn(|i| record[at + i]) };
        let relays = |n: u8| (0..usize::from(n)).map(|i| [record[39 + 2 * i], record[40 + 2 * i]]).collect();
        Ok(Header {
            frame_type: record[0],
            version: record[1],
            discovery: record[2],
            bits: std::array::from_fn(|i| record[3 + i] == 1),
            kept: record[9],
            destination: [record[10], record[11]],
            source: [record[12], record[13]],
            radius: record[14],
            sequence: record[15],
            destination_ieee: (present[0] == 1).then(|| ieee(17)),
            source_ieee: (present[1] == 1).then(|| ieee(26)),
            multicast_control: (present[2] == 1).then_some(record[35]),
            source_route: (present[3] == 1).then(|| SourceRoute { index: record[38], relays: relays(record[37]) }),
        })
    }
}
