//! The fifteen commands (document 01, "Commands"; the Rust's declared order) as tables of fields, read and written by one
//! walk each. Every field of a command record is a run of whole bytes, so a table says where each field stands in both.
use super::refuse;
use crate::support::operations::COMMAND_RECORD;

/// A field of a command on the wire, lowest bit first, and its offset in the record.
#[derive(Clone, Copy)]
pub enum Field {
    /// So many bits spelled `reserved`: skipped on reading, written 0.
    Reserved(usize),
    /// A number of so many bits.
    Bits(usize, usize),
    /// A code of so many bits, with the values declared.
    Code(usize, usize, &'static [u8]),
    /// So many whole bytes.
    Bytes(usize, usize),
    /// An IEEE behind its presence byte, which stands at this offset.
    Ieee(usize),
    /// The count of a list, of so many bits.
    Count(usize, &'static List),
    /// The entries of a list, as many as its count says.
    Entries(&'static List),
}

/// A list in the record: where its count stands, its first place behind that, and an entry's fields.
pub struct List {
    pub count_at: usize,
    pub places: usize,
    /// Bytes of an entry in the record.
    pub size: usize,
    pub entry: &'static [Field],
}

use Field::{Bits, Bytes, Code, Count, Entries, Ieee, Reserved};

const STATUS: &[u8] = &[0, 1, 2, 3, 4, 5, 6, 7, 8, 9, 10, 11, 12, 13, 14, 15, 16, 17, 18, 19, 20];
const ASSOCIATION_STATUS: &[u8] = &[0, 1, 2, 3, 0x80, 0xF0];
const TIMEOUT: &[u8] = &[0, 1, 2, 3, 4, 5, 6, 7, 8, 9, 10, 11, 12, 13, 14];
const TIMEOUT_RESPONSE: &[u8] = &[0, 1, 2];
const ONLY_ZERO: &[u8] = &[0];
const POWER_TYPE: &[u8] = &[0, 1, 2];
const COMMISSIONING_TYPE: &[u8] = &[0, 1];

pub static RELAYS: List = List { count_at: 25, places: 53, size: 2, entry: &[Bytes(2, 0)] };
pub static LINK_STATUSES: List = List {
    count_at: 132,
    places: 31,
    size: 4,
    entry: &[Bytes(2, 0), Bits(3, 2), Reserved(1), Bits(3, 3), Reserved(1)],
};
pub static PAN_IDS: List = List { count_at: 257, places: 31, size: 2, entry: &[Bytes(2, 0)] };
pub static POWER_LIST: List = List { count_at: 320, places: 35, size: 3, entry: &[Bytes(2, 0), Bytes(1, 2)] };

/// An unparsed command: its length, and its bytes behind that.
const UNPARSED_LENGTH: usize = 426;
const UNPARSED_BYTES: usize = 427;

/// The command of each identifier from 1 to 15.
static COMMANDS: [&[Field]; 15] = [
    // route request
    &[Reserved(3), Bits(2, 1), Bits(1, 6), Reserved(2), Bytes(1, 2), Bytes(2, 3), Bytes(1, 5), Ieee(6)],
    // route reply
    &[
        Reserved(4),
        Bits(1, 7),
        Bits(1, 16),
        Reserved(2),
        Bytes(1, 1),
        Bytes(2, 2),
        Bytes(2, 4),
        Bytes(1, 6),
        Ieee(7),
        Ieee(16),
    ],
    // network status
    &[Code(8, 1, STATUS), Bytes(2, 2)],
    // leave
    &[Reserved(5), Bits(1, 1), Bits(1, 2), Bits(1, 3)],
    // route record
    &[Count(8, &RELAYS), Entries(&RELAYS)],
    // rejoin request: the capability bits
    &[Bits(1, 1), Bits(1, 2), Bits(1, 3), Bits(1, 4), Bits(1, 5), Bits(1, 6), Bits(1, 7), Bits(1, 8)],
    // rejoin response
    &[Bytes(2, 1), Code(8, 3, ASSOCIATION_STATUS)],
    // link status
    &[Count(5, &LINK_STATUSES), Bits(1, 1), Bits(1, 2), Reserved(1), Entries(&LINK_STATUSES)],
    // network report
    &[Count(5, &PAN_IDS), Code(3, 1, ONLY_ZERO), Bytes(8, 2), Entries(&PAN_IDS)],
    // network update
    &[Bits(5, 1), Code(3, 2, ONLY_ZERO), Bytes(8, 3), Bytes(1, 11), Bytes(2, 12)],
    // end device timeout request
    &[Code(8, 1, TIMEOUT), Bytes(1, 2)],
    // end device timeout response
    &[Code(8, 1, TIMEOUT_RESPONSE), Bits(1, 2), Bits(1, 3), Bits(1, 4), Reserved(5)],
    // link power delta
    &[Code(2, 1, POWER_TYPE), Reserved(6), Count(8, &POWER_LIST), Entries(&POWER_LIST)],
    // network commissioning request: type and capability bits
    &[
        Code(8, 1, COMMISSIONING_TYPE),
        Bits(1, 2),
        Bits(1, 3),
        Bits(1, 4),
        Bits(1, 5),
        Bits(1, 6),
        Bits(1, 7),
        Bits(1, 8),
        Bits(1, 9),
    ],
    // network commissioning response
    &[Bytes(2, 1), Code(8, 3, ASSOCIATION_STATUS)],
];

/// The fields of an identifier, none where it is not declared.
pub fn fields(identifier: u8) -> Option<&'static [Field]> {
    COMMANDS.get(usize::from(identifier).checked_sub(1)?).copied()
}

// ---- reading

/// Bits not yet read, lowest first.
struct Bitstream<'a> {
    bytes: &'a [u8],
    position: usize,
}

impl Bitstream<'_> {
    /// The next number of so many bits, none where the body ends early.
    fn next(&mut self, width: usize) -> Option<u8> {
        let mut number = 0;
        for i in 0..width {
            let byte = self.bytes.get(self.position / 8)?;
            number |= (byte >> (self.position % 8) & 1) << i;
            self.position += 1;
        }
        Some(number)
    }

    fn copy(&mut self, to: &mut [u8]) -> Option<()> {
        for place in to {
            *place = self.next(8)?;
        }
        Some(())
    }
}

/// Reads fields to the record, their offsets counted from `base`; none where the command is not typed.
fn read_fields(fields: &[Field], from: &mut Bitstream, record: &mut [u8], base: usize) -> Option<()> {
    for field in fields {
        match *field {
            Reserved(width) => {
                // skipped bits have to be there, but are not kept
                from.next(width)?;
            }
            Bits(width, at) => record[base + at] = from.next(width)?,
            Code(width, at, declared) => {
                let code = from.next(width)?;
                declared.contains(&code).then_some(())?;
                record[base + at] = code;
            }
            Bytes(n, at) => from.copy(&mut record[base + at..base + at + n])?,
            Ieee(at) if record[base + at] == 1 => from.copy(&mut record[base + at + 1..base + at + 9])?,
            Ieee(_) => {}
            Count(width, list) => record[list.count_at] = from.next(width)?,
            Entries(list) => {
                let count = usize::from(record[list.count_at]);
                (count <= list.places).then_some(())?;
                for i in 0..count {
                    read_fields(list.entry, from, record, list.count_at + 1 + i * list.size)?;
                }
            }
        }
    }
    Some(())
}

fn typed(bytes: &[u8]) -> Option<Vec<u8>> {
    let (identifier, body) = bytes.split_first()?;
    let mut record = vec![0; COMMAND_RECORD];
    record[0] = *identifier;
    read_fields(fields(*identifier)?, &mut Bitstream { bytes: body, position: 0 }, &mut record, 0)?;
    Some(record)
}

/// The record of at most 108 bytes: a typed command, else unparsed with all its bytes.
pub fn read(bytes: &[u8]) -> Vec<u8> {
    typed(bytes).unwrap_or_else(|| {
        let mut record = vec![0; COMMAND_RECORD];
        record[UNPARSED_LENGTH] = bytes.len() as u8;
        record[UNPARSED_BYTES..UNPARSED_BYTES + bytes.len()].copy_from_slice(bytes);
        record
    })
}

// ---- writing

/// Bits written so far, lowest first.
#[derive(Default)]
struct Bitsink {
    bytes: Vec<u8>,
    filled: usize,
}

impl Bitsink {
    fn put(&mut self, width: usize, number: u8) {
        for i in 0..width {
            if self.filled % 8 == 0 {
                self.bytes.push(0);
            }
            let last = self.bytes.len() - 1;
            self.bytes[last] |= (number >> i & 1) << (self.filled % 8);
            self.filled += 1;
        }
    }
}

/// The number at an offset, or 13 if it exceeds its bits.
fn number(record: &[u8], at: usize, width: usize) -> Result<u8, u8> {
    refuse(&[(13, u32::from(record[at]) >> width != 0)])?;
    Ok(record[at])
}

fn write_fields(fields: &[Field], record: &[u8], base: usize, to: &mut Bitsink) -> Result<(), u8> {
    for field in fields {
        match *field {
            Reserved(width) => to.put(width, 0),
            Bits(width, at) => to.put(width, number(record, base + at, width)?),
            Code(width, at, declared) => {
                refuse(&[(13, !declared.contains(&record[base + at]))])?;
                to.put(width, record[base + at]);
            }
            Bytes(n, at) => record[base + at..base + at + n].iter().for_each(|&byte| to.put(8, byte)),
            Ieee(at) if record[base + at] == 1 => {
                record[base + at + 1..base + at + 9].iter().for_each(|&byte| to.put(8, byte));
            }
            Ieee(_) => {}
            Count(width, list) => {
                refuse(&[(13, usize::from(record[list.count_at]) > list.places)])?;
                to.put(width, record[list.count_at]);
            }
            Entries(list) => {
                for i in 0..usize::from(record[list.count_at]) {
                    write_fields(list.entry, record, list.count_at + 1 + i * list.size, to)?;
                }
            }
        }
    }
    Ok(())
}

/// The command's bytes, or refusal 13. An unparsed length past its places is refused by 17, so its bytes are padded here.
pub fn write(record: &[u8]) -> Result<Vec<u8>, u8> {
    refuse(&[(13, record.len() != COMMAND_RECORD)])?;
    let identifier = record[0];
    if identifier == 0 {
        let mut bytes = record[UNPARSED_BYTES..].to_vec();
        bytes.resize(usize::from(record[UNPARSED_LENGTH]), 0);
        return Ok(bytes);
    }
    let mut to = Bitsink::default();
    to.put(8, identifier);
    write_fields(fields(identifier).ok_or(13)?, record, 0, &mut to)?;
    Ok(to.bytes)
}
