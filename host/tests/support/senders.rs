//! Calls over a list of senders through the C boundary: the list and the bytes for the key stand between guard bytes.
use super::guarded::Guarded;
use super::hex::hex;
use store_reader::sys;

/// How many bytes a record has in C, and how many of them are fields; the others are nobody's.
pub const SIZE: usize = 16;
pub const FIELDS: usize = 13;

/// The bit of noting's answer that marks a known sender.
pub const KNOWN_BIT: u32 = 41;

/// A sender record.
#[derive(Clone, Copy, PartialEq, Eq, Debug)]
pub struct Record {
    pub used: u8,
    pub address: u64,
    pub counter: u32,
}

impl Record {
    /// The record as `struct nwk_sender` has it, with some value in the bytes that are nobody's.
    pub fn bytes(self, rest: u8) -> [u8; SIZE] {
        let mut bytes = [rest; SIZE];
        bytes[..8].copy_from_slice(&self.address.to_le_bytes());
        bytes[8..12].copy_from_slice(&self.counter.to_le_bytes());
        bytes[12] = self.used;
        bytes
    }

    /// The record of its fields' bytes.
    pub fn of_bytes(bytes: &[u8]) -> Self {
        Self {
            address: u64::from_le_bytes(std::array::from_fn(|i| bytes[i])),
            counter: u32::from_le_bytes(std::array::from_fn(|i| bytes[8 + i])),
            used: bytes[12],
        }
    }
}

/// What is asked of a list.
#[derive(Clone, Copy, PartialEq, Eq, Debug)]
pub enum Request {
    Ask { key: [u8; 16], active: u8, sender: u64, number: u8, counter: u32 },
    Note { sender: u64, counter: u32 },
    Forget { sender: u64 },
}

impl Request {
    /// The C function.
    pub fn name(&self) -> &'static str {
        match self {
            Self::Ask { .. } => "nwk_inbound_network_key",
            Self::Note { .. } => "nwk_note_inbound_frame_counter",
            Self::Forget { .. } => "nwk_forget_sender",
        }
    }

    /// The numbers that it can answer, which `inbound.rs` compares with the comments of `include/nwk.h`.
    pub fn refusals(&self) -> &'static [u8] {
        match self {
            Self::Ask { .. } => &[22, 23],
            Self::Note { .. } => &[24],
            Self::Forget { .. } => &[],
        }
    }

    pub fn sender(&self) -> u64 {
        match *self {
            Self::Ask { sender, .. } | Self::Note { sender, .. } | Self::Forget { sender } => sender,
        }
    }
}

/// What a call answered, the list afterwards, and the bytes lent for a key where they were changed.
#[derive(Clone, PartialEq, Eq, Debug)]
pub struct Done {
    pub answer: u64,
    pub list: Vec<Record>,
    pub key: Option<[u8; 16]>,
}

impl Done {
    pub fn refusal(&self) -> u8 {
        (self.answer >> 32) as u8
    }

    pub fn known(&self) -> bool {
        self.answer >> KNOWN_BIT & 1 == 1
    }

    /// The length, or the earlier counter.
    pub fn low(&self) -> u32 {
        self.answer as u32
    }
}

/// Makes a call over a list between guards of the value `guard`. Guards, and the places past the first 64, must be unchanged
/// afterwards.
pub fn perform(request: &Request, list: &[Record], guard: u8) -> Done {
    let bytes: Vec<u8> = list.iter().flat_map(|record| record.bytes(!guard)).collect();
    let mut lent = Guarded::aligned(&bytes, 8, guard);
    let mut key = Guarded::new(&[!guard; 16], guard);
    let answer = through_c(request, &mut lent, list.len(), &mut key);
    assert!(lent.guards_unchanged() && key.guards_unchanged(), "guards changed: {}", line(request, list));
    let past = (SIZE * super::model::senders::COUNTED).min(bytes.len());
    assert_eq!(lent.content()[past..], bytes[past..], "places past the 64th: {}", line(request, list));
    let list = lent.content().chunks(SIZE).map(|record| Record::of_bytes(&record[..FIELDS])).collect();
    let given: [u8; 16] = std::array::from_fn(|i| key.content()[i]);
    Done { answer, list, key: (given != [!guard; 16]).then_some(given) }
}

fn through_c(request: &Request, list: &mut Guarded, count: usize, key: &mut Guarded) -> u64 {
    let senders = list.pointer_mut().cast();
    let half = |key: [u8; 16], from: usize| u64::from_le_bytes(std::array::from_fn(|i| key[from + i]));
    // SAFETY: the pointer is that of a live list of so many records of 16 bytes, aligned to 8, the key has its 16 places, and
    // they do not overlap.
    unsafe {
        match *request {
            Request::Ask { key: asked, active, sender, number, counter } => sys::nwk_inbound_network_key(
                half(asked, 0),
                half(asked, 8),
                active,
                senders,
                count,
                sender,
                number,
                counter,
                key.pointer_mut().cast(),
            ),
            Request::Note { sender, counter } => sys::nwk_note_inbound_frame_counter(senders, count, sender, counter),
            Request::Forget { sender } => sys::nwk_forget_sender(senders, count, sender),
        }
    }
}

/// The call as one line, for a report.
pub fn line(request: &Request, list: &[Record]) -> String {
    let records: Vec<String> = list.iter().map(|record| hex(&record.bytes(0)[..FIELDS])).collect();
    format!("{request:X?} over {} records {}", list.len(), records.join(" "))
}
