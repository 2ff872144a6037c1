//! The auxiliary header (document 01, "Frame"): its bytes, and the record of `include/nwk.h`.
use super::refuse;
use crate::support::operations::AUXILIARY_RECORD;

#[derive(Clone, PartialEq, Eq, Debug)]
pub struct Auxiliary {
    pub level: u8,
    pub key_id: u8,
    pub extended_nonce: bool,
    pub verified_counter: bool,
    pub counter: [u8; 4],
    pub ieee: Option<[u8; 8]>,
    pub key_sequence: u8,
}

/// Reads an auxiliary header from the front of bytes: it, and how many bytes it takes. Refusals 9 to 11.
pub fn read(bytes: &[u8]) -> Result<(Auxiliary, usize), u8> {
    refuse(&[(9, bytes.len() < 6)])?;
    let control = bytes[0];
    let extended_nonce = control & 0x20 != 0;
    refuse(&[(10, extended_nonce && bytes.len() < 13), (11, extended_nonce && bytes.len() == 13)])?;
    let length = if extended_nonce { 14 } else { 6 };
    let auxiliary = Auxiliary {
        level: control & 7,
        key_id: control >> 3 & 3,
        extended_nonce,
        verified_counter: control & 0x40 != 0,
        counter: std::array::from_fn(|i| bytes[1 + i]),
        ieee: extended_nonce.then(|| std::array::from_fn(|i| bytes[5 + i])),
        key_sequence: bytes[length - 1],
    };
    Ok((auxiliary, length))
}

impl Auxiliary {
    /// The control byte: bit 7 is 0.
    pub fn control(&self) -> u8 {
        self.level | self.key_id << 3 | u8::from(self.extended_nonce) << 5 | u8::from(self.verified_counter) << 6
    }

    /// The bytes, by the fields present.
    pub fn bytes(&self) -> Vec<u8> {
        let mut bytes = vec![self.control()];
        bytes.extend(self.counter);
        bytes.extend(self.ieee.iter().flatten());
        bytes.push(self.key_sequence);
        bytes
    }

    pub fn at_level(&self, level: u8) -> Auxiliary {
        Auxiliary { level, ..self.clone() }
    }

    /// The extended nonce bit is set exactly if the IEEE is present.
    pub fn agrees(&self) -> bool {
        self.extended_nonce == self.ieee.is_some()
    }
}

/// The auxiliary record; all zeros where there is no auxiliary header.
pub fn record(auxiliary: &Option<Auxiliary>) -> Vec<u8> {
    let Some(a) = auxiliary else {
        return vec![0; AUXILIARY_RECORD];
    };
    let mut record = vec![1, a.level, a.key_id, u8::from(a.extended_nonce), u8::from(a.verified_counter)];
    record.extend(a.counter);
    record.push(u8::from(a.ieee.is_some()));
    record.extend(a.ieee.unwrap_or_default());
    record.push(a.key_sequence);
    record
}

/// The auxiliary header of a record, none where its presence byte is 0, or refusal 13. Document 01 does not speak of
/// records; by docs/DECISIONS.md a byte that its field cannot take is refused. Where the presence byte is 0 there is no
/// field, and no other byte counts.
pub fn of_record(record: &[u8]) -> Result<Option<Auxiliary>, u8> {
    refuse(&[(13, record.len() != AUXILIARY_RECORD)])?;
    if record[0] == 0 {
        return Ok(None);
    }
    let flags = [record[0], record[3], record[4], record[9]].iter().any(|&flag| flag > 1);
    refuse(&[(13, record[1] > 7 || record[2] > 3 || flags)])?;
    Ok(Some(Auxiliary {
        level: record[1],
        key_id: record[2],
        extended_nonce: record[3] == 1,
        verified_counter: record[4] == 1,
        counter: std::array::from_fn(|i| record[5 + i]),
        ieee: (record[9] == 1).then(|| std::array::from_fn(|i| record[10 + i])),
        key_sequence: record[18],
    }))
}
