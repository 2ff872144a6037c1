//! IEEE 802.15.4 MAC frames: their addresses, and what they carry.
use std::fmt;
use store_reader::{Eui64, Nwk, PanId};

/// A MAC address.
#[derive(Debug, Clone, Copy, PartialEq, Eq)]
pub enum MacAddress {
    Short(Nwk),
    Long(Eui64),
}

impl fmt::Display for MacAddress {
    fn fmt(&self, f: &mut fmt::Formatter<'_>) -> fmt::Result {
        match self {
            Self::Short(address) => address.fmt(f),
            Self::Long(address) => address.fmt(f),
        }
    }
}

/// The addresses of a MAC frame, as far as it has them.
#[derive(Debug, Clone, Copy, Default, PartialEq, Eq)]
pub struct MacHeader {
    /// The destination's PAN identifier, or the source's where the frame has that alone.
    pub pan: Option<PanId>,
    /// The source's PAN identifier where it is another.
    pub source_pan: Option<PanId>,
    pub source: Option<MacAddress>,
    pub destination: Option<MacAddress>,
}

/// What the frame check sequence says of a frame.
#[derive(Debug, Clone, Copy, Default, PartialEq, Eq)]
pub enum Check {
    /// There is none.
    #[default]
    Missing,
    Right,
    Wrong,
}

impl Check {
    /// Whether the sequence is the one that was computed.
    pub fn of(is_right: bool) -> Self {
        match is_right {
            true => Self::Right,
            false => Self::Wrong,
        }
    }
}

/// What a MAC frame carries: a payload, or the kind of frame that has none for the layers above.
#[derive(Debug, PartialEq)]
pub enum Carried<'a> {
    Payload(&'a [u8]),
    Nothing(&'static str),
}

const SECURITY_BIT: u16 = 1 << 3;
const PAN_COMPRESSION_BIT: u16 = 1 << 6;

/// Reads the MAC header of a frame that has no FCS any more.
pub fn mac_frame(frame: &[u8]) -> (MacHeader, Carried<'_>) {
    let &[low, high, _sequence, ref behind @ ..] = frame else {
        return (MacHeader::default(), Carried::Nothing("MAC frame of fewer than 3 bytes"));
    };
    let control = u16::from_le_bytes([low, high]);
    let addressed = if control >> 12 & 3 > 1 { None } else { addresses(control, behind) };
    let header = addressed.map_or_else(MacHeader::default, |(header, _)| header);
    let carried = match (control & 7, addressed) {
        (0, _) => Carried::Nothing("MAC beacon"),
        (2, _) => Carried::Nothing("MAC acknowledgement"),
        (3, _) => Carried::Nothing("MAC command"),
        (4.., _) => Carried::Nothing("MAC frame of another type"),
        _ if control & SECURITY_BIT != 0 => Carried::Nothing("MAC frame with MAC security"),
        _ if control >> 12 & 3 > 1 => Carried::Nothing("MAC frame of another version"),
        (_, Some((_, []))) => Carried::Nothing("MAC data frame without a payload"),
        (_, Some((_, payload))) => Carried::Payload(payload),
        (_, None) => Carried::Nothing("MAC frame whose addresses are not whole"),
    };
    (header, carried)
}

/// The addresses at the front of the bytes, and what is behind them; none where they are not whole or of the reserved kind.
fn addresses(control: u16, bytes: &[u8]) -> Option<(MacHeader, &[u8])> {
    let (destination_mode, source_mode) = (control >> 10 & 3, control >> 14 & 3);
    let compressed = control & PAN_COMPRESSION_BIT != 0 && destination_mode != 0;
    let (destination_pan, bytes) = pan(destination_mode != 0, bytes)?;
    let (destination, bytes) = address(destination_mode, bytes)?;
    let (source_pan, bytes) = pan(source_mode != 0 && !compressed, bytes)?;
    let (source, bytes) = address(source_mode, bytes)?;
    let pan = destination_pan.or(source_pan);
    Some((MacHeader { pan, source_pan: source_pan.filter(|_| source_pan != pan), source, destination }, bytes))
}

fn pan(present: bool, bytes: &[u8]) -> Option<(Option<PanId>, &[u8])> {
    match bytes {
        _ if !present => Some((None, bytes)),
        [low, high, behind @ ..] => Some((Some(PanId(u16::from_le_bytes([*low, *high]))), behind)),
        _ => None,
    }
}

fn address(mode: u16, bytes: &[u8]) -> Option<(Option<MacAddress>, &[u8])> {
    match (mode, bytes) {
        (0, _) => Some((None, bytes)),
        (2, [low, high, behind @ ..]) => {
            Some((Some(MacAddress::Short(Nwk(u16::from_le_bytes([*low, *high])))), behind))
        }
        (3, [a, b, c, d, e, f, g, h, behind @ ..]) => {
            Some((Some(MacAddress::Long(Eui64([*a, *b, *c, *d, *e, *f, *g, *h]))), behind))
        }
        _ => None,
    }
}

/// The frame check sequence of IEEE 802.15.4: CRC-16 with polynomial `x^16 + x^12 + x^5 + 1`, lowest bit first, from 0.
pub fn fcs(bytes: &[u8]) -> u16 {
    let fours = bytes.chunks_exact(4);
    let rest = fours.remainder();
    let of = |zeros: usize, byte: u8| FCS_OF_BYTES[zeros][usize::from(byte)];
    let crc = fours.fold(0u16, |crc, four| {
        let [low, high] = crc.to_le_bytes();
        of(3, four[0] ^ low) ^ of(2, four[1] ^ high) ^ of(1, four[2]) ^ of(0, four[3])
    });
    rest.iter().fold(crc, |crc, byte| crc >> 8 ^ of(0, crc as u8 ^ byte))
}

/// The frame check sequence of each byte with 0 to 3 zeros behind it, so that four bytes are taken in one step.
static FCS_OF_BYTES: [[u16; 256]; 4] = {
    let mut tables = [[0; 256]; 4];
    let mut byte = 0;
    while byte < 256 {
        let mut crc = byte as u16;
        let mut bit = 0;
        while bit < 32 {
            crc = if crc & 1 == 1 { crc >> 1 ^ 0x8408 } else { crc >> 1 };
            bit += 1;
            if bit % 8 == 0 {
                tables[bit / 8 - 1][byte] = crc;
            }
        }
        byte += 1;
    }
    tables
};

/// The longer frame check sequence of IEEE 802.15.4-2015: the CRC-32 that Ethernet has.
pub fn fcs_of_four(bytes: &[u8]) -> u32 {
    let mut crc = u32::MAX;
    for byte in bytes {
        crc ^= u32::from(*byte);
        for _ in 0..8 {
            crc = if crc & 1 == 1 { crc >> 1 ^ 0xEDB8_8320 } else { crc >> 1 };
        }
    }
    !crc
}

#[cfg(test)]
mod tests {
    use super::*;

    /// An acknowledgement and its FCS, the example of IEEE 802.15.4-2006, 7.2.1.9.
    #[test]
    fn fcs_of_the_standards_example() {
        assert_eq!(fcs(&[0x02, 0x00, 0x6A]), u16::from_le_bytes([0xE4, 0x79]));
    }

    /// The check value that catalogues of CRCs give for CRC-16/KERMIT, of the digits 1 to 9, and each length bit by bit.
    #[test]
    fn fcs_in_steps_of_four_bytes() {
        assert_eq!(fcs(b"123456789"), 0x2189);
        let bytes: Vec<u8> = (0..20).map(|n: u8| n.wrapping_mul(151)).collect();
        let step = |crc: u16, bit: u16| if (crc ^ bit) & 1 == 1 { crc >> 1 ^ 0x8408 } else { crc >> 1 };
        for length in 0..=bytes.len() {
            let bits = (0..8 * length).map(|at| u16::from(bytes[at / 8]) >> (at % 8) & 1);
            assert_eq!(fcs(&bytes[..length]), bits.fold(0, step), "{length} bytes");
        }
    }

    /// The check value that catalogues of CRCs give for CRC-32, of the digits 1 to 9.
    #[test]
    fn fcs_of_four_bytes() {
        assert_eq!(fcs_of_four(b"123456789"), 0xCBF4_3926);
    }

    #[test]
    fn headers_of_every_addressing() {
        let coordinator = Some(MacAddress::Short(Nwk(0)));
        let probe = Some(MacAddress::Short(Nwk(0xABCD)));
        let pan = Some(PanId(0x1234));
        let short = [0x61, 0x88, 1, 0x34, 0x12, 0, 0, 0xCD, 0xAB, 0x48];
        let header = MacHeader { pan, source_pan: None, source: probe, destination: coordinator };
        assert_eq!(mac_frame(&short), (header, Carried::Payload(&[0x48])));
        let same_pans = [0x21, 0x88, 1, 0x34, 0x12, 0, 0, 0x34, 0x12, 0xCD, 0xAB, 0x48];
        assert_eq!(mac_frame(&same_pans), (header, Carried::Payload(&[0x48])));
        let other_pans = [0x21, 0x88, 1, 0x34, 0x12, 0, 0, 0x78, 0x56, 0xCD, 0xAB, 0x48];
        let header = MacHeader { source_pan: Some(PanId(0x5678)), ..header };
        assert_eq!(mac_frame(&other_pans), (header, Carried::Payload(&[0x48])));
        let long = [0x61, 0xCC, 1, 0x34, 0x12, 1, 2, 3, 4, 5, 6, 7, 8, 9, 2, 3, 4, 5, 6, 7, 8, 0x48];
        let header = MacHeader {
            pan,
            source_pan: None,
            source: Some(MacAddress::Long(Eui64([9, 2, 3, 4, 5, 6, 7, 8]))),
            destination: Some(MacAddress::Long(Eui64([1, 2, 3, 4, 5, 6, 7, 8]))),
        };
        assert_eq!(mac_frame(&long), (header, Carried::Payload(&[0x48])));
        let no_source = [0x01, 0x08, 1, 0x34, 0x12, 0xFF, 0xFF, 0x48];
        let everyone = Some(MacAddress::Short(Nwk(0xFFFF)));
        let header = MacHeader { pan, source_pan: None, source: None, destination: everyone };
        assert_eq!(mac_frame(&no_source), (header, Carried::Payload(&[0x48])));
    }

    #[test]
    fn frames_without_a_payload() {
        for (frame, kind) in [
            (&[0x02, 0x00, 0x6A][..], "MAC acknowledgement"),
            (&[0x00, 0x80, 0x01], "MAC beacon"),
            (&[0x63, 0x88, 0x01], "MAC command"),
            (&[0x05, 0x00, 0x01], "MAC frame of another type"),
            (&[0x09, 0x00, 0x01], "MAC frame with MAC security"),
            (&[0x01, 0x20, 0x01], "MAC frame of another version"),
            (&[0x01, 0x04, 0x01], "MAC frame whose addresses are not whole"),
            (&[0x61, 0x88, 0x01, 0x34], "MAC frame whose addresses are not whole"),
            (&[0x61, 0x88, 1, 0x34, 0x12, 0, 0, 0xCD, 0xAB], "MAC data frame without a payload"),
            (&[0x61, 0x88], "MAC frame of fewer than 3 bytes"),
        ] {
            assert_eq!(mac_frame(frame).1, Carried::Nothing(kind));
        }
    }
}
