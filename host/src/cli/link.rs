//! What a capture puts around a MAC frame, by its link type.

/// The link types of IEEE 802.15.4 that are read.
const WITH_FCS: u32 = 195;
pub const WITH_PHY_HEADER: u32 = 215;
const WITHOUT_FCS: u32 = 230;
pub const TAP: u32 = 283;

/// The preamble, the start of frame and the frame's length.
const PHY_HEADER: usize = 6;

/// The type of the field of a TAP header that has the kind of FCS.
const TAP_FCS: u16 = 0;

/// The frame check sequence at a frame's end.
#[derive(Debug, Clone, Copy, PartialEq)]
pub enum Fcs {
    None,
    Two,
    Four,
}

impl Fcs {
    pub fn of_length(bytes: u32) -> Self {
        match bytes {
            0 => Self::None,
            4 => Self::Four,
            _ => Self::Two,
        }
    }
}

/// The link type of a record, and what the capture says of its FCS.
#[derive(Debug, Clone, Copy, PartialEq)]
pub struct Link {
    pub link_type: u32,
    pub fcs: Option<Fcs>,
}

impl Link {
    pub const KNOWN: &'static str = "only IEEE 802.15.4 is read, link types 195, 215, 230 and 283";

    /// A link type of which nothing more is said.
    pub fn of(link_type: u32) -> Self {
        Self { link_type, fcs: None }
    }

    pub fn is_known(self) -> bool {
        matches!(self.link_type, WITH_FCS | WITH_PHY_HEADER | WITHOUT_FCS | TAP)
    }

    /// The MAC frame of a record with its FCS, and which FCS it has; an error is the kind of what is none.
    pub fn mac_frame(self, bytes: &[u8]) -> Result<(&[u8], Fcs), String> {
        match self.link_type {
            WITH_FCS => Ok((bytes, Fcs::Two)),
            WITHOUT_FCS => Ok((bytes, Fcs::None)),
            WITH_PHY_HEADER => behind_phy_header(bytes, self.fcs.unwrap_or(Fcs::Two)),
            TAP => behind_tap_header(bytes),
            other => Err(format!("record of link type {other}")),
        }
    }
}

fn behind_phy_header(bytes: &[u8], fcs: Fcs) -> Result<(&[u8], Fcs), String> {
    let Some((header, behind)) = bytes.split_at_checked(PHY_HEADER) else {
        return Err("record whose PHY header is not whole".to_string());
    };
    let length = usize::from(header[PHY_HEADER - 1] & 0x7F);
    Ok((behind.get(..length).unwrap_or(behind), fcs))
}

/// A TAP header has a version, a reserved byte and its own length, then fields of a type, a length and a value.
fn behind_tap_header(bytes: &[u8]) -> Result<(&[u8], Fcs), String> {
    let word = |at: usize| Some(u16::from_le_bytes([*bytes.get(at)?, *bytes.get(at + 1)?]));
    let length = word(2).map_or(0, usize::from);
    let Some(frame) = bytes.get(length..).filter(|_| length >= 4 && bytes[0] == 0) else {
        return Err("record whose TAP header is not whole".to_string());
    };
    let mut fcs = Fcs::None;
    let mut at = 4;
    while let (Some(kind), Some(size)) = (word(at), word(at + 2)) {
        if at + 4 > length {
            break;
        }
        if kind == TAP_FCS && size > 0 && at + 4 < length {
            fcs = match bytes[at + 4] {
                0 => Fcs::None,
                1 => Fcs::Two,
                _ => Fcs::Four,
            };
        }
        at += 4 + usize::from(size).next_multiple_of(4);
    }
    Ok((frame, fcs))
}
