//! Which protocol a MAC payload is of, by its first byte. In doubt it is a NWK frame, and the codec decides.

/// The bits of a NWK frame control's first byte.
const FRAME_TYPE: u8 = 0x03;
const VERSION: u8 = 0x3C;

const GREEN_POWER_VERSION: u8 = 3;
const INTER_PAN: u8 = 3;

/// The security bit, in the second byte of frame control.
const SECURITY: u8 = 0x02;

/// The kind of a MAC payload that is no Zigbee NWK frame.
pub fn other_protocol(payload: &[u8]) -> Option<&'static str> {
    let first = *payload.first()?;
    let (kind, version) = (first & FRAME_TYPE, (first & VERSION) >> 2);
    match first {
        // Protocol version 3 is Green Power's, whose frame types are 0 and 1.
        _ if version == GREEN_POWER_VERSION && kind <= 1 => Some("Green Power frame"),
        // Dispatches of RFC 4944 and RFC 6282: IPv6, HC1, BC0, IPHC, the first and the further fragments.
        0x41 | 0x42 | 0x50 | 0x60..=0x7F | 0xC0..=0xC7 | 0xE0..=0xE7 => Some("6LoWPAN frame"),
        // Of the mesh dispatches those that would have a NWK version which Zigbee has not used.
        0x80..=0xBF if version == 0 || version > GREEN_POWER_VERSION => Some("6LoWPAN frame"),
        _ => None,
    }
}

/// Whether a NWK frame is an inter-PAN frame: its type is 3 and it is not secured. Its NWK header is then the two bytes of
/// frame control.
pub fn is_inter_pan(frame: &[u8]) -> bool {
    matches!(frame, [first, second, ..] if first & FRAME_TYPE == INTER_PAN && second & SECURITY == 0)
}

#[cfg(test)]
mod tests {
    use super::*;

    /// Each first byte by the tables of the standards: Zigbee Green Power A.1.4.1.2, RFC 4944 5.1 and RFC 6282 3.1.
    #[test]
    fn every_first_byte() {
        for first in 0..=255u8 {
            let green_power = matches!(first & 0x3F, 0x0C | 0x0D);
            let mesh = first >> 6 == 0b10;
            let dispatch =
                matches!(first, 0x41 | 0x42 | 0x50) || first >> 5 == 0b011 || first >> 3 & 0b11011 == 0b11000;
            let zigbee_version = matches!(first >> 2 & 0xF, 1..=3);
            let expected = match () {
                () if green_power => Some("Green Power frame"),
                () if dispatch || mesh && !zigbee_version => Some("6LoWPAN frame"),
                () => None,
            };
            assert_eq!(other_protocol(&[first, 0]), expected, "{first:02X}");
        }
        assert_eq!(other_protocol(&[]), None);
    }

    #[test]
    fn inter_pan_frames() {
        assert!(is_inter_pan(&[0x0B, 0x00]));
        assert!(is_inter_pan(&[0x0B, 0x00, 0x0B]));
        assert!(!is_inter_pan(&[0x0B, 0x02, 0x00]));
        assert!(!is_inter_pan(&[0x0B]));
        assert!(!is_inter_pan(&[0x08, 0x00]));
    }
}
