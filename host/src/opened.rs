//! What opening gives of a frame: a sealed one, or a clear one.
use crate::refusal::{is_clear, length};
use crate::{sys, Eui64, NwkAuxHeader, NwkHeader, OpenedRecord, Refusal};

/// A frame as opened, with its mark: whether it was sealed. [`open`](crate::open) gives it, and
/// [`open_burst`](crate::open_burst) one for each frame.
///
/// A payload stands in one place if the frame was sealed and in another if it was clear, and only a sealed one is
/// authenticated. So there is no way to the payload but through the mark:
///
/// ```compile_fail,E0609
/// # use store_reader::{open, Network, Refusal, MAX_PAYLOAD};
/// # fn payload(network: &Network, frame: &[u8]) -> Result<usize, Refusal> {
/// let mut out = [0; MAX_PAYLOAD];
/// let opened = open(network, frame, &mut out)?;
/// Ok(opened.payload.len())
/// # }
/// ```
#[derive(Debug, Clone, PartialEq, Eq)]
pub enum Opened<'a> {
    /// The frame was sealed, and its headers and payload are authenticated.
    Sealed(OpenedFrame<'a>),
    /// The frame was clear, its security bit off: anyone may have sent it.
    Clear(ClearFrame<'a>),
}

/// A sealed frame as opened: its headers, the auxiliary one with the level received, the nonce's address and its payload.
#[derive(Debug, Clone, PartialEq, Eq)]
pub struct OpenedFrame<'a> {
    /// The NWK header.
    pub header: NwkHeader,
    /// The auxiliary header.
    pub auxiliary: NwkAuxHeader,
    /// The long address that the nonce used, the sender's: the auxiliary header's, else the header's source.
    pub nonce_ieee: Eui64,
    /// The bytes that were sealed, at the front of the output. The frame's type says what they are:
    /// [`NwkFrameType::payload`](crate::NwkFrameType::payload).
    pub payload: &'a [u8],
}

/// A clear frame: its header and its payload. No key was used and nobody vouches for either.
#[derive(Debug, Clone, PartialEq, Eq)]
pub struct ClearFrame<'a> {
    /// The NWK header.
    pub header: NwkHeader,
    /// The last bytes of the frame, behind its header. The frame's type says what they are, as of a sealed frame:
    /// [`NwkFrameType::payload`](crate::NwkFrameType::payload). Those of type 1 are a command, for
    /// [`NwkCommand::read`](crate::NwkCommand::read).
    pub payload: &'a [u8],
}

impl<'a> Opened<'a> {
    /// The frame if it was sealed, none if it was clear.
    #[must_use]
    pub fn sealed(self) -> Option<OpenedFrame<'a>> {
        match self {
            Self::Sealed(frame) => Some(frame),
            Self::Clear(_) => None,
        }
    }

    /// The frame if it was clear, none if it was sealed.
    #[must_use]
    pub fn clear(self) -> Option<ClearFrame<'a>> {
        match self {
            Self::Sealed(_) => None,
            Self::Clear(frame) => Some(frame),
        }
    }

    /// The NWK header, which both have. That of a clear frame is only claimed.
    #[must_use]
    pub fn header(&self) -> &NwkHeader {
        match self {
            Self::Sealed(frame) => &frame.header,
            Self::Clear(frame) => &frame.header,
        }
    }

    /// The frame of a record that the codec filled in, or the record's refusal.
    pub(crate) fn from_record(record: &OpenedRecord, frame: &'a [u8], out: &'a [u8]) -> Result<Self, Refusal> {
        let is_sealed = record.is_sealed()?;
        let payload = payload(record, frame, out)?;
        match (is_sealed, record.headers()?, record.nonce_ieee()) {
            (true, (header, Some(auxiliary)), Some(nonce_ieee)) => {
                Ok(Self::Sealed(OpenedFrame { header, auxiliary, nonce_ieee, payload }))
            }
            (false, (header, None), None) => Ok(Self::Clear(ClearFrame { header, payload })),
            _ => Err(Refusal::INTERNAL),
        }
    }
}

/// The payload of a record, in the frame or the output as the codec says.
fn payload<'a>(record: &OpenedRecord, frame: &'a [u8], out: &'a [u8]) -> Result<&'a [u8], Refusal> {
    // SAFETY: numbers go in and one comes out.
    let place = unsafe { sys::nwk_payload_place(record.mark(), record.length() as u64, frame.len() as u64) };
    let n = length(place)?;
    let first = usize::from(place.to_le_bytes()[6]);
    let bytes = if is_clear(place) { frame } else { out };
    bytes.get(first..first + n).ok_or(Refusal::INTERNAL)
}

#[cfg(test)]
mod tests {
    use super::*;

    /// Offsets of an opened record, as `include/nwk.h` has them.
    const REFUSAL: usize = 0;
    const MARK: usize = 1;
    const LENGTH: usize = 2;
    const HAS_NONCE_IEEE: usize = 5;
    const NONCE_IEEE: usize = 6;
    const AUXILIARY: usize = 163;

    const FRAME: [u8; 9] = [0x08, 0, 0, 0, 0x34, 0x12, 0x1E, 7, 0xAA];

    /// What is made of a record of zeros with these bytes put in.
    fn made<'a>(bytes: &[(usize, u8)], out: &'a [u8]) -> Result<Opened<'a>, Refusal> {
        let mut record = OpenedRecord::new();
        for (at, byte) in bytes {
            record.0[*at] = *byte;
        }
        Opened::from_record(&record, &FRAME, out)
    }

    #[test]
    fn a_payload_is_taken_from_where_the_mark_says() {
        let out = [0x55; 3];
        let bytes = [(MARK, 2), (LENGTH, 2), (HAS_NONCE_IEEE, 1), (NONCE_IEEE + 7, 9), (AUXILIARY, 1)];
        let sealed = made(&bytes, &out).unwrap().sealed().unwrap();
        assert_eq!(sealed.payload.as_ptr_range(), out[..2].as_ptr_range());
        assert_eq!(sealed.nonce_ieee, Eui64([0, 0, 0, 0, 0, 0, 0, 9]));
        let clear = made(&[(MARK, 1), (LENGTH, 1)], &[]).unwrap().clear().unwrap();
        assert_eq!(clear.payload, [0xAA]);
        assert_eq!(made(&[(REFUSAL, 19)], &out), Err(Refusal::WRONG_MIC));
    }

    /// Marks that do not fit the refusal, the nonce's address or the auxiliary header, and lengths past the output or the frame.
    #[test]
    fn records_that_the_codec_never_fills_in() {
        for bytes in [
            &[(AUXILIARY, 1)][..],
            &[(LENGTH, 1)],
            &[(MARK, 3), (AUXILIARY, 1)],
            &[(REFUSAL, 19), (MARK, 2)],
            &[(REFUSAL, 2), (MARK, 1)],
            &[(MARK, 2)],
            &[(MARK, 2), (AUXILIARY, 1)],
            &[(MARK, 2), (HAS_NONCE_IEEE, 1)],
            &[(MARK, 1), (AUXILIARY, 1)],
            &[(MARK, 1), (HAS_NONCE_IEEE, 1)],
            &[(MARK, 2), (LENGTH, 4), (HAS_NONCE_IEEE, 1), (AUXILIARY, 1)],
            &[(MARK, 1), (LENGTH, 10)],
        ] {
            assert_eq!(made(bytes, &[0x55; 3]), Err(Refusal::INTERNAL), "{bytes:?}");
        }
    }
}
