//! Reading, writing, sealing and opening frames.
use crate::header::Records;
use crate::refusal::{is_clear, length};
use crate::{sys, Network, NwkAuxHeader, NwkHeader, Opened, OpenedRecord, Refusal};

/// A frame as read: its headers, and what is behind them. Behind an auxiliary header that is ciphertext with MIC, else
/// the payload.
#[derive(Debug, Clone, PartialEq, Eq)]
pub struct NwkFrame<'a> {
    /// The NWK header.
    pub header: NwkHeader,
    /// The auxiliary header, which a frame has exactly if its security bit is set.
    pub auxiliary: Option<NwkAuxHeader>,
    /// The bytes behind the headers.
    pub rest: &'a [u8],
}

/// Reads a frame without a key.
///
/// ```
/// use store_reader::{read, Nwk};
///
/// let frame = read(&[0x08, 0x00, 0x00, 0x00, 0x34, 0x12, 0x1E, 0x07, 0xAA])?;
/// assert_eq!(frame.header.source, Nwk(0x1234));
/// assert_eq!((frame.auxiliary, frame.rest), (None, &[0xAA][..]));
/// # Ok::<(), store_reader::Refusal>(())
/// ```
///
/// # Errors
///
/// Refusals 1 to 12.
pub fn read(frame: &[u8]) -> Result<NwkFrame<'_>, Refusal> {
    let mut records = Records::new();
    // SAFETY: each pointer goes with the length of its slice, and no two slices overlap.
    let answer = unsafe {
        sys::nwk_read_frame(
            frame.as_ptr(),
            frame.len(),
            records.header.as_mut_ptr(),
            records.header.len(),
            records.auxiliary.as_mut_ptr(),
            records.auxiliary.len(),
        )
    };
    let n = length(answer)?;
    let (header, auxiliary) = records.headers()?;
    Ok(NwkFrame { header, auxiliary, rest: frame.get(n..).unwrap_or(&[]) })
}

/// Writes a frame without a key, header and payload, to the front of the output, and gives its length.
///
/// ```
/// use store_reader::{write, Nwk, NwkFrameType, NwkHeader, Refusal, MAX_FRAME};
///
/// let header = NwkHeader::new(NwkFrameType::Data, Nwk(0x1234), Nwk(0x0000));
/// let mut out = [0; MAX_FRAME];
/// let n = write(&header, &[0xAA], &mut out)?;
/// assert_eq!(&out[..n], [0x08, 0x00, 0x00, 0x00, 0x34, 0x12, 0x1E, 0x00, 0xAA]);
/// assert_eq!(write(&header, &[0xAA], &mut out[..8]), Err(Refusal::NO_ROOM));
/// # Ok::<(), Refusal>(())
/// ```
///
/// # Errors
///
/// Refusals 13, 28, 17, 18. The security bit is not looked at; of 28 [`NwkHeader::disagreement`] tells the bit.
pub fn write(header: &NwkHeader, payload: &[u8], out: &mut [u8]) -> Result<usize, Refusal> {
    let record = header.record();
    // SAFETY: each pointer goes with the length of its slice, and no two slices overlap.
    length(unsafe {
        sys::nwk_write_frame(
            record.as_ptr(),
            record.len(),
            payload.as_ptr(),
            payload.len(),
            out.as_mut_ptr(),
            out.len(),
        )
    })
}

/// Seals a frame to the front of the output, and gives its length. The header has its security bit set ([`NwkHeader::secured`]) and
/// its presence bits agree with its fields. The network's level is authenticated and 0 is sent, whatever level the auxiliary header
/// has. The caller sees to it that no frame counter is sealed twice under one key by one device: two such frames repeat the key
/// stream.
///
/// ```
/// use store_reader::{
///     open, seal, Eui64, Level, Network, Nwk, NwkAuxHeader, NwkFrameType, NwkHeader, Refusal, MAX_FRAME, MAX_PAYLOAD,
/// };
///
/// let network = Network::new("C0C1C2C3C4C5C6C7C8C9CACBCCCDCECF".parse().unwrap());
/// let header = NwkHeader::new(NwkFrameType::Data, Nwk(0x1234), Nwk(0x0000)).secured();
/// let auxiliary = NwkAuxHeader::new(0x12345, Eui64([1, 2, 3, 4, 5, 6, 7, 8]));
///
/// let mut frame = [0; MAX_FRAME];
/// let n = seal(&network, &header, Some(&auxiliary), b"21.5 C", &mut frame)?;
/// assert_eq!(n, 8 + 14 + 6 + 4);
///
/// let last = NwkAuxHeader { frame_counter: u32::MAX, ..auxiliary };
/// assert_eq!(seal(&network, &header, Some(&last), b"21.5 C", &mut frame), Err(Refusal::LAST_COUNTER));
///
/// let mut out = [0; MAX_PAYLOAD];
/// let opened = open(&network, &frame[..n], &mut out)?.sealed().expect("a sealed frame");
/// assert_eq!((&opened.header, opened.auxiliary, opened.payload), (&header, auxiliary, &b"21.5 C"[..]));
///
/// frame[n - 1] ^= 1;
/// assert_eq!(open(&network, &frame[..n], &mut out), Err(Refusal::WRONG_MIC));
///
/// // At level 7 the MIC has 16 bytes.
/// let (network, next) = (network.with_level(Level::EncMic128), NwkAuxHeader { frame_counter: 0x12346, ..auxiliary });
/// assert_eq!(seal(&network, &header, Some(&next), b"21.5 C", &mut frame), Ok(8 + 14 + 6 + 16));
/// # Ok::<(), Refusal>(())
/// ```
///
/// # Errors
///
/// Refusals 13, 28, 14, 15, 21, 17, 18, in this order: a counter of [`u32::MAX`] is not sealed, however long the payload. 28 for
/// the extended nonce bit comes between 14 and 15; [`NwkHeader::disagreement_in_sealing`] tells the bit.
pub fn seal(
    network: &Network,
    header: &NwkHeader,
    auxiliary: Option<&NwkAuxHeader>,
    payload: &[u8],
    out: &mut [u8],
) -> Result<usize, Refusal> {
    let (level, first, second) = network.numbers();
    let header = header.record();
    let auxiliary = NwkAuxHeader::record(auxiliary);
    // SAFETY: each pointer goes with the length of its slice, and no two slices overlap.
    length(unsafe {
        sys::nwk_seal(
            level,
            first,
            second,
            header.as_ptr(),
            header.len(),
            auxiliary.as_ptr(),
            auxiliary.len(),
            payload.as_ptr(),
            payload.len(),
            out.as_mut_ptr(),
            out.len(),
        )
    })
}

/// Opens a frame, and says whether it was sealed or clear. Look at that mark first: it says where the payload is, and whether
/// it is authenticated.
///
/// - A sealed frame's payload is authenticated, and stands at the front of the output, of which
///   [`MAX_PAYLOAD`](crate::MAX_PAYLOAD) bytes are always enough.
/// - A clear frame has its security bit off. Its payload is a part of the frame; the key is not used and the output is not
///   touched, so the payload may be longer than the output, which may be empty. Anyone may have sent it. If the frame's type is
///   1 it is a command, to be read apart.
///
/// ```
/// use store_reader::{
///     open, seal, write, Eui64, Network, Nwk, NwkAuxHeader, NwkFrameType, NwkHeader, Opened, Refusal, MAX_FRAME, MAX_PAYLOAD,
/// };
///
/// let network = Network::new("C0C1C2C3C4C5C6C7C8C9CACBCCCDCECF".parse().unwrap());
/// let header = NwkHeader::new(NwkFrameType::Data, Nwk(0x1234), Nwk(0x0000));
/// let (mut sealed, mut clear) = ([0; MAX_FRAME], [0; MAX_FRAME]);
/// let m = write(&header, b"new here", &mut clear)?;
/// let auxiliary = NwkAuxHeader::new(1, Eui64([1, 2, 3, 4, 5, 6, 7, 8]));
/// let n = seal(&network, &header.secured(), Some(&auxiliary), b"21.5 C", &mut sealed)?;
///
/// let mut out = [0; MAX_PAYLOAD];
/// match open(&network, &sealed[..n], &mut out)? {
///     Opened::Sealed(frame) => assert_eq!(frame.payload, b"21.5 C"),
///     Opened::Clear(_) => panic!("it was sealed"),
/// }
///
/// // A clear frame needs no output, and is no authenticated one.
/// let opened = open(&network, &clear[..m], &mut [])?;
/// assert_eq!(opened.clone().sealed(), None);
/// assert_eq!(opened.clear().map(|frame| frame.payload), Some(&b"new here"[..]));
/// # Ok::<(), Refusal>(())
/// ```
///
/// [`open_burst`](crate::open_burst) opens several frames at once.
///
/// # Errors
///
/// Refusals 1 to 12; of a sealed frame also 15, 16, 18, 19.
pub fn open<'a>(network: &Network, frame: &'a [u8], out: &'a mut [u8]) -> Result<Opened<'a>, Refusal> {
    let (level, first, second) = network.numbers();
    let mut record = OpenedRecord::new();
    // SAFETY: each pointer goes with the length of its slice, and no two slices overlap.
    let answer = unsafe {
        sys::nwk_open(
            level,
            first,
            second,
            frame.as_ptr(),
            frame.len(),
            record.0.as_mut_ptr(),
            record.0.len(),
            out.as_mut_ptr(),
            out.len(),
        )
    };
    length(answer)?;
    let opened = Opened::from_record(&record, frame, out)?;
    match is_clear(answer) == matches!(opened, Opened::Clear(_)) {
        true => Ok(opened),
        false => Err(Refusal::INTERNAL),
    }
}
