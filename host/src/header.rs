//! The NWK header and the auxiliary header.
use crate::codes::codes;
use crate::record::{Putter, Taker};
use crate::refusal::{accepted, length};
use crate::{sys, Eui64, List, Nwk, Refusal};
use core::fmt;

const HEADER_RECORD: usize = 147;
const AUXILIARY_RECORD: usize = 19;
const OPENED_RECORD: usize = 182;

/// Where an opened record has its mark, the payload's length, and the header record with the auxiliary record behind it.
const OPENED_MARK_AT: usize = 1;
const OPENED_LENGTH_AT: usize = 2;
const OPENED_NONCE_IEEE_AT: usize = 5;
const OPENED_HEADER_AT: usize = 16;

/// The marks of an opened record: that of a refused frame, of a clear one and of a sealed one.
const MARK_NONE: u8 = 0;
const MARK_CLEAR: u8 = 1;
const MARK_SEALED: u8 = 2;

/// How many relays a source route has places for.
const RELAY_PLACES: usize = 54;

codes! {
    /// What a frame carries.
    NwkFrameType {
        /// A payload for the layer above.
        Data = 0,
        /// A NWK command.
        Command = 1,
        /// A frame between networks. By the standard its NWK header is the frame control alone; the codec, as the Rust,
        /// reads a whole one.
        Interpan = 3,
    }
}

/// What a payload is; [`NwkFrameType::payload`] says it.
#[derive(Debug, Clone, Copy, PartialEq, Eq, PartialOrd, Ord, Hash)]
pub enum NwkPayload {
    /// Bytes for the layer above.
    Opaque,
    /// A NWK command, for [`NwkCommand::read`](crate::NwkCommand::read).
    Command,
}

impl NwkFrameType {
    /// What the payload of a frame of this type is.
    ///
    /// ```
    /// use store_reader::{NwkFrameType, NwkPayload};
    ///
    /// assert_eq!(NwkFrameType::Command.payload(), Ok(NwkPayload::Command));
    /// assert_eq!(NwkFrameType::Data.payload(), Ok(NwkPayload::Opaque));
    /// assert_eq!(NwkFrameType::Interpan.payload(), Ok(NwkPayload::Opaque));
    /// ```
    ///
    /// # Errors
    ///
    /// None of the list; [`Refusal::INTERNAL`] for an archive of another version.
    pub fn payload(self) -> Result<NwkPayload, Refusal> {
        // SAFETY: the function takes a number.
        match length(unsafe { sys::nwk_payload_kind(self.code()) }) {
            Ok(0) => Ok(NwkPayload::Opaque),
            Ok(1) => Ok(NwkPayload::Command),
            _ => Err(Refusal::INTERNAL),
        }
    }
}

codes! {
    /// How a route may be looked for.
    NwkRouteDiscovery {
        /// No route is looked for.
        Suppress = 0,
        /// A route is looked for where none is known.
        Enable = 1,
        /// Reserved by the standard, and read as the Rust does.
        WithMulticast = 2,
    }
}

codes! {
    /// Which key sealed a frame.
    NwkSecurityHeaderKeyId {
        /// A link key.
        DataKey = 0,
        /// The network key, which seals NWK frames.
        NetworkKey = 1,
        /// The key that transports another.
        KeyTransportKey = 2,
        /// The key that loads another.
        KeyLoadKey = 3,
    }
}

codes! {
    /// How a frame is protected, as its auxiliary header says. Sealing authenticates the network's [`Level`](crate::Level) and sends
    /// `NoSecurity`, whatever it is handed.
    NwkSecurityLevel {
        /// Neither; the level that is sent.
        NoSecurity = 0,
        /// A MIC of 4 bytes.
        Mic32 = 1,
        /// A MIC of 8 bytes.
        Mic64 = 2,
        /// A MIC of 16 bytes.
        Mic128 = 3,
        /// Encryption alone.
        Enc = 4,
        /// Encryption and a MIC of 4 bytes.
        EncMic32 = 5,
        /// Encryption and a MIC of 8 bytes.
        EncMic64 = 6,
        /// Encryption and a MIC of 16 bytes.
        EncMic128 = 7,
    }
}

/// Frame control. Writing goes by the fields present, and is refused by 28 where a presence bit disagrees with its field;
/// [`NwkHeader::set_presence_bits`] sets all four.
#[derive(Debug, Clone, Copy, PartialEq, Eq)]
pub struct NwkFrameControl {
    /// What the frame carries.
    pub frame_type: NwkFrameType,
    /// 0 to 15; Zigbee's is 2.
    pub protocol_version: u8,
    /// How a route may be looked for.
    pub discover_route: NwkRouteDiscovery,
    /// The presence bit of the multicast control.
    pub multicast: bool,
    /// Whether the frame is sealed: an auxiliary header follows. Sealing refuses a header without it (28), and writing without a
    /// key writes it as it is.
    pub security: bool,
    /// The presence bit of the source route.
    pub source_route: bool,
    /// The presence bit of the destination's long address.
    pub destination: bool,
    /// The presence bit of the source's long address.
    pub extended_source: bool,
    /// Whether an end device made the frame.
    pub end_device_initiator: bool,
    /// Bits 14 and 15.
    pub reserved1: u8,
}

/// The relays of a frame that is routed by its source, 54 at most.
#[derive(Debug, Clone, PartialEq, Eq)]
pub struct NwkSourceRoute {
    /// Which relay is next; it is not compared with their number.
    pub relay_index: u8,
    /// The relays, the one nearest to the destination first.
    pub relays: List<Nwk, RELAY_PLACES>,
}

/// The NWK header.
///
/// ```
/// use store_reader::{Nwk, NwkHeader};
///
/// let (header, n) = NwkHeader::read(&[0x08, 0x00, 0x00, 0x00, 0x34, 0x12, 0x1E, 0x07, 0xAA])?;
/// assert_eq!((n, header.source, header.radius), (8, Nwk(0x1234), 30));
///
/// let mut out = [0; 118];
/// let n = header.write(&mut out)?;
/// assert_eq!(&out[..n], [0x08, 0x00, 0x00, 0x00, 0x34, 0x12, 0x1E, 0x07]);
/// # Ok::<(), store_reader::Refusal>(())
/// ```
#[derive(Debug, Clone, PartialEq, Eq)]
pub struct NwkHeader {
    /// The frame's type, and the bits that say which fields follow.
    pub frame_control: NwkFrameControl,
    /// Whom the frame is for.
    pub destination: Nwk,
    /// Who made it.
    pub source: Nwk,
    /// How many hops it may still take.
    pub radius: u8,
    /// A number that each of the source's frames raises.
    pub sequence_number: u8,
    /// The destination's long address.
    pub destination_ieee: Option<Eui64>,
    /// The source's long address.
    pub source_ieee: Option<Eui64>,
    /// The multicast control byte.
    pub multicast_control: Option<u8>,
    /// The way that the source has chosen.
    pub source_route: Option<NwkSourceRoute>,
}

impl NwkHeader {
    /// A header of version 2 without optional fields, every bit off. [`with_source_ieee`](Self::with_source_ieee) and the like add
    /// a field with its bit.
    #[must_use]
    pub fn new(frame_type: NwkFrameType, source: Nwk, destination: Nwk) -> Self {
        Self {
            frame_control: NwkFrameControl {
                frame_type,
                protocol_version: 2,
                discover_route: NwkRouteDiscovery::Suppress,
                multicast: false,
                security: false,
                source_route: false,
                destination: false,
                extended_source: false,
                end_device_initiator: false,
                reserved1: 0,
            },
            destination,
            source,
            radius: 30,
            sequence_number: 0,
            destination_ieee: None,
            source_ieee: None,
            multicast_control: None,
            source_route: None,
        }
    }

    /// Reads the header at the front of the bytes, and gives how many bytes it takes.
    ///
    /// # Errors
    ///
    /// Refusals 1 to 8.
    pub fn read(bytes: &[u8]) -> Result<(Self, usize), Refusal> {
        let mut record = [0; HEADER_RECORD];
        // SAFETY: each pointer goes with the length of its slice, and no two slices overlap.
        let answer = unsafe { sys::nwk_read_header(bytes.as_ptr(), bytes.len(), record.as_mut_ptr(), record.len()) };
        let n = length(answer)?;
        Ok((Self::from_record(&record)?, n))
    }

    /// Writes the header to the front of the output, and gives how many bytes it takes.
    ///
    /// # Errors
    ///
    /// Refusals 13, 28, 17, 18; of 28 [`disagreement`](Self::disagreement) tells the bit.
    pub fn write(&self, out: &mut [u8]) -> Result<usize, Refusal> {
        let record = self.record();
        // SAFETY: each pointer goes with the length of its slice, and no two slices overlap.
        length(unsafe { sys::nwk_write_header(record.as_ptr(), record.len(), out.as_mut_ptr(), out.len()) })
    }

    pub(crate) fn from_record(record: &[u8; HEADER_RECORD]) -> Result<Self, Refusal> {
        let mut r = Taker::new(record, 0);
        Ok(Self {
            frame_control: NwkFrameControl {
                frame_type: r.code(NwkFrameType::from_code)?,
                protocol_version: r.byte(),
                discover_route: r.code(NwkRouteDiscovery::from_code)?,
                multicast: r.bit(),
                security: r.bit(),
                source_route: r.bit(),
                destination: r.bit(),
                extended_source: r.bit(),
                end_device_initiator: r.bit(),
                reserved1: r.byte(),
            },
            destination: r.address(),
            source: r.address(),
            radius: r.byte(),
            sequence_number: r.byte(),
            destination_ieee: r.optional(Taker::eui64),
            source_ieee: r.optional(Taker::eui64),
            multicast_control: r.optional(Taker::byte),
            source_route: source_route(&mut r)?,
        })
    }

    pub(crate) fn record(&self) -> [u8; HEADER_RECORD] {
        let mut record = [0; HEADER_RECORD];
        let mut r = Putter::new(&mut record, 0);
        let control = self.frame_control;
        r.byte(control.frame_type.code());
        r.byte(control.protocol_version);
        r.byte(control.discover_route.code());
        r.bit(control.multicast);
        r.bit(control.security);
        r.bit(control.source_route);
        r.bit(control.destination);
        r.bit(control.extended_source);
        r.bit(control.end_device_initiator);
        r.byte(control.reserved1);
        r.address(self.destination);
        r.address(self.source);
        r.byte(self.radius);
        r.byte(self.sequence_number);
        r.optional(self.destination_ieee.map(|address| address.0));
        r.optional(self.source_ieee.map(|address| address.0));
        r.optional(self.multicast_control.map(|control| [control]));
        r.bit(self.source_route.is_some());
        if let Some(route) = &self.source_route {
            // The count stands before the index, and the relays behind it.
            r.count(&route.relays);
            r.byte(route.relay_index);
            for relay in &route.relays {
                r.address(*relay);
            }
        }
        record
    }
}

fn source_route(r: &mut Taker<'_>) -> Result<Option<NwkSourceRoute>, Refusal> {
    let present = r.bit();
    let count = r.byte();
    let route = NwkSourceRoute { relay_index: r.byte(), relays: r.entries(count, Taker::address)? };
    Ok(present.then_some(route))
}

/// The security control byte of an auxiliary header.
#[derive(Debug, Clone, Copy, PartialEq, Eq)]
pub struct NwkSecurityHeaderControlField {
    /// The level as received; what is sent is always level 0.
    pub security_level: NwkSecurityLevel,
    /// Which key sealed the frame.
    pub key_id: NwkSecurityHeaderKeyId,
    /// The presence bit of the long address. Sealing refuses one that disagrees (28); an auxiliary header written alone has it as
    /// it is here.
    pub extended_nonce: bool,
    /// Whether the receiver is to have verified the counter.
    pub require_verified_frame_counter: bool,
}

/// The auxiliary header, which a sealed frame has behind its NWK header.
///
/// ```
/// use store_reader::NwkAuxHeader;
///
/// let (auxiliary, n) = NwkAuxHeader::read(&[0x08, 0x45, 0x23, 0x01, 0x00, 0x00])?;
/// assert_eq!((n, auxiliary.frame_counter, auxiliary.extended_source), (6, 0x12345, None));
/// # Ok::<(), store_reader::Refusal>(())
/// ```
#[derive(Debug, Clone, Copy, PartialEq, Eq)]
pub struct NwkAuxHeader {
    /// The security control byte.
    pub security_control: NwkSecurityHeaderControlField,
    /// A number that each sealed frame of a device raises. Under one key no device may seal two frames with the same one. The last
    /// one, [`u32::MAX`], is not sealed (21), because receivers throw its frames away; opening accepts it.
    pub frame_counter: u32,
    /// The long address of the device that sealed the frame: on each hop the one that sends.
    pub extended_source: Option<Eui64>,
    /// Which of the network's keys sealed the frame.
    pub key_sequence_number: u8,
}

impl NwkAuxHeader {
    /// The auxiliary header of a frame under the network key, with its sender's long address for the nonce.
    #[must_use]
    pub fn new(frame_counter: u32, extended_source: Eui64) -> Self {
        Self::with(frame_counter, Some(extended_source))
    }

    /// The same without the long address, the extended nonce bit off: the nonce has the header's source IEEE.
    #[must_use]
    pub fn without_ieee(frame_counter: u32) -> Self {
        Self::with(frame_counter, None)
    }

    fn with(frame_counter: u32, extended_source: Option<Eui64>) -> Self {
        Self {
            security_control: NwkSecurityHeaderControlField {
                security_level: NwkSecurityLevel::NoSecurity,
                key_id: NwkSecurityHeaderKeyId::NetworkKey,
                extended_nonce: extended_source.is_some(),
                require_verified_frame_counter: false,
            },
            frame_counter,
            extended_source,
            key_sequence_number: 0,
        }
    }

    /// Reads the auxiliary header at the front of the bytes, and gives how many bytes it takes.
    ///
    /// # Errors
    ///
    /// Refusals 1, 9, 10, 11.
    pub fn read(bytes: &[u8]) -> Result<(Self, usize), Refusal> {
        let mut record = [0; AUXILIARY_RECORD];
        // SAFETY: each pointer goes with the length of its slice, and no two slices overlap.
        let answer = unsafe { sys::nwk_read_auxiliary(bytes.as_ptr(), bytes.len(), record.as_mut_ptr(), record.len()) };
        let n = length(answer)?;
        let auxiliary = Self::from_record(&record)?.ok_or(Refusal::INTERNAL)?;
        Ok((auxiliary, n))
    }

    /// Writes the auxiliary header to the front of the output, and gives how many bytes it takes.
    ///
    /// # Errors
    ///
    /// Refusal 18.
    pub fn write(&self, out: &mut [u8]) -> Result<usize, Refusal> {
        let record = Self::record(Some(self));
        // SAFETY: each pointer goes with the length of its slice, and no two slices overlap.
        length(unsafe { sys::nwk_write_auxiliary(record.as_ptr(), record.len(), out.as_mut_ptr(), out.len()) })
    }

    pub(crate) fn from_record(record: &[u8; AUXILIARY_RECORD]) -> Result<Option<Self>, Refusal> {
        let mut r = Taker::new(record, 0);
        if !r.bit() {
            return Ok(None);
        }
        Ok(Some(Self {
            security_control: NwkSecurityHeaderControlField {
                security_level: r.code(NwkSecurityLevel::from_code)?,
                key_id: r.code(NwkSecurityHeaderKeyId::from_code)?,
                extended_nonce: r.bit(),
                require_verified_frame_counter: r.bit(),
            },
            frame_counter: r.long(),
            extended_source: r.optional(Taker::eui64),
            key_sequence_number: r.byte(),
        }))
    }

    pub(crate) fn record(auxiliary: Option<&Self>) -> [u8; AUXILIARY_RECORD] {
        let mut record = [0; AUXILIARY_RECORD];
        let Some(auxiliary) = auxiliary else {
            return record;
        };
        let mut r = Putter::new(&mut record, 0);
        r.bit(true);
        let control = auxiliary.security_control;
        r.byte(control.security_level.code());
        r.byte(control.key_id.code());
        r.bit(control.extended_nonce);
        r.bit(control.require_verified_frame_counter);
        r.bytes(&auxiliary.frame_counter.to_le_bytes());
        r.optional(auxiliary.extended_source.map(|address| address.0));
        r.byte(auxiliary.key_sequence_number);
        record
    }
}

/// Room for a header record and an auxiliary record, as the codec fills them.
pub(crate) struct Records {
    pub header: [u8; HEADER_RECORD],
    pub auxiliary: [u8; AUXILIARY_RECORD],
}

impl Records {
    pub fn new() -> Self {
        Self { header: [0; HEADER_RECORD], auxiliary: [0; AUXILIARY_RECORD] }
    }

    pub fn headers(&self) -> Result<(NwkHeader, Option<NwkAuxHeader>), Refusal> {
        Ok((NwkHeader::from_record(&self.header)?, NwkAuxHeader::from_record(&self.auxiliary)?))
    }
}

/// Room for what the codec says of a frame that it opens: a place of the answers that [`open_burst`](crate::open_burst) is
/// lent. What stands in it is the codec's, and [`Burst`](crate::Burst) reads it.
#[derive(Clone, Copy)]
#[repr(transparent)]
pub struct OpenedRecord(pub(crate) [u8; OPENED_RECORD]);

impl OpenedRecord {
    /// A place that nothing was said in yet.
    #[must_use]
    pub const fn new() -> Self {
        Self([0; OPENED_RECORD])
    }

    /// Whether the frame was sealed, or by which number it was refused. A refused frame bears no mark, an accepted one does.
    pub(crate) fn is_sealed(&self) -> Result<bool, Refusal> {
        let refusal = accepted(Taker::new(&self.0, 0).byte());
        match (refusal, self.mark()) {
            (Err(refusal), MARK_NONE) => Err(refusal),
            (Ok(()), MARK_CLEAR) => Ok(false),
            (Ok(()), MARK_SEALED) => Ok(true),
            _ => Err(Refusal::INTERNAL),
        }
    }

    /// The code of the mark.
    pub(crate) fn mark(&self) -> u8 {
        Taker::new(&self.0, OPENED_MARK_AT).byte()
    }

    /// The payload's length, wherever it stands.
    pub(crate) fn length(&self) -> usize {
        usize::from(Taker::new(&self.0, OPENED_LENGTH_AT).word())
    }

    /// The long address that the nonce used, which a sealed frame alone has.
    pub(crate) fn nonce_ieee(&self) -> Option<Eui64> {
        Taker::new(&self.0, OPENED_NONCE_IEEE_AT).optional(Taker::eui64)
    }

    /// The two headers, of which a clear frame has the first alone.
    pub(crate) fn headers(&self) -> Result<(NwkHeader, Option<NwkAuxHeader>), Refusal> {
        let (_, records) = self.0.split_at(OPENED_HEADER_AT);
        let (header, auxiliary) = records.split_at(HEADER_RECORD);
        let header = header.try_into().map_err(|_| Refusal::INTERNAL)?;
        let auxiliary = auxiliary.try_into().map_err(|_| Refusal::INTERNAL)?;
        Ok((NwkHeader::from_record(header)?, NwkAuxHeader::from_record(auxiliary)?))
    }
}

impl Default for OpenedRecord {
    fn default() -> Self {
        Self::new()
    }
}

/// The name alone: the bytes are the codec's.
impl fmt::Debug for OpenedRecord {
    fn fmt(&self, f: &mut fmt::Formatter<'_>) -> fmt::Result {
        f.debug_struct("OpenedRecord").finish_non_exhaustive()
    }
}
