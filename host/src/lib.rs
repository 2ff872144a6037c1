//! Zigbee NWK frames for the gateway: reading, writing, sealing and opening through a codec whose every function is proved.
//!
//! An operation succeeds, or it is refused by a number whose condition is written down ([`Refusal`]) and nothing lent to it
//! has changed. No input of any length or content makes an operation panic. The library depends on no other crate, and without its
//! feature `std`, which is on by default and adds `JournalFile` (and the command), it needs neither the standard library nor an
//! allocator.
//!
//! ```
//! use store_reader::{
//!     open, seal, Eui64, Network, Nwk, NwkAuxHeader, NwkFrameType, NwkHeader, Refusal, MAX_FRAME, MAX_PAYLOAD,
//! };
//!
//! let network = Network::new("C0C1C2C3C4C5C6C7C8C9CACBCCCDCECF".parse().unwrap());
//! let header = NwkHeader::new(NwkFrameType::Data, Nwk(0x1234), Nwk(0x0000)).secured();
//! let probe: Eui64 = "00:12:4B:00:1C:A1:B2:C3".parse().unwrap();
//!
//! let mut frame = [0; MAX_FRAME];
//! let n = seal(&network, &header, Some(&NwkAuxHeader::new(1, probe)), b"21.5 C", &mut frame)?;
//! let mut out = [0; MAX_PAYLOAD];
//! let opened = open(&network, &frame[..n], &mut out)?.sealed().expect("a sealed frame");
//! assert_eq!(opened.payload, b"21.5 C");
//!
//! // The last byte lost: the MIC is then not the one computed.
//! let refusal = open(&network, &frame[..n - 1], &mut out).unwrap_err();
//! assert_eq!(refusal, Refusal::WRONG_MIC);
//! assert_eq!(refusal.to_string(), "refused by 19: the MIC is not the one computed");
//! # Ok::<(), Refusal>(())
//! ```
//!
//! A network has one key and one security level: [`Network`] holds both, level 5 unless another [`Level`] is given.
//!
//! [`open`] accepts clear frames too: their security bit is off, and nothing authenticates them. So what it gives has a mark,
//! [`Opened`], and there is no way to a payload but through it. [`open_burst`] opens the frames that a radio hands over at once.
//! [`Senders`] keeps the counters of up to [`MAX_SENDERS`] senders, so that no frame is taken twice. A journal keeps outgoing counters
//! from being used twice, also after a power cut: [`recover`], [`write_record`], [`next_counter`] and [`shrink`] over bytes, and
//! `JournalFile` over a file.
//!
//! # Presence bits
//!
//! Each optional field of a header has a bit that says whether it is there. Writing and sealing refuse by 28 a header whose bits
//! disagree with its fields. [`NwkHeader::with_source_ieee`] and the like set both. Where fields were filled in by hand, three
//! lines set the bits for sealing:
//!
//! ```
//! # use store_reader::{Eui64, Nwk, NwkAuxHeader, NwkFrameType, NwkHeader, PresenceBit};
//! # let mut header = NwkHeader::new(NwkFrameType::Data, Nwk(0x1234), Nwk(0x0000));
//! # let mut auxiliary = NwkAuxHeader::without_ieee(1);
//! header.source_ieee = Some(Eui64([1, 2, 3, 4, 5, 6, 7, 8]));
//! assert_eq!(header.disagreement_in_sealing(Some(&auxiliary)), Some(PresenceBit::SourceIeee));
//!
//! header.set_presence_bits();
//! header.frame_control.security = true;
//! auxiliary.security_control.extended_nonce = auxiliary.extended_source.is_some();
//! assert_eq!(header.disagreement_in_sealing(Some(&auxiliary)), None);
//! ```
//!
//! # The order for frames that arrive
//!
//! 1. Open them: [`open`], or [`open_burst`].
//! 2. Ask for each ([`Senders::inbound_network_key`]) and note its counter ([`Senders::note_inbound_frame_counter`]) before the next one is
//!    asked for, so that a frame which is twice in a burst passes once.
//! 3. Journal what was noted, all of a burst by one `JournalFile::note_senders`, and wait for the disk.
//! 4. Hand the frames on.
//!
//! A cut before 3 is done costs the burst: none of it was handed on, and what is sent again may be taken. A cut between 3 and 4
//! costs it for good, since it is refused by 23 from then on. Handing on before 3 would lose nothing, but after a cut a recorded frame
//! could be handed on twice. The example `gateway` has the order above, because a lost reading can be weighted and a replayed one
//! looks like any other. Where the list refuses a new sender by 24 so does the journal, as long as both forget the same ones
//! (`JournalFile::forget` first: if it fails, nothing has changed).
#![no_std]
#![deny(missing_docs)]
#![warn(clippy::missing_errors_doc, clippy::must_use_candidate)]

#[cfg(feature = "std")]
extern crate std;

mod address;
mod burst;
mod cipher;
mod codes;
mod command;
mod frame;
mod header;
mod journal;
#[cfg(feature = "std")]
mod journal_file;
mod list;
mod network;
mod opened;
mod presence;
mod record;
mod refusal;
mod senders;
#[doc(hidden)]
#[allow(missing_docs, clippy::missing_safety_doc)]
pub mod sys;

pub use address::{hex, Eui64, HexError, Key, Nwk, PanId};
pub use burst::{open_burst, Burst};
pub use cipher::{decrypt_ccm, encrypt_block, encrypt_ccm, split_mic};
pub use command::{
    timeout_seconds, EndDeviceTimeout, Nwk802154AssociationStatus, NwkCommand, NwkCommandId, NwkCommissioningType,
    NwkEndDeviceTimeoutResponseStatus, NwkLinkPowerDeltaType, NwkLinkStatus, NwkNetworkStatus, NwkPowerListEntry,
    NwkRejoinCapabilityInformation, NwkReportCommandIdentifier, NwkRouteRequestManyToOne, NwkUpdateCommandIdentifier,
};
pub use frame::{open, read, seal, write, NwkFrame};
pub use header::{
    NwkAuxHeader, NwkFrameControl, NwkFrameType, NwkHeader, NwkPayload, NwkRouteDiscovery,
    NwkSecurityHeaderControlField, NwkSecurityHeaderKeyId, NwkSecurityLevel, NwkSourceRoute, OpenedRecord,
};
#[doc(hidden)]
pub use journal::complete_records;
pub use journal::{finished, next_counter, recover, shrink, shrink_without, write_record, JournalRecord, Recovered};
#[cfg(feature = "std")]
#[doc(hidden)]
pub use journal_file::{keep_owner, open_journal_to_copy, JournalReading};
#[cfg(feature = "std")]
pub use journal_file::{JournalError, JournalFile};
pub use list::{Full, List};
pub use network::{Level, Network, MIC_PLACES};
pub use opened::{ClearFrame, Opened, OpenedFrame};
pub use presence::PresenceBit;
pub use refusal::Refusal;
pub use senders::{SenderRecord, Senders};

/// The most bytes that a frame has.
pub const MAX_FRAME: usize = 118;

/// The most bytes that a payload or a command has.
pub const MAX_PAYLOAD: usize = 108;

/// The most frames of a burst.
pub const MAX_BURST: usize = 16;

/// The most senders whose counters are kept.
pub const MAX_SENDERS: usize = 64;

/// The most bytes that a record of a journal has.
pub const MAX_JOURNAL_RECORD: usize = 13;

/// The most bytes that are appended to a journal at once: the counters of a burst's senders.
pub const MAX_JOURNAL_APPEND: usize = MAX_BURST * MAX_JOURNAL_RECORD;

/// The most bytes that a shrunk journal has: a key number, a ceiling and [`MAX_SENDERS`] senders.
pub const MAX_SHRUNK_JOURNAL: usize = 2 + 5 + MAX_SENDERS * MAX_JOURNAL_RECORD;

/// The bytes of output that the longest burst needs: a part of [`MAX_PAYLOAD`] for each frame.
pub const MAX_BURST_OUTPUT: usize = MAX_BURST * MAX_PAYLOAD;

/// The README's examples.
#[cfg(all(doctest, feature = "std"))]
#[doc = include_str!("../../README.md")]
struct Readme;
