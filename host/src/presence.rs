//! Presence bits: set together with their fields, and compared with them.
use crate::{Eui64, NwkAuxHeader, NwkHeader, NwkSourceRoute};
use core::fmt;

/// A bit that [`Refusal::PRESENCE_BITS`](crate::Refusal::PRESENCE_BITS), 28, is about: what it prints names it and says what is
/// wrong.
///
/// ```
/// use store_reader::{write, Eui64, Nwk, NwkFrameType, NwkHeader, PresenceBit, Refusal, MAX_FRAME};
///
/// let mut header = NwkHeader::new(NwkFrameType::Data, Nwk(0x1234), Nwk(0x0000));
/// header.source_ieee = Some(Eui64([1, 2, 3, 4, 5, 6, 7, 8]));
/// let mut out = [0; MAX_FRAME];
/// assert_eq!(write(&header, b"21.5 C", &mut out), Err(Refusal::PRESENCE_BITS));
/// let bit = header.disagreement().unwrap();
/// assert_eq!(bit, PresenceBit::SourceIeee);
/// assert_eq!(bit.to_string(), "bit 12 of frame control disagrees with the source IEEE");
///
/// header.set_presence_bits();
/// assert_eq!(write(&header, b"21.5 C", &mut out), Ok(8 + 8 + 6));
/// ```
#[derive(Debug, Clone, Copy, PartialEq, Eq, PartialOrd, Ord, Hash)]
pub enum PresenceBit {
    /// Bit 8 of frame control, of the multicast control.
    Multicast,
    /// Bit 10 of frame control.
    SourceRoute,
    /// Bit 11 of frame control.
    DestinationIeee,
    /// Bit 12 of frame control.
    SourceIeee,
    /// Bit 9 of frame control, which sealing needs.
    Security,
    /// Bit 5 of the security control, of the auxiliary header's long address.
    ExtendedNonce,
}

impl fmt::Display for PresenceBit {
    fn fmt(&self, f: &mut fmt::Formatter<'_>) -> fmt::Result {
        f.write_str(match self {
            Self::Multicast => "bit 8 of frame control disagrees with the multicast control",
            Self::SourceRoute => "bit 10 of frame control disagrees with the source route",
            Self::DestinationIeee => "bit 11 of frame control disagrees with the destination IEEE",
            Self::SourceIeee => "bit 12 of frame control disagrees with the source IEEE",
            Self::Security => "bit 9 of frame control is off",
            Self::ExtendedNonce => "the extended nonce bit disagrees with the auxiliary IEEE",
        })
    }
}

/// Fields with their bits, so that 28 is not met.
///
/// ```
/// use store_reader::{Eui64, Nwk, NwkFrameType, NwkHeader};
///
/// let probe = Eui64([1, 2, 3, 4, 5, 6, 7, 8]);
/// let header = NwkHeader::new(NwkFrameType::Data, Nwk(0x1234), Nwk(0x0000)).with_source_ieee(probe).secured();
/// assert_eq!((header.source_ieee, header.disagreement()), (Some(probe), None));
/// assert!(header.frame_control.extended_source && header.frame_control.security);
/// ```
impl NwkHeader {
    /// The header with the destination's long address and bit 11.
    #[must_use]
    pub fn with_destination_ieee(mut self, address: Eui64) -> Self {
        self.destination_ieee = Some(address);
        self.frame_control.destination = true;
        self
    }

    /// The header with the source's long address and bit 12.
    #[must_use]
    pub fn with_source_ieee(mut self, address: Eui64) -> Self {
        self.source_ieee = Some(address);
        self.frame_control.extended_source = true;
        self
    }

    /// The header with the multicast control and bit 8.
    #[must_use]
    pub fn with_multicast_control(mut self, control: u8) -> Self {
        self.multicast_control = Some(control);
        self.frame_control.multicast = true;
        self
    }

    /// The header with the source route and bit 10.
    #[must_use]
    pub fn with_source_route(mut self, route: NwkSourceRoute) -> Self {
        self.source_route = Some(route);
        self.frame_control.source_route = true;
        self
    }

    /// The header with the security bit, for sealing.
    #[must_use]
    pub fn secured(mut self) -> Self {
        self.frame_control.security = true;
        self
    }

    /// Sets bits 8, 10, 11 and 12 of frame control, each exactly where its field is present.
    pub fn set_presence_bits(&mut self) {
        self.frame_control.multicast = self.multicast_control.is_some();
        self.frame_control.source_route = self.source_route.is_some();
        self.frame_control.destination = self.destination_ieee.is_some();
        self.frame_control.extended_source = self.source_ieee.is_some();
    }

    /// The first of bits 8, 10, 11 and 12 that disagrees with its field. Writing is then refused by 28, or by 13 for a field
    /// that does not fit.
    #[must_use]
    pub fn disagreement(&self) -> Option<PresenceBit> {
        let control = self.frame_control;
        let bits = [
            (PresenceBit::Multicast, control.multicast, self.multicast_control.is_some()),
            (PresenceBit::SourceRoute, control.source_route, self.source_route.is_some()),
            (PresenceBit::DestinationIeee, control.destination, self.destination_ieee.is_some()),
            (PresenceBit::SourceIeee, control.extended_source, self.source_ieee.is_some()),
        ];
        bits.into_iter().find(|(_, bit, field)| bit != field).map(|(name, _, _)| name)
    }

    /// The same for sealing with this auxiliary header: behind the four bits come the security bit and the extended nonce bit. An
    /// auxiliary header that is missing is no disagreement (14).
    #[must_use]
    pub fn disagreement_in_sealing(&self, auxiliary: Option<&NwkAuxHeader>) -> Option<PresenceBit> {
        let unsecured = (!self.frame_control.security).then_some(PresenceBit::Security);
        self.disagreement().or(unsecured).or_else(|| auxiliary.and_then(NwkAuxHeader::disagreement))
    }
}

impl NwkAuxHeader {
    /// The extended nonce bit, if it disagrees with the long address. Sealing is then refused by 28; writing the auxiliary header
    /// alone is not.
    #[must_use]
    pub fn disagreement(&self) -> Option<PresenceBit> {
        let agrees = self.security_control.extended_nonce == self.extended_source.is_some();
        (!agrees).then_some(PresenceBit::ExtendedNonce)
    }
}
