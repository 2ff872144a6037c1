//! The fifteen NWK commands.
use crate::codes::codes;
use crate::record::{Putter, Taker};
use crate::refusal::length;
use crate::{sys, Eui64, List, Nwk, PanId, Refusal, MAX_PAYLOAD};

const COMMAND_RECORD: usize = 535;

/// Where the record has the fields of a command, and its lists.
const FIELDS_AT: usize = 1;
const RELAYS_AT: usize = 25;
const LINK_STATUSES_AT: usize = 132;
const PAN_IDS_AT: usize = 257;
const POWER_LIST_AT: usize = 320;
const UNPARSED_AT: usize = 426;

/// How many entries each list has places for.
const RELAY_PLACES: usize = 53;
const LINK_STATUS_PLACES: usize = 31;
const PAN_ID_PLACES: usize = 31;
const POWER_PLACES: usize = 35;

codes! {
    /// The command's identifier, its first byte.
    NwkCommandId {
        /// Looks for a route.
        RouteRequest = 0x01,
        /// Answers a route request.
        RouteReply = 0x02,
        /// Reports an error on the way.
        NetworkStatus = 0x03,
        /// A device leaves, or is told to.
        Leave = 0x04,
        /// Records the relays that a frame took.
        RouteRecord = 0x05,
        /// Asks to join again.
        RejoinRequest = 0x06,
        /// Answers a rejoin request.
        RejoinResponse = 0x07,
        /// Tells the neighbours and their link costs.
        LinkStatus = 0x08,
        /// Reports a conflict of PAN identifiers.
        NetworkReport = 0x09,
        /// Announces another PAN identifier.
        NetworkUpdate = 0x0A,
        /// A child says how long it may be silent.
        EndDeviceTimeoutRequest = 0x0B,
        /// Answers a timeout request.
        EndDeviceTimeoutResponse = 0x0C,
        /// Tells by how much a neighbour's power is off.
        LinkPowerDelta = 0x0D,
        /// Asks to join, or to join again.
        NetworkCommissioningRequest = 0x0E,
        /// Answers a commissioning request.
        NetworkCommissioningResponse = 0x0F,
    }
}

codes! {
    /// Whether a route request is many-to-one.
    NwkRouteRequestManyToOne {
        /// A route to one device.
        NotManyToOne = 0,
        /// Many-to-one, and the sender keeps route records.
        ManyToOneSenderSupportsRouteRecordTable = 1,
        /// Many-to-one, and the sender keeps no route records.
        ManyToOneSenderDoesntSupportRouteRecordTable = 2,
        /// Reserved by the standard, and typed.
        Reserved = 3,
    }
}

codes! {
    /// What a network status command reports.
    NwkNetworkStatus {
        /// No route was available.
        LegacyNoRouteAvailable = 0x00,
        /// A link of the tree failed.
        LegacyLinkFailure = 0x01,
        /// A link failed.
        LinkFailure = 0x02,
        /// A device's battery is low.
        LowBatteryLevel = 0x03,
        /// A device has no room for another route.
        NoRoutingCapacity = 0x04,
        /// A device cannot keep another frame for a child.
        NoIndirectCapacity = 0x05,
        /// A frame kept for a child has expired.
        IndirectTransactionExpiry = 0x06,
        /// The destination is not to be had.
        TargetDeviceUnavailable = 0x07,
        /// The destination's address belongs to nobody.
        TargetAddressUnallocated = 0x08,
        /// The link to a child or parent failed.
        ParentLinkFailure = 0x09,
        /// The route is to be validated.
        ValidateRoute = 0x0A,
        /// A source route failed.
        SourceRouteFailure = 0x0B,
        /// A many-to-one route failed.
        ManyToOneRouteFailure = 0x0C,
        /// Two devices have one address.
        AddressConflict = 0x0D,
        /// Addresses are to be verified.
        VerifyAddresses = 0x0E,
        /// The PAN identifier has changed.
        PanIdentifierUpdate = 0x0F,
        /// A device's address has changed.
        NetworkAddressUpdate = 0x10,
        /// A frame counter was not above the last.
        BadFrameCounter = 0x11,
        /// A key sequence number is not known.
        BadKeySequenceNumber = 0x12,
        /// A command is not known.
        UnknownCommand = 0x13,
        /// PAN identifiers are in conflict.
        PanIdConflictReport = 0x14,
    }
}

codes! {
    /// How an attempt to join ended.
    Nwk802154AssociationStatus {
        /// The device has joined.
        AssociationSuccessful = 0x00,
        /// The network is full.
        PanAtCapacity = 0x01,
        /// The network does not let the device in.
        PanAccessDenied = 0x02,
        /// The hopping sequence's offset is taken.
        HoppingSequenceOffsetDuplication = 0x03,
        /// The device has joined by the fast way.
        FastAssociationSuccessful = 0x80,
        /// The address is another device's.
        ZigbeeAddressConflict = 0xF0,
    }
}

codes! {
    /// What a network report is about.
    NwkReportCommandIdentifier {
        /// PAN identifiers are in conflict.
        PanIdentifierConflict = 0,
    }
}

codes! {
    /// What a network update is about.
    NwkUpdateCommandIdentifier {
        /// The PAN identifier changes.
        PanIdentifierUpdate = 0,
    }
}

codes! {
    /// How long a parent keeps a silent child.
    EndDeviceTimeout {
        /// 10 seconds.
        Seconds10 = 0,
        /// 2 minutes.
        Minutes2 = 1,
        /// 4 minutes.
        Minutes4 = 2,
        /// 8 minutes.
        Minutes8 = 3,
        /// 16 minutes.
        Minutes16 = 4,
        /// 32 minutes.
        Minutes32 = 5,
        /// 64 minutes.
        Minutes64 = 6,
        /// 128 minutes.
        Minutes128 = 7,
        /// 256 minutes.
        Minutes256 = 8,
        /// 512 minutes.
        Minutes512 = 9,
        /// 1024 minutes.
        Minutes1024 = 10,
        /// 2048 minutes.
        Minutes2048 = 11,
        /// 4096 minutes.
        Minutes4096 = 12,
        /// 8192 minutes.
        Minutes8192 = 13,
        /// 16384 minutes.
        Minutes16384 = 14,
    }
}

codes! {
    /// A parent's answer to a timeout request.
    NwkEndDeviceTimeoutResponseStatus {
        /// The timeout is taken.
        Success = 0,
        /// The timeout is not one that the parent takes.
        IncorrectValue = 1,
        /// The parent keeps no timeouts.
        UnsupportedFeature = 2,
    }
}

codes! {
    /// What a link power delta command is.
    NwkLinkPowerDeltaType {
        /// Sent unasked.
        Notification = 0,
        /// Asks for an answer.
        Request = 1,
        /// Answers a request.
        Response = 2,
    }
}

codes! {
    /// How a device joins.
    NwkCommissioningType {
        /// The first time.
        InitialJoin = 0,
        /// Again.
        Rejoin = 1,
    }
}

/// The seconds of a timeout code: 10 for 0, and 60 times 2 to the power n for n of 1 to 14.
///
/// ```
/// use store_reader::{timeout_seconds, Refusal};
///
/// assert_eq!(timeout_seconds(14), Ok(983_040));
/// assert_eq!(timeout_seconds(15), Err(Refusal::FIELD));
/// ```
///
/// # Errors
///
/// Refusal 13 for a code above 14.
pub fn timeout_seconds(code: u8) -> Result<u32, Refusal> {
    // SAFETY: the function takes a number.
    length(unsafe { sys::nwk_timeout_seconds(code) }).map(|seconds| seconds as u32)
}

/// What a joining device can do.
#[derive(Debug, Clone, Copy, PartialEq, Eq, Default)]
pub struct NwkRejoinCapabilityInformation {
    /// It could be a PAN coordinator.
    pub alternate_pan_coordinator: bool,
    /// A router, else an end device.
    pub router: bool,
    /// It has mains power.
    pub mains_powered: bool,
    /// Its receiver is on when it has nothing to do.
    pub receiver_on_when_idle: bool,
    /// Bit 4, kept.
    pub reserved1: bool,
    /// Bit 5, kept.
    pub reserved2: bool,
    /// It can secure MAC frames.
    pub security_capability: bool,
    /// It wants an address.
    pub allocate_address: bool,
}

/// A neighbour in a link status command; each cost is 0 to 7.
#[derive(Debug, Clone, Copy, PartialEq, Eq, Default)]
pub struct NwkLinkStatus {
    /// The neighbour's address.
    pub address: Nwk,
    /// What a frame from it costs.
    pub incoming_cost: u8,
    /// What a frame to it costs.
    pub outgoing_cost: u8,
}

/// A child in a link power delta command.
#[derive(Debug, Clone, Copy, PartialEq, Eq, Default)]
pub struct NwkPowerListEntry {
    /// The device's address.
    pub device_address: Nwk,
    /// The byte as sent; [`decibels`](Self::decibels) gives its sign.
    pub power_delta: u8,
}

impl NwkPowerListEntry {
    /// The power delta in decibels, which is signed on air: `F6` is -10.
    #[must_use]
    pub const fn decibels(self) -> i8 {
        self.power_delta as i8
    }
}

/// A command. Bytes that are no typed command are kept whole as `Unparsed`.
///
/// ```
/// use store_reader::{EndDeviceTimeout, List, Nwk, NwkCommand, NwkLinkStatus, MAX_PAYLOAD};
///
/// let timeout = NwkCommand::read(&[0x0B, 0x0E, 0x00])?;
/// assert_eq!(
///     timeout,
///     NwkCommand::EndDeviceTimeoutRequest {
///         request_timeout_enum: EndDeviceTimeout::Minutes16384,
///         end_device_configuration: 0,
///     }
/// );
/// assert!(matches!(NwkCommand::read(&[0x04])?, NwkCommand::Unparsed(bytes) if bytes[..] == [0x04]));
///
/// let neighbour = NwkLinkStatus { address: Nwk(0x1234), incoming_cost: 1, outgoing_cost: 3 };
/// let link_statuses = List::try_from(&[neighbour][..])?;
/// let status = NwkCommand::LinkStatus { is_first_frame: true, is_last_frame: true, link_statuses };
/// let mut out = [0; MAX_PAYLOAD];
/// let n = status.write(&mut out)?;
/// assert_eq!(&out[..n], [0x08, 0x61, 0x34, 0x12, 0x31]);
/// # Ok::<(), Box<dyn std::error::Error>>(())
/// ```
#[derive(Debug, Clone, PartialEq, Eq)]
pub enum NwkCommand {
    /// Looks for a route.
    RouteRequest {
        /// Whether all are to find a route to the sender.
        many_to_one: NwkRouteRequestManyToOne,
        /// The request's number.
        route_request_identifier: u8,
        /// The device that a route is looked for to.
        destination_address: Nwk,
        /// The cost of the way so far.
        path_cost: u8,
        /// The device's long address.
        destination_eui64: Option<Eui64>,
    },
    /// Answers a route request.
    RouteReply {
        /// The request's number.
        route_request_identifier: u8,
        /// Who asked.
        originator_nwk: Nwk,
        /// Who answers.
        responder_nwk: Nwk,
        /// The cost of the way so far.
        path_cost: u8,
        /// The long address of who asked.
        originator_eui64: Option<Eui64>,
        /// The long address of who answers.
        responder_eui64: Option<Eui64>,
    },
    /// Reports an error on the way.
    NetworkStatus {
        /// What happened.
        status_code: NwkNetworkStatus,
        /// The device that it is about.
        network_address: Nwk,
    },
    /// A device leaves, or is told to.
    Leave {
        /// It will join again.
        rejoin: bool,
        /// It is told to leave.
        request: bool,
        /// Its children leave too.
        remove_children: bool,
    },
    /// Records the relays that a frame took.
    RouteRecord {
        /// The relays, 53 at most.
        relays: List<Nwk, RELAY_PLACES>,
    },
    /// Asks to join again.
    RejoinRequest {
        /// What the device can do.
        capability_information: NwkRejoinCapabilityInformation,
    },
    /// Answers a rejoin request.
    RejoinResponse {
        /// The address that the device has from now on.
        network_address: Nwk,
        /// How it ended.
        rejoin_status: Nwk802154AssociationStatus,
    },
    /// Tells the neighbours and their link costs.
    LinkStatus {
        /// The first of several such commands.
        is_first_frame: bool,
        /// The last of them.
        is_last_frame: bool,
        /// The neighbours, 31 at most.
        link_statuses: List<NwkLinkStatus, LINK_STATUS_PLACES>,
    },
    /// Reports a conflict of PAN identifiers.
    NetworkReport {
        /// What it is about.
        report_command_identifier: NwkReportCommandIdentifier,
        /// The network's extended PAN identifier.
        epid: Eui64,
        /// The PAN identifiers heard, 31 at most.
        pan_ids: List<PanId, PAN_ID_PLACES>,
    },
    /// Announces another PAN identifier.
    NetworkUpdate {
        /// A stored number of 0 to 31; one PAN id follows whatever it says.
        update_information_count: u8,
        /// What it is about.
        update_command_identifier: NwkUpdateCommandIdentifier,
        /// The network's extended PAN identifier.
        epid: Eui64,
        /// The update's number.
        update_id: u8,
        /// The identifier from now on.
        new_pan_id: PanId,
    },
    /// A child says how long it may be silent.
    EndDeviceTimeoutRequest {
        /// How long.
        request_timeout_enum: EndDeviceTimeout,
        /// Always 0 by the standard, and kept.
        end_device_configuration: u8,
    },
    /// Answers a timeout request.
    EndDeviceTimeoutResponse {
        /// Whether the timeout is taken.
        status: NwkEndDeviceTimeoutResponseStatus,
        /// A data poll keeps the child.
        mac_data_poll_keepalive_supported: bool,
        /// A timeout request keeps it.
        end_device_timeout_request_keepalive_supported: bool,
        /// Powers can be negotiated.
        power_negotiation_support: bool,
    },
    /// Tells by how much a neighbour's power is off.
    LinkPowerDelta {
        /// Whether an answer is wanted.
        command_type: NwkLinkPowerDeltaType,
        /// The devices, 35 at most.
        power_list: List<NwkPowerListEntry, POWER_PLACES>,
    },
    /// Asks to join, or to join again.
    NetworkCommissioningRequest {
        /// Which of the two.
        commissioning_type: NwkCommissioningType,
        /// What the device can do.
        capability_information: NwkRejoinCapabilityInformation,
    },
    /// Answers a commissioning request.
    NetworkCommissioningResponse {
        /// The address that the device has from now on.
        network_address: Nwk,
        /// How it ended.
        status: Nwk802154AssociationStatus,
    },
    /// Bytes that are no typed command, all of them.
    Unparsed(List<u8, MAX_PAYLOAD>),
}

impl NwkCommand {
    /// Reads a command from the whole of the bytes.
    ///
    /// # Errors
    ///
    /// Refusal 12.
    pub fn read(bytes: &[u8]) -> Result<Self, Refusal> {
        let mut record = [0; COMMAND_RECORD];
        // SAFETY: each pointer goes with the length of its slice, and no two slices overlap.
        let answer = unsafe { sys::nwk_read_command(bytes.as_ptr(), bytes.len(), record.as_mut_ptr(), record.len()) };
        length(answer)?;
        Self::from_record(&record)
    }

    /// Writes the command to the front of the output, and gives how many bytes it takes.
    ///
    /// # Errors
    ///
    /// Refusals 13, 17, 18.
    pub fn write(&self, out: &mut [u8]) -> Result<usize, Refusal> {
        let record = self.record();
        // SAFETY: each pointer goes with the length of its slice, and no two slices overlap.
        length(unsafe { sys::nwk_write_command(record.as_ptr(), record.len(), out.as_mut_ptr(), out.len()) })
    }

    /// The identifier of a typed command, or of bytes whose first is one.
    #[must_use]
    pub fn command_id(&self) -> Option<NwkCommandId> {
        Some(match self {
            Self::RouteRequest { .. } => NwkCommandId::RouteRequest,
            Self::RouteReply { .. } => NwkCommandId::RouteReply,
            Self::NetworkStatus { .. } => NwkCommandId::NetworkStatus,
            Self::Leave { .. } => NwkCommandId::Leave,
            Self::RouteRecord { .. } => NwkCommandId::RouteRecord,
            Self::RejoinRequest { .. } => NwkCommandId::RejoinRequest,
            Self::RejoinResponse { .. } => NwkCommandId::RejoinResponse,
            Self::LinkStatus { .. } => NwkCommandId::LinkStatus,
            Self::NetworkReport { .. } => NwkCommandId::NetworkReport,
            Self::NetworkUpdate { .. } => NwkCommandId::NetworkUpdate,
            Self::EndDeviceTimeoutRequest { .. } => NwkCommandId::EndDeviceTimeoutRequest,
            Self::EndDeviceTimeoutResponse { .. } => NwkCommandId::EndDeviceTimeoutResponse,
            Self::LinkPowerDelta { .. } => NwkCommandId::LinkPowerDelta,
            Self::NetworkCommissioningRequest { .. } => NwkCommandId::NetworkCommissioningRequest,
            Self::NetworkCommissioningResponse { .. } => NwkCommandId::NetworkCommissioningResponse,
            Self::Unparsed(bytes) => return bytes.first().copied().and_then(NwkCommandId::from_code),
        })
    }

    fn from_record(record: &[u8; COMMAND_RECORD]) -> Result<Self, Refusal> {
        let [identifier, ..] = *record;
        if identifier == 0 {
            return Ok(Self::Unparsed(Taker::new(record, UNPARSED_AT).list(Taker::byte)?));
        }
        let id = NwkCommandId::from_code(identifier).ok_or(Refusal::INTERNAL)?;
        let mut r = Taker::new(record, FIELDS_AT);
        Ok(match id {
            NwkCommandId::RouteRequest => Self::RouteRequest {
                many_to_one: r.code(NwkRouteRequestManyToOne::from_code)?,
                route_request_identifier: r.byte(),
                destination_address: r.address(),
                path_cost: r.byte(),
                destination_eui64: r.optional(Taker::eui64),
            },
            NwkCommandId::RouteReply => Self::RouteReply {
                route_request_identifier: r.byte(),
                originator_nwk: r.address(),
                responder_nwk: r.address(),
                path_cost: r.byte(),
                originator_eui64: r.optional(Taker::eui64),
                responder_eui64: r.optional(Taker::eui64),
            },
            NwkCommandId::NetworkStatus => {
                Self::NetworkStatus { status_code: r.code(NwkNetworkStatus::from_code)?, network_address: r.address() }
            }
            NwkCommandId::Leave => Self::Leave { rejoin: r.bit(), request: r.bit(), remove_children: r.bit() },
            NwkCommandId::RouteRecord => {
                Self::RouteRecord { relays: Taker::new(record, RELAYS_AT).list(Taker::address)? }
            }
            NwkCommandId::RejoinRequest => Self::RejoinRequest { capability_information: capability(&mut r) },
            NwkCommandId::RejoinResponse => Self::RejoinResponse {
                network_address: r.address(),
                rejoin_status: r.code(Nwk802154AssociationStatus::from_code)?,
            },
            NwkCommandId::LinkStatus => Self::LinkStatus {
                is_first_frame: r.bit(),
                is_last_frame: r.bit(),
                link_statuses: Taker::new(record, LINK_STATUSES_AT).list(link_status)?,
            },
            NwkCommandId::NetworkReport => Self::NetworkReport {
                report_command_identifier: r.code(NwkReportCommandIdentifier::from_code)?,
                epid: r.eui64(),
                pan_ids: Taker::new(record, PAN_IDS_AT).list(|r| PanId(r.word()))?,
            },
            NwkCommandId::NetworkUpdate => Self::NetworkUpdate {
                update_information_count: r.byte(),
                update_command_identifier: r.code(NwkUpdateCommandIdentifier::from_code)?,
                epid: r.eui64(),
                update_id: r.byte(),
                new_pan_id: PanId(r.word()),
            },
            NwkCommandId::EndDeviceTimeoutRequest => Self::EndDeviceTimeoutRequest {
                request_timeout_enum: r.code(EndDeviceTimeout::from_code)?,
                end_device_configuration: r.byte(),
            },
            NwkCommandId::EndDeviceTimeoutResponse => Self::EndDeviceTimeoutResponse {
                status: r.code(NwkEndDeviceTimeoutResponseStatus::from_code)?,
                mac_data_poll_keepalive_supported: r.bit(),
                end_device_timeout_request_keepalive_supported: r.bit(),
                power_negotiation_support: r.bit(),
            },
            NwkCommandId::LinkPowerDelta => Self::LinkPowerDelta {
                command_type: r.code(NwkLinkPowerDeltaType::from_code)?,
                power_list: Taker::new(record, POWER_LIST_AT).list(power_entry)?,
            },
            NwkCommandId::NetworkCommissioningRequest => Self::NetworkCommissioningRequest {
                commissioning_type: r.code(NwkCommissioningType::from_code)?,
                capability_information: capability(&mut r),
            },
            NwkCommandId::NetworkCommissioningResponse => Self::NetworkCommissioningResponse {
                network_address: r.address(),
                status: r.code(Nwk802154AssociationStatus::from_code)?,
            },
        })
    }

    fn record(&self) -> [u8; COMMAND_RECORD] {
        let mut record = [0; COMMAND_RECORD];
        if let Self::Unparsed(bytes) = self {
            Putter::new(&mut record, UNPARSED_AT).list(bytes, |r, byte| r.byte(*byte));
            return record;
        }
        if let Some(id) = self.command_id() {
            record[0] = id.code();
        }
        self.put_list(&mut record);
        self.put_fields(&mut Putter::new(&mut record, FIELDS_AT));
        record
    }

    /// Puts the list that the command has, if any.
    fn put_list(&self, record: &mut [u8; COMMAND_RECORD]) {
        match self {
            Self::RouteRecord { relays } => {
                Putter::new(record, RELAYS_AT).list(relays, |r, relay| r.address(*relay));
            }
            Self::LinkStatus { link_statuses, .. } => {
                Putter::new(record, LINK_STATUSES_AT).list(link_statuses, |r, link| {
                    r.address(link.address);
                    r.byte(link.incoming_cost);
                    r.byte(link.outgoing_cost);
                });
            }
            Self::NetworkReport { pan_ids, .. } => {
                Putter::new(record, PAN_IDS_AT).list(pan_ids, |r, pan_id| r.bytes(&pan_id.0.to_le_bytes()));
            }
            Self::LinkPowerDelta { power_list, .. } => {
                Putter::new(record, POWER_LIST_AT).list(power_list, |r, entry| {
                    r.address(entry.device_address);
                    r.byte(entry.power_delta);
                });
            }
            _ => {}
        }
    }

    /// Puts the fields of a typed command.
    fn put_fields(&self, r: &mut Putter<'_>) {
        match self {
            Self::RouteRequest {
                many_to_one,
                route_request_identifier,
                destination_address,
                path_cost,
                destination_eui64,
            } => {
                r.byte(many_to_one.code());
                r.byte(*route_request_identifier);
                r.address(*destination_address);
                r.byte(*path_cost);
                r.optional(destination_eui64.map(|address| address.0));
            }
            Self::RouteReply {
                route_request_identifier,
                originator_nwk,
                responder_nwk,
                path_cost,
                originator_eui64,
                responder_eui64,
            } => {
                r.byte(*route_request_identifier);
                r.address(*originator_nwk);
                r.address(*responder_nwk);
                r.byte(*path_cost);
                r.optional(originator_eui64.map(|address| address.0));
                r.optional(responder_eui64.map(|address| address.0));
            }
            Self::NetworkStatus { status_code, network_address } => {
                r.byte(status_code.code());
                r.address(*network_address);
            }
            Self::Leave { rejoin, request, remove_children } => {
                r.bit(*rejoin);
                r.bit(*request);
                r.bit(*remove_children);
            }
            Self::RejoinRequest { capability_information } => put_capability(r, capability_information),
            Self::RejoinResponse { network_address, rejoin_status: status }
            | Self::NetworkCommissioningResponse { network_address, status } => {
                r.address(*network_address);
                r.byte(status.code());
            }
            Self::LinkStatus { is_first_frame, is_last_frame, .. } => {
                r.bit(*is_first_frame);
                r.bit(*is_last_frame);
            }
            Self::NetworkReport { report_command_identifier, epid, .. } => {
                r.byte(report_command_identifier.code());
                r.bytes(&epid.0);
            }
            Self::NetworkUpdate {
                update_information_count,
                update_command_identifier,
                epid,
                update_id,
                new_pan_id,
            } => {
                r.byte(*update_information_count);
                r.byte(update_command_identifier.code());
                r.bytes(&epid.0);
                r.byte(*update_id);
                r.bytes(&new_pan_id.0.to_le_bytes());
            }
            Self::EndDeviceTimeoutRequest { request_timeout_enum, end_device_configuration } => {
                r.byte(request_timeout_enum.code());
                r.byte(*end_device_configuration);
            }
            Self::EndDeviceTimeoutResponse {
                status,
                mac_data_poll_keepalive_supported,
                end_device_timeout_request_keepalive_supported,
                power_negotiation_support,
            } => {
                r.byte(status.code());
                r.bit(*mac_data_poll_keepalive_supported);
                r.bit(*end_device_timeout_request_keepalive_supported);
                r.bit(*power_negotiation_support);
            }
            Self::LinkPowerDelta { command_type, .. } => r.byte(command_type.code()),
            Self::NetworkCommissioningRequest { commissioning_type, capability_information } => {
                r.byte(commissioning_type.code());
                put_capability(r, capability_information);
            }
            Self::RouteRecord { .. } | Self::Unparsed(_) => {}
        }
    }
}

fn capability(r: &mut Taker<'_>) -> NwkRejoinCapabilityInformation {
    NwkRejoinCapabilityInformation {
        alternate_pan_coordinator: r.bit(),
        router: r.bit(),
        mains_powered: r.bit(),
        receiver_on_when_idle: r.bit(),
        reserved1: r.bit(),
        reserved2: r.bit(),
        security_capability: r.bit(),
        allocate_address: r.bit(),
    }
}

fn put_capability(r: &mut Putter<'_>, information: &NwkRejoinCapabilityInformation) {
    r.bit(information.alternate_pan_coordinator);
    r.bit(information.router);
    r.bit(information.mains_powered);
    r.bit(information.receiver_on_when_idle);
    r.bit(information.reserved1);
    r.bit(information.reserved2);
    r.bit(information.security_capability);
    r.bit(information.allocate_address);
}

fn link_status(r: &mut Taker<'_>) -> NwkLinkStatus {
    NwkLinkStatus { address: r.address(), incoming_cost: r.byte(), outgoing_cost: r.byte() }
}

fn power_entry(r: &mut Taker<'_>) -> NwkPowerListEntry {
    NwkPowerListEntry { device_address: r.address(), power_delta: r.byte() }
}
