//! Each field of the safe types stands where the Zigbee formats put it: bytes written by hand, the value they mean, and the
//! bytes back.
use store_reader::*;

/// Reads the command, compares it, and writes it back to the same bytes.
fn both_ways(bytes: &[u8], expected: NwkCommand) {
    let read = NwkCommand::read(bytes).expect("a command");
    assert_eq!(read, expected);
    let mut out = [0; 108];
    let n = read.write(&mut out).expect("room");
    assert_eq!(&out[..n], bytes);
}

/// A list of these entries.
fn list<T: Copy + Default, const PLACES: usize>(entries: &[T]) -> List<T, PLACES> {
    List::try_from(entries).expect("enough places")
}

const IEEE_1: Eui64 = Eui64([1, 2, 3, 4, 5, 6, 7, 8]);
const IEEE_2: Eui64 = Eui64([0x11, 0x12, 0x13, 0x14, 0x15, 0x16, 0x17, 0x18]);

#[test]
fn routes() {
    both_ways(
        &[0x01, 0x30, 0x21, 0x43, 0x65, 0x07, 1, 2, 3, 4, 5, 6, 7, 8],
        NwkCommand::RouteRequest {
            many_to_one: NwkRouteRequestManyToOne::ManyToOneSenderDoesntSupportRouteRecordTable,
            route_request_identifier: 0x21,
            destination_address: Nwk(0x6543),
            path_cost: 7,
            destination_eui64: Some(IEEE_1),
        },
    );
    let responder_only =
        [0x02, 0x20, 0x21, 0x43, 0x65, 0x87, 0xA9, 0x07, 0x11, 0x12, 0x13, 0x14, 0x15, 0x16, 0x17, 0x18];
    both_ways(
        &responder_only,
        NwkCommand::RouteReply {
            route_request_identifier: 0x21,
            originator_nwk: Nwk(0x6543),
            responder_nwk: Nwk(0xA987),
            path_cost: 7,
            originator_eui64: None,
            responder_eui64: Some(IEEE_2),
        },
    );
    let mut both = responder_only.to_vec();
    both[1] = 0x30;
    both.splice(8..8, IEEE_1.0);
    both_ways(
        &both,
        NwkCommand::RouteReply {
            route_request_identifier: 0x21,
            originator_nwk: Nwk(0x6543),
            responder_nwk: Nwk(0xA987),
            path_cost: 7,
            originator_eui64: Some(IEEE_1),
            responder_eui64: Some(IEEE_2),
        },
    );
    both_ways(
        &[0x05, 2, 0x21, 0x43, 0x65, 0x87],
        NwkCommand::RouteRecord { relays: list(&[Nwk(0x4321), Nwk(0x8765)]) },
    );
    both_ways(
        &[0x03, 0x0B, 0x21, 0x43],
        NwkCommand::NetworkStatus { status_code: NwkNetworkStatus::SourceRouteFailure, network_address: Nwk(0x4321) },
    );
}

#[test]
fn joining_and_leaving() {
    for (bit, rejoin, request, remove_children) in
        [(0x20, true, false, false), (0x40, false, true, false), (0x80, false, false, true)]
    {
        both_ways(&[0x04, bit], NwkCommand::Leave { rejoin, request, remove_children });
    }
    for bit in 0..8u8 {
        let information = capability(bit);
        both_ways(&[0x06, 1 << bit], NwkCommand::RejoinRequest { capability_information: information });
        both_ways(
            &[0x0E, 0x01, 1 << bit],
            NwkCommand::NetworkCommissioningRequest {
                commissioning_type: NwkCommissioningType::Rejoin,
                capability_information: information,
            },
        );
    }
    let (network_address, status) = (Nwk(0x4321), Nwk802154AssociationStatus::ZigbeeAddressConflict);
    both_ways(&[0x07, 0x21, 0x43, 0xF0], NwkCommand::RejoinResponse { network_address, rejoin_status: status });
    both_ways(&[0x0F, 0x21, 0x43, 0xF0], NwkCommand::NetworkCommissioningResponse { network_address, status });
}

/// The capability information with this bit alone.
fn capability(bit: u8) -> NwkRejoinCapabilityInformation {
    NwkRejoinCapabilityInformation {
        alternate_pan_coordinator: bit == 0,
        router: bit == 1,
        mains_powered: bit == 2,
        receiver_on_when_idle: bit == 3,
        reserved1: bit == 4,
        reserved2: bit == 5,
        security_capability: bit == 6,
        allocate_address: bit == 7,
    }
}

#[test]
fn links_and_networks() {
    let link_statuses = list(&[
        NwkLinkStatus { address: Nwk(0x4321), incoming_cost: 1, outgoing_cost: 3 },
        NwkLinkStatus { address: Nwk(0x8765), incoming_cost: 7, outgoing_cost: 0 },
    ]);
    both_ways(
        &[0x08, 0x22, 0x21, 0x43, 0x31, 0x65, 0x87, 0x07],
        NwkCommand::LinkStatus { is_first_frame: true, is_last_frame: false, link_statuses },
    );
    both_ways(
        &[0x09, 0x02, 1, 2, 3, 4, 5, 6, 7, 8, 0x21, 0x43, 0x65, 0x87],
        NwkCommand::NetworkReport {
            report_command_identifier: NwkReportCommandIdentifier::PanIdentifierConflict,
            epid: IEEE_1,
            pan_ids: list(&[PanId(0x4321), PanId(0x8765)]),
        },
    );
    both_ways(
        &[0x0A, 0x05, 1, 2, 3, 4, 5, 6, 7, 8, 0x09, 0x21, 0x43],
        NwkCommand::NetworkUpdate {
            update_information_count: 5,
            update_command_identifier: NwkUpdateCommandIdentifier::PanIdentifierUpdate,
            epid: IEEE_1,
            update_id: 9,
            new_pan_id: PanId(0x4321),
        },
    );
    both_ways(
        &[0x0D, 0x02, 2, 0x21, 0x43, 0x05, 0x65, 0x87, 0xF6],
        NwkCommand::LinkPowerDelta {
            command_type: NwkLinkPowerDeltaType::Response,
            power_list: list(&[
                NwkPowerListEntry { device_address: Nwk(0x4321), power_delta: 5 },
                NwkPowerListEntry { device_address: Nwk(0x8765), power_delta: 0xF6 },
            ]),
        },
    );
}

#[test]
fn timeouts() {
    both_ways(
        &[0x0B, 0x03, 0x05],
        NwkCommand::EndDeviceTimeoutRequest {
            request_timeout_enum: EndDeviceTimeout::Minutes8,
            end_device_configuration: 5,
        },
    );
    for bit in 0..3 {
        both_ways(
            &[0x0C, 0x01, 1 << bit],
            NwkCommand::EndDeviceTimeoutResponse {
                status: NwkEndDeviceTimeoutResponseStatus::IncorrectValue,
                mac_data_poll_keepalive_supported: bit == 0,
                end_device_timeout_request_keepalive_supported: bit == 1,
                power_negotiation_support: bit == 2,
            },
        );
    }
}

#[test]
fn bytes_that_are_no_command_are_kept() {
    for bytes in [&[][..], &[0x00], &[0x10, 1, 2], &[0x04], &[0x03, 0x15, 0, 0]] {
        both_ways(bytes, NwkCommand::Unparsed(list(bytes)));
    }
}

/// A header with every field, and what it means.
const FULL_HEADER: [u8; 31] = [
    0x89, 0x9D, 0x21, 0x43, 0x65, 0x87, 0x1E, 0x07, 1, 2, 3, 4, 5, 6, 7, 8, 0x11, 0x12, 0x13, 0x14, 0x15, 0x16, 0x17,
    0x18, 0x5A, 2, 1, 0x0A, 0x0B, 0x0C, 0x0D,
];

fn full_header() -> NwkHeader {
    let control = NwkFrameControl {
        frame_type: NwkFrameType::Command,
        protocol_version: 2,
        discover_route: NwkRouteDiscovery::WithMulticast,
        multicast: true,
        security: false,
        source_route: true,
        destination: true,
        extended_source: true,
        end_device_initiator: false,
        reserved1: 2,
    };
    NwkHeader {
        frame_control: control,
        destination: Nwk(0x4321),
        source: Nwk(0x8765),
        radius: 30,
        sequence_number: 7,
        destination_ieee: Some(IEEE_1),
        source_ieee: Some(IEEE_2),
        multicast_control: Some(0x5A),
        source_route: Some(NwkSourceRoute { relay_index: 1, relays: list(&[Nwk(0x0B0A), Nwk(0x0D0C)]) }),
    }
}

#[test]
fn a_header_with_every_field() {
    assert_eq!(NwkHeader::read(&FULL_HEADER), Ok((full_header(), FULL_HEADER.len())));
    let mut out = [0; 118];
    assert_eq!(full_header().write(&mut out), Ok(FULL_HEADER.len()));
    assert_eq!(out[..FULL_HEADER.len()], FULL_HEADER);
}

/// The security bit is off: opening gives the header and, behind it, a Leave command with request; the output is not needed.
#[test]
fn a_clear_frame_with_every_field() {
    let frame = [&FULL_HEADER[..], &[0x04, 0x40]].concat();
    let opened = open(&Network::new(Key::new([0; 16])), &frame, &mut []).expect("a clear frame");
    let clear = opened.clear().expect("the security bit is off");
    assert_eq!(clear.header, full_header());
    assert_eq!(clear.payload.as_ptr_range(), frame[FULL_HEADER.len()..].as_ptr_range());
    let leave = NwkCommand::Leave { rejoin: false, request: true, remove_children: false };
    assert_eq!(NwkCommand::read(clear.payload), Ok(leave));
}

/// Each bit of frame control alone, a presence bit with its field.
#[test]
fn the_bits_of_frame_control() {
    for bit in 8..16 {
        let mut header = NwkHeader::new(NwkFrameType::Data, Nwk(0), Nwk(0));
        match bit {
            8 => header = header.with_multicast_control(0),
            9 => header = header.secured(),
            10 => header = header.with_source_route(NwkSourceRoute { relay_index: 0, relays: list(&[]) }),
            11 => header = header.with_destination_ieee(IEEE_1),
            12 => header = header.with_source_ieee(IEEE_1),
            13 => header.frame_control.end_device_initiator = true,
            14 => header.frame_control.reserved1 = 1,
            _ => header.frame_control.reserved1 = 2,
        }
        let mut out = [0; MAX_FRAME];
        let field = [1, 0, 2, 8, 8, 0, 0, 0][bit - 8];
        assert_eq!(header.write(&mut out), Ok(8 + field));
        assert_eq!(u16::from_le_bytes([out[0], out[1]]), 0x0008 | 1 << bit);
    }
}

#[test]
fn an_auxiliary_header_with_every_field() {
    let bytes = [0x75, 0x45, 0x23, 0x01, 0x80, 1, 2, 3, 4, 5, 6, 7, 8, 0x09];
    let expected = NwkAuxHeader {
        security_control: NwkSecurityHeaderControlField {
            security_level: NwkSecurityLevel::EncMic32,
            key_id: NwkSecurityHeaderKeyId::KeyTransportKey,
            extended_nonce: true,
            require_verified_frame_counter: true,
        },
        frame_counter: 0x8001_2345,
        extended_source: Some(IEEE_1),
        key_sequence_number: 9,
    };
    assert_eq!(NwkAuxHeader::read(&bytes), Ok((expected, bytes.len())));
    let mut out = [0; 14];
    assert_eq!(expected.write(&mut out), Ok(14));
    assert_eq!(out, bytes);
}

/// What a record's field cannot hold is refused by 13, and nothing is written.
#[test]
fn fields_that_do_not_fit() {
    let mut header = NwkHeader::new(NwkFrameType::Data, Nwk(0), Nwk(0));
    let mut out = [0xA5; MAX_FRAME];
    header.frame_control.protocol_version = 16;
    assert_eq!(header.write(&mut out), Err(Refusal::FIELD));
    header.frame_control.protocol_version = 2;
    header.frame_control.reserved1 = 4;
    assert_eq!(header.write(&mut out), Err(Refusal::FIELD));
    header.frame_control.reserved1 = 0;
    let header = header.with_source_route(NwkSourceRoute { relay_index: 0, relays: list(&[Nwk(1); 54]) });
    assert_eq!(header.write(&mut out), Ok(8 + 2 + 2 * 54));
    out.fill(0xA5);
    assert_eq!(write(&header, &[0], &mut out), Err(Refusal::LENGTH));
    let link = NwkLinkStatus { address: Nwk(1), incoming_cost: 8, outgoing_cost: 0 };
    let links = NwkCommand::LinkStatus { is_first_frame: true, is_last_frame: true, link_statuses: list(&[link]) };
    assert_eq!(links.write(&mut out), Err(Refusal::FIELD));
    let identifier = NwkUpdateCommandIdentifier::PanIdentifierUpdate;
    let update = NwkCommand::NetworkUpdate {
        update_information_count: 32,
        update_command_identifier: identifier,
        epid: IEEE_1,
        update_id: 0,
        new_pan_id: PanId(0),
    };
    assert_eq!(update.write(&mut out), Err(Refusal::FIELD));
    assert_eq!(out, [0xA5; MAX_FRAME]);
}

/// A list has as many places as the record: 54 relays in a header, 53 in a route record, 31 neighbours, 31 PAN identifiers,
/// 35 powers, 108 bytes. A full one is written and read back, and none takes an entry more.
#[test]
fn lists_up_to_their_last_place() {
    let full = Err(Full { places: 54 });
    assert_eq!(List::<Nwk, 54>::try_from(&[Nwk(1); 55][..]), full);
    let link = NwkLinkStatus { address: Nwk(0x4321), incoming_cost: 7, outgoing_cost: 7 };
    let power = NwkPowerListEntry { device_address: Nwk(0x4321), power_delta: 0xF6 };
    assert_eq!(power.decibels(), -10);
    for (command, length) in [
        (NwkCommand::RouteRecord { relays: list(&[Nwk(0x4321); 53]) }, 2 + 2 * 53),
        (
            NwkCommand::LinkStatus { is_first_frame: true, is_last_frame: false, link_statuses: list(&[link; 31]) },
            2 + 3 * 31,
        ),
        (
            NwkCommand::NetworkReport {
                report_command_identifier: NwkReportCommandIdentifier::PanIdentifierConflict,
                epid: IEEE_1,
                pan_ids: list(&[PanId(0x4321); 31]),
            },
            10 + 2 * 31,
        ),
        (
            NwkCommand::LinkPowerDelta { command_type: NwkLinkPowerDeltaType::Request, power_list: list(&[power; 35]) },
            3 + 3 * 35,
        ),
        (NwkCommand::Unparsed(list(&[0; 108])), 108),
    ] {
        let mut out = [0; MAX_PAYLOAD];
        assert_eq!(command.write(&mut out), Ok(length));
        assert_eq!(NwkCommand::read(&out[..length]), Ok(command));
    }
}
