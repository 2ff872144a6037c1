//! What is shown of headers and commands.
use super::value::{write_line, Fields, Value};
use std::fmt::Debug;
use std::io::{self, Write};
use store_reader::{
    timeout_seconds, Eui64, NwkAuxHeader, NwkCommand, NwkHeader, NwkRejoinCapabilityInformation, NwkSourceRoute,
};

/// Adds the fields of a header; those that are missing or off are left out.
pub fn add_header(header: &NwkHeader, fields: &mut Fields) {
    let control = header.frame_control;
    fields.extend([
        ("type", name(control.frame_type)),
        ("source", Value::text(header.source)),
        ("destination", Value::text(header.destination)),
        ("sequence", header.sequence_number.into()),
        ("radius", header.radius.into()),
        ("version", control.protocol_version.into()),
        ("discovery", name(control.discover_route)),
        ("security", control.security.into()),
        ("end_device_initiator", control.end_device_initiator.into()),
    ]);
    if control.reserved1 != 0 {
        fields.push(("bits_14_15", control.reserved1.into()));
    }
    address(fields, "destination_ieee", header.destination_ieee);
    address(fields, "source_ieee", header.source_ieee);
    if let Some(multicast) = header.multicast_control {
        fields.push(("multicast_control", multicast.into()));
    }
    if let Some(route) = &header.source_route {
        fields.push(("source_route", source_route(route)));
    }
}

fn source_route(route: &NwkSourceRoute) -> Value {
    Value::Object(vec![("index", route.relay_index.into()), ("relays", Value::list(&route.relays, Value::text))])
}

/// The fields of an auxiliary header.
pub fn auxiliary(auxiliary: &NwkAuxHeader) -> Fields {
    let control = auxiliary.security_control;
    let mut fields: Fields = vec![
        ("counter", auxiliary.frame_counter.into()),
        ("level", control.security_level.code().into()),
        ("key", name(control.key_id)),
        ("key_sequence", auxiliary.key_sequence_number.into()),
        ("verified_counter", control.require_verified_frame_counter.into()),
    ];
    address(&mut fields, "ieee", auxiliary.extended_source);
    fields
}

/// A command's name and fields.
pub fn command(command: &NwkCommand) -> Fields {
    let mut fields: Fields = vec![("name", Value::Text(command_name(command)))];
    fields.extend(command_fields(command));
    fields
}

/// Writes a command's name and fields on one line.
pub fn write_command(command: &NwkCommand, out: &mut impl Write) -> io::Result<()> {
    let fields = command_fields(command);
    let colon = if fields.iter().all(|(_, value)| value.is_off()) { "" } else { ": " };
    write!(out, "{}{colon}", command_name(command))?;
    write_line(&fields, ", ", out)
}

/// A command's name.
pub fn command_name(command: &NwkCommand) -> String {
    match command {
        NwkCommand::Unparsed(_) => "unparsed".to_string(),
        typed => typed.command_id().map_or_else(String::new, |id| spaced(&id)),
    }
}

fn command_fields(command: &NwkCommand) -> Fields {
    match command {
        NwkCommand::RouteRequest {
            many_to_one,
            route_request_identifier,
            destination_address,
            path_cost,
            destination_eui64,
        } => {
            let mut fields: Fields = vec![
                ("many_to_one", many_to_one.code().into()),
                ("request", (*route_request_identifier).into()),
                ("for", Value::text(destination_address)),
                ("path_cost", (*path_cost).into()),
            ];
            address(&mut fields, "for_ieee", *destination_eui64);
            fields
        }
        NwkCommand::RouteReply {
            route_request_identifier,
            originator_nwk,
            responder_nwk,
            path_cost,
            originator_eui64,
            responder_eui64,
        } => {
            let mut fields: Fields = vec![
                ("request", (*route_request_identifier).into()),
                ("originator", Value::text(originator_nwk)),
                ("responder", Value::text(responder_nwk)),
                ("path_cost", (*path_cost).into()),
            ];
            address(&mut fields, "originator_ieee", *originator_eui64);
            address(&mut fields, "responder_ieee", *responder_eui64);
            fields
        }
        NwkCommand::NetworkStatus { status_code, network_address } => {
            vec![("status", name(*status_code)), ("of", Value::text(network_address))]
        }
        NwkCommand::Leave { rejoin, request, remove_children } => vec![
            ("rejoin", (*rejoin).into()),
            ("request", (*request).into()),
            ("remove_children", (*remove_children).into()),
        ],
        NwkCommand::RouteRecord { relays } => vec![("relays", Value::list(relays, Value::text))],
        NwkCommand::RejoinRequest { capability_information } => capability(capability_information),
        NwkCommand::RejoinResponse { network_address, rejoin_status: status }
        | NwkCommand::NetworkCommissioningResponse { network_address, status } => {
            vec![("address", Value::text(network_address)), ("status", name(*status))]
        }
        NwkCommand::LinkStatus { is_first_frame, is_last_frame, link_statuses } => vec![
            ("first", (*is_first_frame).into()),
            ("last", (*is_last_frame).into()),
            (
                "links",
                Value::list(link_statuses, |link| {
                    Value::Object(vec![
                        ("to", Value::text(link.address)),
                        ("in", link.incoming_cost.into()),
                        ("out", link.outgoing_cost.into()),
                    ])
                }),
            ),
        ],
        NwkCommand::NetworkReport { report_command_identifier, epid, pan_ids } => vec![
            ("report", name(*report_command_identifier)),
            ("extended_pan", Value::text(epid)),
            ("pans", Value::list(pan_ids, Value::text)),
        ],
        NwkCommand::NetworkUpdate {
            update_information_count,
            update_command_identifier,
            epid,
            update_id,
            new_pan_id,
        } => vec![
            ("update", name(*update_command_identifier)),
            ("count", (*update_information_count).into()),
            ("extended_pan", Value::text(epid)),
            ("update_id", (*update_id).into()),
            ("new_pan", Value::text(new_pan_id)),
        ],
        NwkCommand::EndDeviceTimeoutRequest { request_timeout_enum, end_device_configuration } => {
            let code = request_timeout_enum.code();
            let mut fields: Fields = vec![("timeout", code.into())];
            if let Ok(seconds) = timeout_seconds(code) {
                fields.push(("seconds", seconds.into()));
            }
            fields.push(("configuration", (*end_device_configuration).into()));
            fields
        }
        NwkCommand::EndDeviceTimeoutResponse {
            status,
            mac_data_poll_keepalive_supported,
            end_device_timeout_request_keepalive_supported,
            power_negotiation_support,
        } => vec![
            ("status", name(*status)),
            ("data_poll_keepalive", (*mac_data_poll_keepalive_supported).into()),
            ("timeout_request_keepalive", (*end_device_timeout_request_keepalive_supported).into()),
            ("power_negotiation", (*power_negotiation_support).into()),
        ],
        NwkCommand::LinkPowerDelta { command_type, power_list } => vec![
            ("kind", name(*command_type)),
            (
                "powers",
                Value::list(power_list, |entry| {
                    Value::Object(vec![("of", Value::text(entry.device_address)), ("delta", entry.decibels().into())])
                }),
            ),
        ],
        NwkCommand::NetworkCommissioningRequest { commissioning_type, capability_information } => {
            let mut fields: Fields = vec![("commissioning", name(*commissioning_type))];
            fields.extend(capability(capability_information));
            fields
        }
        NwkCommand::Unparsed(bytes) => vec![("bytes", Value::bytes(bytes))],
    }
}

fn capability(information: &NwkRejoinCapabilityInformation) -> Fields {
    vec![
        ("alternate_pan_coordinator", information.alternate_pan_coordinator.into()),
        ("router", information.router.into()),
        ("mains_powered", information.mains_powered.into()),
        ("receiver_on_when_idle", information.receiver_on_when_idle.into()),
        ("reserved_1", information.reserved1.into()),
        ("reserved_2", information.reserved2.into()),
        ("security_capability", information.security_capability.into()),
        ("allocate_address", information.allocate_address.into()),
    ]
}

fn address(fields: &mut Fields, field: &'static str, address: Option<Eui64>) {
    if let Some(address) = address {
        fields.push((field, Value::text(address)));
    }
}

/// A case's name in words.
fn name(case: impl Debug) -> Value {
    Value::Text(spaced(&case))
}

/// `LinkStatus` as `link status`.
fn spaced(case: &impl Debug) -> String {
    let mut words = String::new();
    for character in format!("{case:?}").chars() {
        if character.is_ascii_uppercase() && !words.is_empty() {
            words.push(' ');
        }
        words.push(character.to_ascii_lowercase());
    }
    words
}
