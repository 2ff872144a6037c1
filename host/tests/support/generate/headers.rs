//! Generated headers and auxiliary headers, as bytes and as records.
use crate::support::model::auxiliary::{self, Auxiliary};
use crate::support::model::header::{
    Header, SourceRoute, DESTINATION_IEEE, MAX_RELAYS, MULTICAST, PRESENCE, SECURITY, SOURCE_IEEE, SOURCE_ROUTE,
};
use crate::support::model::LAST_COUNTER;
use crate::support::random::Random;

/// A header whose presence bits agree with its fields; the security bit is set in so many of 100.
pub fn header(secured: usize, random: &mut Random) -> Header {
    let mut header = Header {
        frame_type: random.pick(&[0, 1, 3]),
        version: random.below(16) as u8,
        discovery: random.below(3) as u8,
        bits: [false; 6],
        kept: random.below(4) as u8,
        destination: random.array(),
        source: random.array(),
        radius: random.byte(),
        sequence: random.byte(),
        destination_ieee: random.bit().then(|| random.array()),
        source_ieee: random.bit().then(|| random.array()),
        multicast_control: random.bit().then(|| random.byte()),
        source_route: random.bit().then(|| source_route(random)),
    };
    header.bits[SECURITY] = random.percent(secured);
    header.bits[5] = random.bit();
    agree(&mut header);
    header
}

/// The shortest header, without any optional field.
pub fn plain_header(random: &mut Random) -> Header {
    let fieldless = Header { destination_ieee: None, source_ieee: None, multicast_control: None, ..header(0, random) };
    let mut header = Header { source_route: None, ..fieldless };
    agree(&mut header);
    header
}

/// Sets the four presence bits as the fields are.
pub fn agree(header: &mut Header) {
    header.bits[MULTICAST] = header.multicast_control.is_some();
    header.bits[SOURCE_ROUTE] = header.source_route.is_some();
    header.bits[DESTINATION_IEEE] = header.destination_ieee.is_some();
    header.bits[SOURCE_IEEE] = header.source_ieee.is_some();
}

/// Mostly a few relays, so that a payload fits behind them; sometimes up to all 54.
fn source_route(random: &mut Random) -> SourceRoute {
    let most = if random.percent(75) { 5 } else { MAX_RELAYS };
    source_route_of(random.between(0, most), random)
}

fn source_route_of(relays: usize, random: &mut Random) -> SourceRoute {
    SourceRoute { index: random.byte(), relays: (0..relays).map(|_| random.array()).collect() }
}

/// An auxiliary header whose presence bit agrees with its field.
pub fn auxiliary(random: &mut Random) -> Auxiliary {
    let ieee = random.percent(70).then(|| random.array());
    Auxiliary {
        level: random.below(8) as u8,
        key_id: random.below(4) as u8,
        extended_nonce: ieee.is_some(),
        verified_counter: random.bit(),
        counter: counter(random),
        ieee,
        key_sequence: random.byte(),
    }
}

/// Any counter; some are the last one, and some differ from it in one byte, mostly by 1.
fn counter(random: &mut Random) -> [u8; 4] {
    let mut counter = LAST_COUNTER;
    match random.below(20) {
        0 => {}
        1 => counter[random.below(4)] = random.pick(&[0xFE, 0xFE, 0x7F, 0]),
        _ => counter = random.array(),
    }
    counter
}

/// A header's bytes with anything behind them, brought to the length wanted.
pub fn header_bytes(wanted: Option<usize>, random: &mut Random) -> Vec<u8> {
    let mut bytes = header(50, random).bytes();
    let behind = random.below(20);
    bytes.extend(random.bytes(behind));
    sized(bytes, wanted, random)
}

/// An auxiliary header's bytes, bit 7 of its control at random, brought to the length wanted.
pub fn auxiliary_bytes(wanted: Option<usize>, random: &mut Random) -> Vec<u8> {
    let mut bytes = auxiliary(random).bytes();
    bytes[0] |= u8::from(random.bit()) << 7;
    let behind = random.below(4);
    bytes.extend(random.bytes(behind));
    sized(bytes, wanted, random)
}

/// Cuts bytes, or adds random ones, to have the length wanted.
pub fn sized(mut bytes: Vec<u8>, wanted: Option<usize>, random: &mut Random) -> Vec<u8> {
    let Some(wanted) = wanted else {
        return bytes;
    };
    bytes.truncate(wanted);
    let missing = wanted - bytes.len();
    bytes.extend(random.bytes(missing));
    bytes
}

/// A header record for writing, the security bit set in so many of 100; some headers are too long. The presence bits of most agree
/// with the fields; in some one of them does not, and a few have any bits. Places that are not read may hold anything.
pub fn any_header_record(secured: usize, random: &mut Random) -> Vec<u8> {
    let mut header = header(secured, random);
    if random.percent(8) {
        header.source_route = Some(source_route_of(random.between(44, MAX_RELAYS), random));
        agree(&mut header);
    }
    match random.below(25) {
        0..=3 => header.bits[random.pick(&PRESENCE)] ^= true,
        4 => header.bits = std::array::from_fn(|_| random.bit()),
        _ => {}
    }
    let mut record = header.record();
    if random.percent(50) {
        scatter_header(&header, &mut record, random);
    }
    record
}

/// Random bytes in absent fields and past the relay count.
pub fn scatter_header(header: &Header, record: &mut [u8], random: &mut Random) {
    let relays_end = match &header.source_route {
        Some(route) => 39 + 2 * route.relays.len(),
        None => 37,
    };
    let unread = [
        (header.destination_ieee.is_none(), 17..25),
        (header.source_ieee.is_none(), 26..34),
        (header.multicast_control.is_none(), 35..36),
        (true, relays_end..record.len()),
    ];
    for (_, places) in unread.into_iter().filter(|(absent, _)| *absent) {
        scatter(&mut record[places], random);
    }
}

/// Random bytes in all the places.
pub fn scatter(places: &mut [u8], random: &mut Random) {
    places.iter_mut().for_each(|place| *place = random.byte());
}

/// An auxiliary record for writing, sometimes without the auxiliary header or with a bit that does not agree.
pub fn any_auxiliary_record(random: &mut Random) -> Vec<u8> {
    let mut some = auxiliary(random);
    if random.percent(8) {
        some.extended_nonce ^= true;
    }
    let mut record = auxiliary::record(&Some(some));
    if record[9] == 0 && random.bit() {
        scatter(&mut record[10..18], random);
    }
    if random.percent(7) {
        // absent, with the rest mostly left as it was, else 0 or anything
        match random.below(4) {
            0 => record.fill(0),
            1 => scatter(&mut record, random),
            _ => {}
        }
        record[0] = 0;
    }
    record
}
