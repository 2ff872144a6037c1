//! Presence bits in the safe types (document 02, request 8): builders that set them, and which bit 28 is about.
use store_reader::{
    open, seal, write, Eui64, Key, Network, Nwk, NwkAuxHeader, NwkFrameType, NwkHeader, NwkSourceRoute, PresenceBit,
    Refusal, MAX_FRAME, MAX_PAYLOAD,
};

const PROBE: Eui64 = Eui64([1, 2, 3, 4, 5, 6, 7, 8]);
const PAYLOAD: &[u8] = b"21.5 C";

fn plain() -> NwkHeader {
    NwkHeader::new(NwkFrameType::Data, Nwk(0x1234), Nwk(0))
}

/// A source route without relays is present like any other.
fn route() -> NwkSourceRoute {
    NwkSourceRoute { relay_index: 0, relays: [].as_slice().try_into().expect("no relays") }
}

/// A header with the fields of a choice, built with their bits.
fn built(fields: u8) -> NwkHeader {
    let mut header = plain();
    header = if fields & 1 != 0 { header.with_multicast_control(0x5A) } else { header };
    header = if fields & 2 != 0 { header.with_source_route(route()) } else { header };
    header = if fields & 4 != 0 { header.with_destination_ieee(PROBE) } else { header };
    if fields & 8 != 0 {
        header.with_source_ieee(PROBE)
    } else {
        header
    }
}

/// The header with bits 8 to 12 of another choice.
fn with_bits(mut header: NwkHeader, bits: u8) -> NwkHeader {
    let control = &mut header.frame_control;
    control.multicast = bits & 1 != 0;
    control.security = bits & 2 != 0;
    control.source_route = bits & 4 != 0;
    control.destination = bits & 8 != 0;
    control.extended_source = bits & 16 != 0;
    header
}

fn sealed(header: &NwkHeader, auxiliary: Option<&NwkAuxHeader>, frame: &mut [u8]) -> Result<usize, Refusal> {
    seal(&Network::new(Key::new([7; 16])), header, auxiliary, PAYLOAD, frame)
}

/// As a new user meets it: a header with an address, and an auxiliary header, the bits left as they were.
#[test]
fn a_header_filled_in_by_hand() {
    let (mut header, mut auxiliary) = (plain(), NwkAuxHeader::without_ieee(1));
    header.source_ieee = Some(PROBE);
    let mut frame = [0xA5; MAX_FRAME];
    let refused = |header: &NwkHeader, auxiliary: &NwkAuxHeader, bit: PresenceBit| {
        assert_eq!(sealed(header, Some(auxiliary), &mut [0xA5; MAX_FRAME]), Err(Refusal::PRESENCE_BITS));
        assert_eq!(header.disagreement_in_sealing(Some(auxiliary)), Some(bit));
    };
    refused(&header, &auxiliary, PresenceBit::SourceIeee);
    assert_eq!(write(&header, PAYLOAD, &mut frame), Err(Refusal::PRESENCE_BITS));
    header.set_presence_bits();
    refused(&header, &auxiliary, PresenceBit::Security);
    header.frame_control.security = true;
    auxiliary.extended_source = Some(PROBE);
    refused(&header, &auxiliary, PresenceBit::ExtendedNonce);
    auxiliary.security_control.extended_nonce = auxiliary.extended_source.is_some();
    assert_eq!(frame, [0xA5; MAX_FRAME]);

    let n = sealed(&header, Some(&auxiliary), &mut frame).expect("a sealed frame");
    let mut out = [0; MAX_PAYLOAD];
    let opened =
        open(&Network::new(Key::new([7; 16])), &frame[..n], &mut out).expect("a frame").sealed().expect("a sealed one");
    assert_eq!((opened.header, opened.auxiliary, opened.payload), (header, auxiliary, PAYLOAD));
}

/// Whatever is built is written, reads back the same, and is sealed once it is secured; the bits are those that
/// `set_presence_bits` sets.
#[test]
fn built_headers_are_never_refused_by_28() {
    for fields in 0..16 {
        let header = built(fields);
        let mut again = with_bits(header.clone(), 31);
        again.set_presence_bits();
        assert_eq!(again, header.clone().secured());
        let mut out = [0; MAX_FRAME];
        let n = header.write(&mut out).expect("a header");
        assert_eq!(NwkHeader::read(&out[..n]), Ok((header.clone(), n)));
        write(&header, PAYLOAD, &mut out).expect("a frame");
        sealed(&header.clone().secured(), Some(&NwkAuxHeader::new(1, PROBE)), &mut out).expect("a sealed frame");
        let without = sealed(&header.secured(), Some(&NwkAuxHeader::without_ieee(1)), &mut out);
        assert_eq!(without.err(), (fields & 8 == 0).then_some(Refusal::NO_IEEE));
    }
}

/// Each choice of fields beside each choice of bits 8 to 12, with no auxiliary header and with each: a bit is named exactly where the
/// codec answers 28, and it is the first one in its order.
#[test]
fn the_bit_that_disagrees_is_named() {
    let mut misleading = [NwkAuxHeader::new(1, PROBE), NwkAuxHeader::without_ieee(1)];
    misleading.iter_mut().for_each(|auxiliary| auxiliary.security_control.extended_nonce ^= true);
    let auxiliaries = [NwkAuxHeader::new(1, PROBE), NwkAuxHeader::without_ieee(1), misleading[0], misleading[1]];
    let mut named = [0; 6];
    for (fields, bits) in (0..16).flat_map(|fields| (0..32).map(move |bits| (fields, bits))) {
        let header = with_bits(built(fields), bits);
        let wrong = fields ^ (bits & 1 | bits >> 1 & 14);
        let first =
            [PresenceBit::Multicast, PresenceBit::SourceRoute, PresenceBit::DestinationIeee, PresenceBit::SourceIeee]
                .into_iter()
                .nth(wrong.trailing_zeros() as usize);
        assert_eq!(header.disagreement(), first, "{fields:X} {bits:02X}");
        let mut out = [0; MAX_FRAME];
        let refused = |refusal| refusal == Some(Refusal::PRESENCE_BITS);
        assert_eq!(refused(header.write(&mut out).err()), first.is_some(), "{fields:X} {bits:02X}");
        assert_eq!(refused(write(&header, PAYLOAD, &mut out).err()), first.is_some(), "{fields:X} {bits:02X}");
        for auxiliary in auxiliaries.iter().map(Some).chain([None]) {
            let nonce = auxiliary.is_some_and(|auxiliary| misleading.contains(auxiliary));
            let expected = first
                .or((bits & 2 == 0).then_some(PresenceBit::Security))
                .or(nonce.then_some(PresenceBit::ExtendedNonce));
            let found = header.disagreement_in_sealing(auxiliary);
            assert_eq!(found, expected, "{fields:X} {bits:02X} {auxiliary:?}");
            assert_eq!(refused(sealed(&header, auxiliary, &mut out).err()), found.is_some(), "{fields:X} {bits:02X}");
            found.iter().for_each(|bit| named[*bit as usize] += 1);
        }
    }
    assert!(named.iter().all(|n| *n > 0), "{named:?}");
}

/// A field that does not fit comes first, and an auxiliary header that is written alone may disagree.
#[test]
fn what_28_is_not_said_of() {
    let mut header = plain();
    header.source_ieee = Some(PROBE);
    header.frame_control.protocol_version = 16;
    let mut out = [0; MAX_FRAME];
    assert_eq!(header.write(&mut out), Err(Refusal::FIELD));
    assert_eq!(sealed(&plain().secured(), None, &mut out), Err(Refusal::NO_AUXILIARY));
    assert_eq!(plain().secured().disagreement_in_sealing(None), None);
    let mut auxiliary = NwkAuxHeader::new(1, PROBE);
    auxiliary.security_control.extended_nonce = false;
    assert_eq!(auxiliary.disagreement(), Some(PresenceBit::ExtendedNonce));
    assert_eq!(auxiliary.write(&mut out), Ok(14));
}

#[test]
fn each_bit_says_what_is_wrong() {
    let texts = [
        (PresenceBit::Multicast, "bit 8 of frame control disagrees with the multicast control"),
        (PresenceBit::SourceRoute, "bit 10 of frame control disagrees with the source route"),
        (PresenceBit::DestinationIeee, "bit 11 of frame control disagrees with the destination IEEE"),
        (PresenceBit::SourceIeee, "bit 12 of frame control disagrees with the source IEEE"),
        (PresenceBit::Security, "bit 9 of frame control is off"),
        (PresenceBit::ExtendedNonce, "the extended nonce bit disagrees with the auxiliary IEEE"),
    ];
    texts.into_iter().for_each(|(bit, text)| assert_eq!(bit.to_string(), text));
}
