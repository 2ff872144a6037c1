//! The library allocates nothing: an allocator that counts sees no call from any of its operations.
use std::alloc::{GlobalAlloc, Layout, System};
use std::cell::Cell;
use store_reader::{
    decrypt_ccm, encrypt_block, encrypt_ccm, hex, next_counter, open, open_burst, read, recover, seal, shrink,
    split_mic, timeout_seconds, write, write_record, Eui64, JournalRecord, Key, Network, Nwk, NwkAuxHeader, NwkCommand,
    NwkFrameType, NwkHeader, NwkSourceRoute, OpenedFrame, OpenedRecord, Refusal, SenderRecord, Senders, MAX_BURST,
    MAX_BURST_OUTPUT, MAX_FRAME, MAX_JOURNAL_RECORD, MAX_PAYLOAD, MAX_SENDERS, MAX_SHRUNK_JOURNAL,
};

struct Counting;

thread_local! {
    static ALLOCATIONS: Cell<u64> = const { Cell::new(0) };
}

// SAFETY: every call is handed to the system's allocator as it came.
unsafe impl GlobalAlloc for Counting {
    unsafe fn alloc(&self, layout: Layout) -> *mut u8 {
        ALLOCATIONS.with(|count| count.set(count.get() + 1));
        System.alloc(layout)
    }

    unsafe fn dealloc(&self, pointer: *mut u8, layout: Layout) {
        System.dealloc(pointer, layout);
    }
}

#[global_allocator]
static ALLOCATOR: Counting = Counting;

fn allocations() -> u64 {
    ALLOCATIONS.with(Cell::get)
}

/// Every operation once, with the longest lists.
fn everything() -> Result<(), Refusal> {
    let key: Key = "C0C1C2C3C4C5C6C7C8C9CACBCCCDCECF".parse().map_err(|_| Refusal::INTERNAL)?;
    let network = Network::new(key).with_level("6".parse()?);
    let probe: Eui64 = "00:12:4B:00:1C:A1:B2:C3".parse().map_err(|_| Refusal::INTERNAL)?;
    let route = NwkSourceRoute { relay_index: 0, relays: [Nwk(3); 9][..].try_into().unwrap_or_default() };
    let mut header = NwkHeader::new(NwkFrameType::Command, Nwk(1), Nwk(2)).with_source_route(route).secured();
    let (mut frame, mut out) = ([0; MAX_FRAME], [0; MAX_PAYLOAD]);
    let mut record = [0; MAX_PAYLOAD];
    let relays = [Nwk(4); 20][..].try_into().unwrap_or_default();
    let length = NwkCommand::RouteRecord { relays }.write(&mut record)?;
    let auxiliary = NwkAuxHeader::new(1, probe);
    assert_eq!(header.disagreement_in_sealing(Some(&auxiliary)), None);
    let n = seal(&network, &header, Some(&auxiliary), &record[..length], &mut frame)?;
    let opened = open(&network, &frame[..n], &mut out)?.sealed().ok_or(Refusal::INTERNAL)?;
    opened.header.frame_control.frame_type.payload()?;
    NwkCommand::read(opened.payload)?;
    inbound(&network.key, &opened)?;
    journal()?;
    read(&frame[..n])?;
    burst(&network, &frame[..n])?;
    header.frame_control.security = false;
    let n = write(&header, &record[..length], &mut frame)?;
    let clear = open(&network, &frame[..n], &mut [])?.clear().ok_or(Refusal::INTERNAL)?;
    NwkCommand::read(clear.payload)?;
    NwkHeader::read(&frame[..n])?.0.write(&mut frame)?;
    NwkAuxHeader::read(&[0x28; 14])?.0.write(&mut frame)?;
    let (n, mic) = encrypt_ccm(&network, &[0; 13], b"auth", b"payload", &mut out)?;
    decrypt_ccm(&network, &[0; 13], b"auth", &out[..n], &mic, &mut frame)?;
    let _ = encrypt_block(&network.key, &[0; 16]);
    split_mic(network.level, &[0; 8])?;
    timeout_seconds(14)?;
    hex("08 00", &mut out).map_err(|_| Refusal::INTERNAL)?;
    assert_eq!(open(&network, &[0; 3], &mut out).map(|_| ()), Err(Refusal::SHORT_HEADER));
    Ok(())
}

/// A frame asked for and noted, and as many senders as there are places for.
fn inbound(key: &Key, frame: &OpenedFrame<'_>) -> Result<(), Refusal> {
    let (mut senders, mut list) = (Senders::new(), [SenderRecord::FREE; MAX_SENDERS + 1]);
    let counter = frame.auxiliary.frame_counter;
    senders.inbound_network_key(key, 0, frame.nonce_ieee, frame.auxiliary.key_sequence_number, counter)?;
    senders.note_inbound_frame_counter(frame.nonce_ieee, counter)?;
    let again = senders.inbound_network_key(key, 0, frame.nonce_ieee, frame.auxiliary.key_sequence_number, counter);
    assert_eq!(again, Err(Refusal::FRAME_COUNTER));
    let mut lent = Senders::lent(&mut list);
    for sender in 0..MAX_SENDERS {
        lent.note_inbound_frame_counter(Eui64::from(sender as u64), counter)?;
    }
    assert_eq!(lent.note_inbound_frame_counter(frame.nonce_ieee, counter), Err(Refusal::NO_PLACE));
    lent.forget(Eui64::from(0));
    lent.note_inbound_frame_counter(frame.nonce_ieee, counter)?;
    Ok(())
}

/// A ceiling, as many senders as there are places for, and a key number, written, recovered and shrunk.
fn journal() -> Result<(), Refusal> {
    let (mut journal, mut end) = ([0; (MAX_SENDERS + 2) * MAX_JOURNAL_RECORD], 0);
    let senders = (0..MAX_SENDERS).map(|n| JournalRecord::Sender { address: Eui64::from(n as u64), counter: 7 });
    for record in senders.chain([JournalRecord::Ceiling(5), JournalRecord::KeyNumber(1)]) {
        let (front, out) = journal.split_at_mut(end);
        end += write_record(front, record, out)?;
    }
    let recovered = recover(&journal[..end], &mut Senders::new())?;
    assert_eq!((recovered.ceiling, recovered.key_number, recovered.complete), (5, Some(1), end));
    assert_eq!(next_counter(&journal[..end], 4), Ok(5));
    assert_eq!(next_counter(&journal[..end], recovered.ceiling), Err(Refusal::NO_CEILING));
    let mut shrunk = [0; MAX_SHRUNK_JOURNAL];
    assert_eq!(shrink(&journal[..end], &mut shrunk), Ok(MAX_SHRUNK_JOURNAL));
    assert_eq!(shrink(&journal[..end], &mut shrunk[1..]), Err(Refusal::NO_ROOM));
    Ok(())
}

/// A frame as often as a burst has places.
fn burst(network: &Network, frame: &[u8]) -> Result<(), Refusal> {
    let mut frames = [0; MAX_BURST * MAX_FRAME];
    let end = MAX_BURST * frame.len();
    frames[..end].chunks_mut(frame.len()).for_each(|place| place.copy_from_slice(frame));
    let lengths = [frame.len() as u16; MAX_BURST];
    let (mut answers, mut out) = ([OpenedRecord::new(); MAX_BURST], [0; MAX_BURST_OUTPUT]);
    let opened = open_burst(network, &frames[..end], &lengths, &mut answers, &mut out)?;
    assert_eq!(opened.len(), MAX_BURST);
    for answer in opened {
        NwkCommand::read(answer?.sealed().ok_or(Refusal::INTERNAL)?.payload)?;
    }
    Ok(())
}

#[test]
fn no_operation_allocates() {
    let before = allocations();
    drop(Vec::<u8>::with_capacity(1));
    assert_eq!(allocations(), before + 1, "the allocator does not count");
    let before = allocations();
    assert_eq!(everything(), Ok(()));
    assert_eq!(allocations(), before);
}
