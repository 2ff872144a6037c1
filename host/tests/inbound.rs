//! The inbound counters: asking for a key, noting a counter and forgetting a sender, over generated lists between guard bytes and
//! compared with the model; document 02's request 5 sentence by sentence; and the same calls from C.
#[allow(dead_code)]
mod support;

use store_reader::{Eui64, Key, Refusal, SenderRecord, Senders, MAX_SENDERS};
use support::from_c;
use support::generate::senders as generate;
use support::header_comments;
use support::hex::unhex;
use support::model::senders::{run, COUNTED};
use support::random::Random;
use support::sender_tally::{SenderTally, LONGEST};
use support::senders::{line, perform, Done, Record, Request};

const SEED: u64 = 0x5E4D_E125;
/// For each length of a list from 0 to 70, so many lists, where places past the 64th are to be met more, and so many calls one after
/// the other over each.
const LISTS: usize = 24;
const LONG_LISTS: usize = 160;
const CALLS: usize = 24;
/// Each case of the tally is met at least this often.
const AT_LEAST: usize = 50;

const KEY: [u8; 16] = [0xC0, 0xC1, 0xC2, 0xC3, 0xC4, 0xC5, 0xC6, 0xC7, 0xC8, 0xC9, 0xCA, 0xCB, 0xCC, 0xCD, 0xCE, 0xCF];
const FREE: Record = Record { used: 0, address: 0, counter: 0 };

/// Makes a call, and compares answer, key and the whole list with the model.
fn compare(request: &Request, list: &[Record], guard: u8) -> Done {
    let done = perform(request, list, guard);
    let (answer, after, key) = run(request, list);
    assert!(done.answer == answer, "answered {:X}, expected {answer:X}: {}", done.answer, line(request, list));
    assert!(done.key == key, "the key is {:02X?}, expected {key:02X?}: {}", done.key, line(request, list));
    for (place, (found, wanted)) in done.list.iter().zip(&after).enumerate() {
        assert!(found == wanted, "place {place} is {found:X?}, expected {wanted:X?}: {}", line(request, list));
    }
    done
}

/// What holds of every call, whatever the model says: the numbers of the function, nothing beside a refusal, no other bits, and
/// a change at the sender named only.
fn check(request: &Request, list: &[Record], done: &Done) {
    let known = matches!(request, Request::Note { .. }) && done.known();
    assert_eq!(done.answer >> 41, u64::from(known), "bits above the refusal: {}", line(request, list));
    assert_eq!(done.answer >> 40 & 1, 0, "marked as clear: {}", line(request, list));
    if done.refusal() != 0 {
        assert!(request.refusals().contains(&done.refusal()), "refusal {}: {}", done.refusal(), line(request, list));
        assert_eq!((done.low(), done.key), (0, None), "beside a refusal: {}", line(request, list));
    }
    let changed: Vec<(&Record, &Record)> =
        list.iter().zip(&done.list).filter(|(before, after)| before != after).collect();
    match request {
        Request::Ask { .. } => assert!(changed.is_empty(), "asking changed the list: {}", line(request, list)),
        Request::Note { sender, .. } => {
            assert!(changed.len() <= usize::from(done.refusal() == 0), "noting: {}", line(request, list));
            assert!(changed.iter().all(|(_, after)| after.address == *sender), "noting: {}", line(request, list));
        }
        Request::Forget { sender } => {
            let its = |record: &Record| record.used != 0 && record.address == *sender;
            assert!(changed.iter().all(|(before, _)| its(before)), "forgetting: {}", line(request, list));
        }
    }
}

#[test]
fn every_call_answers_as_the_model() {
    let mut random = Random::new(SEED);
    let mut tally = SenderTally::default();
    let lists = |places: usize| if places > COUNTED { LONG_LISTS } else { LISTS };
    for places in (0..=LONGEST).flat_map(|places| vec![places; lists(places)]) {
        let addresses = generate::addresses(&mut random);
        let mut list = generate::list(places, &addresses, &mut random);
        for _ in 0..CALLS {
            let request = generate::request(&list, &addresses, &mut random);
            let done = compare(&request, &list, random.byte());
            check(&request, &list, &done);
            tally.count(&request, &list, &done);
            list = done.list;
        }
    }
    println!("{}", tally.report());
    assert!(tally.calls() >= 20_000);
    tally.check(AT_LEAST);
}

/// What the calls are checked against is what the header's comments promise, in the order of the request.
#[test]
fn the_refusals_are_those_of_the_header() {
    let ask = Request::Ask { key: KEY, active: 0, sender: 0, number: 0, counter: 0 };
    for request in [ask, Request::Note { sender: 0, counter: 0 }, Request::Forget { sender: 0 }] {
        assert_eq!(header_comments::refusals(request.name()), request.refusals(), "{}", request.name());
    }
}

// ---- the request, sentence by sentence; active key sequence number 5

/// A list of the three calls, kept from call to call.
struct Kept(Vec<Record>);

impl Kept {
    fn free(places: usize) -> Self {
        Self(vec![FREE; places])
    }

    fn call(&mut self, request: Request) -> u64 {
        let done = compare(&request, &self.0, 0x3C);
        self.0 = done.list;
        done.answer
    }

    /// The refusal; 0 where the key was given.
    fn ask(&mut self, sender: u64, number: u8, counter: u32) -> u8 {
        let answer = self.call(Request::Ask { key: KEY, active: 5, sender, number, counter });
        assert!(answer == 16 || answer as u32 == 0);
        (answer >> 32) as u8
    }

    /// The earlier counter or none, or the refusal.
    fn note(&mut self, sender: u64, counter: u32) -> Result<Option<u32>, u8> {
        let answer = self.call(Request::Note { sender, counter });
        match (answer >> 32) as u8 {
            0 => Ok((answer >> 41 & 1 == 1).then_some(answer as u32)),
            refusal => Err(refusal),
        }
    }

    fn forget(&mut self, sender: u64) {
        assert_eq!(self.call(Request::Forget { sender }), 0);
    }
}

fn used(address: u64, counter: u32) -> Record {
    Record { used: 1, address, counter }
}

/// "22 if the key sequence number is not the active one, then 23 if the counter is `FFFFFFFF` or not above the sender's stored
/// one": wrong key number and `FFFFFFFF` is 22.
#[test]
fn numbers_of_asking_in_their_order() {
    let mut kept = Kept(vec![used(1, 100)]);
    for (number, counter, refusal) in [
        (5, 101, 0),
        (5, 0xFFFF_FFFE, 0),
        (5, 100, 23),
        (5, 99, 23),
        (5, 0, 23),
        (5, 0xFFFF_FFFF, 23),
        (4, 101, 22),
        (4, 100, 22),
        (4, 0xFFFF_FFFF, 22),
        (0, 101, 22),
        (255, 101, 22),
    ] {
        assert_eq!(kept.ask(1, number, counter), refusal, "number {number}, counter {counter}");
    }
    assert_eq!(kept.0, [used(1, 100)]);
}

/// "An unknown sender's counter is not compared, as in the Rust": but `FFFFFFFF` is 23 from anyone, also with no places at all.
#[test]
fn an_unknown_sender_is_not_compared() {
    for places in [0, 1, 64, 65] {
        let mut kept = Kept::free(places);
        assert_eq!([0, 1, 0xFFFF_FFFE].map(|counter| kept.ask(1, 5, counter)), [0; 3]);
        assert_eq!((kept.ask(1, 5, 0xFFFF_FFFF), kept.ask(1, 6, 0xFFFF_FFFF)), (23, 22));
    }
}

/// "Noting overwrites, even with a lower number, and gives the earlier one, or none": an earlier 0 is told apart from none.
#[test]
fn noting_overwrites_and_gives_the_earlier_one() {
    let mut kept = Kept::free(2);
    assert_eq!(kept.note(7, 0), Ok(None));
    assert_eq!(kept.note(7, 9), Ok(Some(0)));
    assert_eq!(kept.note(7, 3), Ok(Some(9)));
    assert_eq!((kept.ask(7, 5, 3), kept.ask(7, 5, 4)), (23, 0));
    assert_eq!(kept.0, [used(7, 3), FREE]);
}

/// Noting `FFFFFFFF` is accepted, and every frame of the sender is then refused by 23 until another counter is noted.
#[test]
fn the_last_counter_is_noted_and_shuts_its_sender_out() {
    let mut kept = Kept::free(1);
    assert_eq!(kept.note(7, 0xFFFF_FFFF), Ok(None));
    assert_eq!([0, 1, 0xFFFF_FFFE, 0xFFFF_FFFF].map(|counter| kept.ask(7, 5, counter)), [23; 4]);
    assert_eq!(kept.note(7, 1), Ok(Some(0xFFFF_FFFF)));
    assert_eq!(kept.ask(7, 5, 2), 0);
}

/// "A record is a used mark, an address and a counter": address 0 with the mark is a sender, whatever the mark's value.
#[test]
fn address_0_is_a_sender() {
    for mark in [1, 2, 0x80, 0xFF] {
        let mut kept = Kept(vec![Record { used: mark, address: 0, counter: 10 }]);
        assert_eq!((kept.ask(0, 5, 10), kept.ask(0, 5, 11)), (23, 0));
        assert_eq!(kept.note(0, 12), Ok(Some(10)));
        assert_eq!(kept.0, [used(0, 12)]);
        kept.forget(0);
        assert_eq!(kept.0, [FREE]);
    }
}

/// "Without the mark it is free and names nobody": what is left in a free place is not compared, and not forgotten.
#[test]
fn what_is_left_in_a_free_place_names_nobody() {
    let left = Record { used: 0, address: 7, counter: 100 };
    let mut kept = Kept(vec![left, left]);
    assert_eq!(kept.ask(7, 5, 1), 0);
    kept.forget(7);
    assert_eq!(kept.0, [left, left]);
    assert_eq!(kept.note(8, 1), Ok(None));
    assert_eq!(kept.note(7, 2), Ok(None));
    assert_eq!(kept.0, [used(8, 1), used(7, 2)]);
}

/// "Where a list names a sender twice, the first record counts."
#[test]
fn the_first_record_counts() {
    let mut kept = Kept(vec![used(1, 5), used(7, 10), used(7, 50), used(7, 2)]);
    assert_eq!((kept.ask(7, 5, 10), kept.ask(7, 5, 11)), (23, 0));
    assert_eq!(kept.note(7, 11), Ok(Some(10)));
    assert_eq!(kept.0, [used(1, 5), used(7, 11), used(7, 50), used(7, 2)]);
    // "Frees every counted place that names it, leaving zeros there, and the next new sender can use it."
    kept.forget(7);
    assert_eq!(kept.0, [used(1, 5), FREE, FREE, FREE]);
    assert_eq!(kept.note(8, 3), Ok(None));
    assert_eq!(kept.0, [used(1, 5), used(8, 3), FREE, FREE]);
}

/// 64 senders have a place and a 65th has none, until one is forgotten; a known one is noted all the same.
#[test]
fn the_65th_sender_finds_no_place() {
    for places in [64, 65, 70] {
        let mut kept = Kept::free(places);
        for sender in 0..64 {
            assert_eq!(kept.note(sender, 1), Ok(None));
        }
        assert_eq!((kept.note(64, 1), kept.note(63, 2)), (Err(24), Ok(Some(1))));
        kept.forget(64);
        assert_eq!(kept.note(64, 1), Err(24));
        kept.forget(20);
        assert_eq!((kept.note(64, 1), kept.note(20, 1)), (Ok(None), Err(24)));
        assert_eq!((kept.0[20], kept.0.len()), (used(64, 1), places));
        assert!(kept.0[64..].iter().all(|record| *record == FREE));
    }
    let mut none = Kept::free(0);
    assert_eq!(none.note(1, 1), Err(24));
    none.forget(1);
}

/// "Only the first 64 count": a sender named only past them is unknown to all three.
#[test]
fn a_sender_past_the_64th_place_is_unknown() {
    let mut kept = Kept((0..64).map(|sender| used(sender, 1)).chain([used(99, 100), used(5, 100)]).collect());
    assert_eq!((kept.ask(99, 5, 1), kept.ask(5, 5, 2)), (0, 0));
    assert_eq!(kept.note(99, 7), Err(24));
    kept.forget(99);
    kept.forget(5);
    assert_eq!(kept.0[64..], [used(99, 100), used(5, 100)]);
    assert_eq!(kept.note(99, 7), Ok(None));
    assert_eq!((kept.0[5], kept.0[64]), (used(99, 7), used(99, 100)));
}

// ---- the safe type

/// The places as the safe type shows them: what is left in a free one cannot be seen.
fn shown(list: &[Record]) -> Vec<Option<(Eui64, u32)>> {
    list.iter().map(|record| (record.used != 0).then_some((Eui64::from(record.address), record.counter))).collect()
}

/// A request to the safe type, and its answer as the C function would give it.
fn asked_safely(senders: &mut Senders<&mut [SenderRecord]>, request: &Request) -> u64 {
    let number = |refusal: Refusal| u64::from(refusal.number()) << 32;
    match *request {
        Request::Ask { key, active, sender, number: given, counter } => {
            match senders.inbound_network_key(&Key::new(key), active, Eui64::from(sender), given, counter) {
                Ok(found) => {
                    assert_eq!(found.bytes(), &key);
                    16
                }
                Err(refusal) => number(refusal),
            }
        }
        Request::Note { sender, counter } => match senders.note_inbound_frame_counter(Eui64::from(sender), counter) {
            Ok(earlier) => earlier.map_or(0, |earlier| u64::from(earlier) | 1 << 41),
            Err(refusal) => number(refusal),
        },
        Request::Forget { sender } => {
            senders.forget(Eui64::from(sender));
            0
        }
    }
}

/// The safe type answers and changes a lent list as the model does.
#[test]
fn the_safe_type_says_the_same() {
    let mut random = Random::new(SEED + 1);
    for places in (0..=LONGEST).flat_map(|places| [places; 4]) {
        let addresses = generate::addresses(&mut random);
        let mut list: Vec<Record> = vec![FREE; places];
        let mut lent = vec![SenderRecord::FREE; places];
        for _ in 0..2 * CALLS {
            let request = generate::request(&list, &addresses, &mut random);
            let (answer, after, _) = run(&request, &list);
            let mut senders = Senders::lent(&mut lent);
            assert_eq!(asked_safely(&mut senders, &request), answer, "{}", line(&request, &list));
            let records: Vec<_> = senders.records().iter().map(SenderRecord::noted).collect();
            assert_eq!(records, shown(&after), "{}", line(&request, &list));
            list = after;
        }
    }
}

/// A list of one's own has 64 free places.
#[test]
fn a_list_of_ones_own_has_64_places() {
    let mut senders = Senders::new();
    assert_eq!((MAX_SENDERS, size_of_val(&senders), senders.records().len()), (64, 1024, 64));
    assert!(senders.records().iter().all(|record| *record == SenderRecord::FREE));
    for sender in 0..64 {
        assert_eq!(senders.note_inbound_frame_counter(Eui64::from(sender), 1), Ok(None));
    }
    assert_eq!(senders.note_inbound_frame_counter(Eui64::from(64), 1), Err(Refusal::NO_PLACE));
    assert_eq!(senders.records()[63], SenderRecord::new(Eui64::from(63), 1));
    assert_eq!(format!("{:?}", senders.records()[0]), "SenderRecord(Eui64(00:00:00:00:00:00:00:00), 1)");
    senders.forget(Eui64::from(0));
    assert_eq!(format!("{:?}", senders.records()[0]), "SenderRecord(free)");
}

// ---- the same from C

/// `LISTS` times `CALLS` of `tests/agree_senders.c`, and what it filled the key with.
const FROM_C: usize = 150 * 8;
const FILL: u8 = 0xA5;

/// A printed line: the request, the list before it, and what was answered from C.
fn parsed(line: &str) -> Option<(Request, Vec<Record>, Done)> {
    let (called, answered) = line.split_once(" = ")?;
    let words: Vec<&str> = called.split(' ').collect();
    let (request, list) = match words[..] {
        ["nwk_inbound_network_key", first, second, active, sender, given, counter, list] => {
            let key = u128::from(from_c::number::<u64>(second)?) << 64 | u128::from(from_c::number::<u64>(first)?);
            let (active, sender) = (from_c::number(active)?, from_c::number(sender)?);
            let (number, counter) = (from_c::number(given)?, from_c::number(counter)?);
            (Request::Ask { key: key.to_le_bytes(), active, sender, number, counter }, list)
        }
        ["nwk_note_inbound_frame_counter", sender, counter, list] => {
            (Request::Note { sender: from_c::number(sender)?, counter: from_c::number(counter)? }, list)
        }
        ["nwk_forget_sender", sender, list] => (Request::Forget { sender: from_c::number(sender)? }, list),
        _ => return None,
    };
    let mut answered = answered.split(' ');
    let (answer, after) = (from_c::number(answered.next()?)?, from_c::list_of(answered.next()?)?);
    let key = answered.next().and_then(|key| unhex(key)?.try_into().ok()).filter(|key| *key != [FILL; 16]);
    Some((request, from_c::list_of(list)?, Done { answer, list: after, key }))
}

#[test]
fn c_gets_the_same_answers() {
    let printed = from_c::printed("agree_senders");
    let mut numbers = [0; 25];
    for line in printed.lines() {
        let (request, list, from_c) = parsed(line).unwrap_or_else(|| panic!("a line that says no call: {line}"));
        assert_eq!(compare(&request, &list, 0x69), from_c, "{line}");
        numbers[usize::from(from_c.refusal())] += 1;
    }
    println!("{} lines, by refusal {numbers:?}", printed.lines().count());
    assert_eq!(printed.lines().count(), FROM_C);
    assert!([0, 22, 23, 24].iter().all(|&number| numbers[number] >= 50), "{numbers:?}");
}
