//! The journal, sentence by sentence: worked cases of document 02's requests 6 and 7, the safe functions beside the
//! model, and the same calls from C.
#[allow(dead_code)]
mod support;

use std::collections::BTreeMap;
use store_reader::{
    next_counter, recover, shrink, write_record, Eui64, JournalRecord, Recovered, Refusal, SenderRecord, Senders,
    MAX_JOURNAL_RECORD, MAX_SENDERS, MAX_SHRUNK_JOURNAL,
};
use support::from_c;
use support::generate::journals as generate;
use support::hex::unhex;
use support::journals::{line, perform, Done, Left, Request};
use support::model::journal::{run, Entry, MOST};
use support::random::Random;
use support::senders::Record;

const SEED: u64 = 0x10C2_11A2;
const FREE: Record = Record { used: 0, address: 0, counter: 0 };
/// A place with something left in it.
const STALE: Record = Record { used: 3, address: 0x99, counter: 99 };

fn used(address: u64, counter: u32) -> Record {
    Record { used: 1, address, counter }
}

/// A call that codec and model agree on.
fn asked(request: Request, journal: &[u8], list: &[Record]) -> Done {
    let done = perform(&request, journal, list, 0x96);
    let (answer, left) = run(&request, journal, list);
    assert_eq!(done, Done { answer, left }, "{}", line(&request, journal, list));
    done
}

/// Ceiling, key number, list and length that recovery gives, or its refusal.
fn recovered(journal: &[u8], list: &[Record]) -> Result<(u32, Option<u8>, Vec<Record>, u64), u8> {
    let done = asked(Request::Recover, journal, list);
    match done.refusal() {
        0 => Ok((done.low(), done.key_number(), done.left.list, done.left.complete.expect("a length"))),
        refusal => Err(refusal),
    }
}

/// The bytes of a record of this kind, or the refusal.
fn written(journal: &[u8], kind: u8, sender: u64, counter: u32, number: u8, room: usize) -> Result<Vec<u8>, u8> {
    bytes_of(asked(Request::Write { kind, sender, counter, number, room }, journal, &[]))
}

/// The shrunk journal, or the refusal.
fn shrunk(journal: &[u8], room: usize) -> Result<Vec<u8>, u8> {
    bytes_of(asked(Request::Shrink { room }, journal, &[]))
}

fn bytes_of(done: Done) -> Result<Vec<u8>, u8> {
    match done.refusal() {
        0 => Ok(done.left.written),
        refusal => Err(refusal),
    }
}

fn next(journal: &[u8], last: u32) -> Result<u32, u8> {
    let done = asked(Request::Next { last }, journal, &[]);
    match done.refusal() {
        0 => Ok(done.low()),
        refusal => Err(refusal),
    }
}

/// A journal that names so many senders, from 0, each with counter 7.
fn naming(senders: u64) -> Vec<u8> {
    (0..senders).flat_map(|sender| Entry::Sender(sender, 7).bytes()).collect()
}

#[test]
fn an_empty_journal_has_nothing_in_it() {
    assert_eq!(recovered(&[], &[]), Ok((0, None, vec![], 0)));
    assert_eq!(recovered(&[], &[STALE; 3]), Ok((0, None, vec![FREE; 3], 0)));
    assert_eq!((next(&[], 0), next(&[], 0xFFFF_FFFE)), (Err(27), Err(26)));
}

/// "1, a 4-byte ceiling; 2, an 8-byte sender and its 4-byte counter; 3, a 1-byte active key number."
#[test]
fn a_record_of_each_kind() {
    let ceiling = written(&[], 1, 9, 0x0403_0201, 9, 13).expect("a ceiling");
    let sender = written(&[], 2, 0x0807_0605_0403_0201, 0x0C0B_0A09, 9, 13).expect("a sender");
    let key_number = written(&[], 3, 9, 9, 0xC1, 13).expect("a key number");
    assert_eq!(ceiling, [1, 1, 2, 3, 4]);
    assert_eq!(sender, [2, 1, 2, 3, 4, 5, 6, 7, 8, 9, 10, 11, 12]);
    assert_eq!(key_number, [3, 0xC1]);
    let journal = [ceiling, sender, key_number].concat();
    let senders = vec![used(0x0807_0605_0403_0201, 0x0C0B_0A09), FREE];
    assert_eq!(recovered(&journal, &[STALE; 2]), Ok((0x0403_0201, Some(0xC1), senders, 20)));
}

/// "Takes the largest ceiling": of 5, 9 and 7 it is 9, and counters up to 9 are given whichever ceiling came last.
#[test]
fn the_largest_ceiling_counts() {
    let journal: Vec<u8> = [5, 9, 7].iter().flat_map(|&ceiling| Entry::Ceiling(ceiling).bytes()).collect();
    assert_eq!(recovered(&journal, &[]), Ok((9, None, vec![], 15)));
    assert_eq!([4, 5, 8, 9, 10].map(|last| next(&journal, last)), [Ok(5), Ok(6), Ok(9), Err(27), Err(27)]);
}

/// "Each sender's last counter", "by first appearance": the place of the first record, the counter of the second, also a lower one.
#[test]
fn a_sender_twice_keeps_its_place() {
    let records = [Entry::Sender(7, 50), Entry::Sender(8, 1), Entry::Sender(7, 3)];
    let journal: Vec<u8> = records.iter().flat_map(|record| record.bytes()).collect();
    assert_eq!(recovered(&journal, &[STALE; 3]), Ok((0, None, vec![used(7, 3), used(8, 1), FREE], 39)));
}

/// "The last key number, or none": 0 is a key number.
#[test]
fn the_last_key_number_counts() {
    assert_eq!(recovered(&[3, 5, 3, 0], &[]), Ok((0, Some(0), vec![], 4)));
    assert_eq!(recovered(&[3, 0, 3, 5], &[]), Ok((0, Some(5), vec![], 4)));
    assert_eq!(recovered(&[3, 5, 3], &[]), Ok((0, Some(5), vec![], 2)));
}

/// "Ignores an incomplete last record": after each byte of each kind, behind a record of each kind.
#[test]
fn a_cut_record_is_ignored() {
    let front = [Entry::Ceiling(6), Entry::Sender(7, 50), Entry::KeyNumber(2)];
    let whole: Vec<u8> = front.iter().flat_map(|record| record.bytes()).collect();
    for record in [Entry::Ceiling(0xFFFF_FFFF), Entry::Sender(7, 51), Entry::Sender(8, 1), Entry::KeyNumber(3)] {
        for n in 0..record.bytes().len() {
            let journal = [&whole, &record.bytes()[..n]].concat();
            assert_eq!(recovered(&journal, &[STALE]), Ok((6, Some(2), vec![used(7, 50)], 20)), "{record:?} cut at {n}");
            assert_eq!((next(&journal, 5), next(&journal, 6)), (Ok(6), Err(27)), "{record:?} cut at {n}");
        }
    }
}

/// "25 if a record's kind, even the last one's, is not 1 to 3": also for writing, the next counter and shrinking,
/// before all else.
#[test]
fn a_kind_that_is_none() {
    let whole = [Entry::Ceiling(6).bytes(), naming(65)].concat();
    for kind in [0, 4, 5, 0x80, 0xFF] {
        for journal in [vec![kind], [&whole[..5], &[kind]].concat(), [&whole[..], &[kind]].concat()] {
            assert_eq!(recovered(&journal, &[]), Err(25), "{kind}");
            assert_eq!(written(&journal, 2, 99, 1, 0, 0), Err(25), "{kind}");
            assert_eq!((shrunk(&journal, 0), shrunk(&journal, 1000)), (Err(25), Err(25)), "{kind}");
            assert_eq!([0, 6, 0xFFFF_FFFE].map(|last| next(&journal, last)), [Err(25); 3], "{kind}");
        }
        assert_eq!(written(&[], kind, 0, 0, 0, 0), Err(25), "{kind}");
        assert_eq!(written(&whole, kind, 0, 0, 0, 13), Err(25), "{kind}");
    }
}

/// "24 for a 65th sender or one past the list's places": nothing is changed then, and places past the 64th never are.
#[test]
fn more_senders_than_places() {
    let filled = |count: u64| (0..count).map(|sender| used(sender, 7)).collect::<Vec<_>>();
    assert_eq!(recovered(&naming(64), &[STALE; 64]), Ok((0, None, filled(64), 832)));
    assert_eq!(recovered(&naming(64), &[STALE; 66]), Ok((0, None, [filled(64), vec![STALE; 2]].concat(), 832)));
    assert_eq!(recovered(&naming(64), &[STALE; 63]), Err(24));
    for places in [0, 63, 64, 65, 70] {
        assert_eq!(recovered(&naming(65), &vec![STALE; places]), Err(24), "{places}");
    }
    assert_eq!(recovered(&naming(3), &[STALE; 2]), Err(24));
    assert_eq!(recovered(&naming(3), &[STALE; 3]), Ok((0, None, filled(3), 39)));
    // The 65th is not named before its record is whole.
    assert_eq!(recovered(&naming(65)[..65 * 13 - 1], &[STALE; 64]), Ok((0, None, filled(64), 832)));
}

/// "24 if the journal with it names more than 64 senders, then 18": a known sender of 64 may be written, a journal of 65 refuses every
/// kind, and the next counter does not look at senders.
#[test]
fn writing_counts_the_senders() {
    let (full, over) = (naming(64), naming(65));
    assert_eq!(written(&naming(63), 2, 63, 7, 0, 13), Ok(Entry::Sender(63, 7).bytes()));
    assert_eq!(written(&full, 2, 63, 8, 0, 13), Ok(Entry::Sender(63, 8).bytes()));
    assert_eq!((written(&full, 2, 64, 8, 0, 13), written(&full, 2, 64, 8, 0, 12)), (Err(24), Err(24)));
    assert_eq!(
        (written(&full, 1, 64, 0, 0, 5), written(&full, 3, 64, 0, 0, 2)),
        (Ok(vec![1, 0, 0, 0, 0]), Ok(vec![3, 0]))
    );
    for kind in [1, 2, 3] {
        assert_eq!((written(&over, kind, 0, 8, 0, 13), written(&over, kind, 0, 8, 0, 0)), (Err(24), Err(24)), "{kind}");
    }
    let covered = [over, Entry::Ceiling(1).bytes()].concat();
    assert_eq!((next(&covered, 0), next(&covered, 1)), (Ok(1), Err(27)));
}

#[test]
fn an_output_shorter_than_the_record() {
    for (kind, length) in [(1, 5), (2, 13), (3, 2)] {
        for room in 0..=14 {
            let given = written(&[], kind, 7, 8, 9, room);
            assert_eq!(
                given.as_ref().map(Vec::len),
                if room < length { Err(&18) } else { Ok(length) },
                "{kind} {room}"
            );
        }
    }
}

/// "26 if the last one is `0xFFFFFFFE` or above, then 27": and a ceiling of 0 covers nothing, so counter 0 is never handed out.
#[test]
fn the_last_counters() {
    let top = Entry::Ceiling(0xFFFF_FFFF).bytes();
    assert_eq!([0xFFFF_FFFC, 0xFFFF_FFFD].map(|last| next(&top, last)), [Ok(0xFFFF_FFFD), Ok(0xFFFF_FFFE)]);
    assert_eq!([0xFFFF_FFFE, 0xFFFF_FFFF].map(|last| next(&top, last)), [Err(26); 2]);
    assert_eq!(next(&Entry::Ceiling(0xFFFF_FFFE).bytes(), 0xFFFF_FFFD), Ok(0xFFFF_FFFE));
    assert_eq!(next(&Entry::Ceiling(0xFFFF_FFFD).bytes(), 0xFFFF_FFFD), Err(27));
    assert_eq!((next(&Entry::Ceiling(0).bytes(), 0), next(&Entry::Ceiling(1).bytes(), 0)), (Err(27), Ok(1)));
}

// ---- shrinking

/// Journals and what they are shrunk to: "key number if any, ceiling if above 0, then senders by rising address bytes,
/// the first compared first". What is longer by a byte than the output is 18, bytes behind the result stay, and the
/// result shrinks to itself.
#[test]
fn journals_and_what_they_are_shrunk_to() {
    let cases = [
        ("nothing", "-", "-"),
        ("an incomplete record alone", "02 07", "-"),
        ("the ceiling 0", "01 00000000", "-"),
        ("the ceiling 0 twice, and a key number", "01 00000000 03 07 01 00000000", "03 07"),
        ("the ceilings 5, 9 and 7", "01 05000000 01 09000000 01 07000000", "01 09000000"),
        ("a ceiling that is larger by its last byte", "01 FFFFFF00 01 00000080 01 FEFFFFFF 01 FFFFFF7F", "01 FEFFFFFF"),
        ("a key number", "03 05", "03 05"),
        ("the last key number", "03 05 03 07", "03 07"),
        ("the key number 0", "03 05 03 00", "03 00"),
        (
            "each kind once",
            "02 C3B2A11C004B1200 FEFFFFFF 01 03020100 03 00",
            "03 00 01 03020100 02 C3B2A11C004B1200 FEFFFFFF",
        ),
        (
            "a sender again with a lower counter",
            "02 0700000000000000 32000000 02 0800000000000000 01000000 02 0700000000000000 03000000",
            "02 0700000000000000 03000000 02 0800000000000000 01000000",
        ),
        (
            "the sender 0 with the counter 0",
            "02 0000000000000000 09000000 02 0000000000000000 00000000",
            "02 0000000000000000 00000000",
        ),
        (
            "the lower number has the higher first byte",
            "02 0100000000000000 0A000000 02 0000000000000002 0B000000",
            "02 0000000000000002 0B000000 02 0100000000000000 0A000000",
        ),
        (
            "three senders, the last one first",
            "02 0200000000000000 01000000 02 0300000000000000 02000000 02 0100000000000000 03000000",
            "02 0100000000000000 03000000 02 0200000000000000 01000000 02 0300000000000000 02000000",
        ),
        ("an incomplete ceiling", "01 05000000 03 07 01 FFFFFF", "03 07 01 05000000"),
        ("an incomplete sender", "01 05000000 03 07 02 0700000000000000 320000", "03 07 01 05000000"),
        ("an incomplete key number", "01 05000000 03 07 03", "03 07 01 05000000"),
    ];
    for (name, journal, expected) in cases {
        let bytes = |text: &str| unhex(&text.replace(' ', "")).expect("hexadecimal digits");
        let (journal, expected) = (bytes(journal), bytes(expected));
        let needed = expected.len();
        for room in [needed, needed + 1, journal.len().max(needed), 839, 1000] {
            assert_eq!(shrunk(&journal, room).as_ref(), Ok(&expected), "{name}, room {room}");
            assert_eq!(shrunk(&expected, room).as_ref(), Ok(&expected), "{name}, again, room {room}");
        }
        for room in 0..needed {
            assert_eq!(shrunk(&journal, room), Err(18), "{name}, room {room}");
        }
    }
}

/// "By rising address bytes, the first compared first": the first byte that differs decides, whatever stands behind it,
/// and has no sign.
#[test]
fn the_first_byte_that_differs_decides() {
    for (at, behind) in (0..8).flat_map(|at| [(at, [0xAA, 0xAA]), (at, [0xFF, 0x00])]) {
        let sender = |byte: u8, behind: u8, counter: u8| {
            [&[2][..], &[0xAA; 8][..at], &[byte], &[behind; 8][at + 1..], &[counter, 0, 0, 0]].concat()
        };
        let (lower, higher) = (sender(0x7F, behind[0], 11), sender(0x80, behind[1], 10));
        let rising = [&lower[..], &higher].concat();
        assert_eq!(shrunk(&[&higher[..], &lower].concat(), 26).as_ref(), Ok(&rising), "byte {at}");
        assert_eq!(shrunk(&rising, 26).as_ref(), Ok(&rising), "byte {at}");
    }
}

/// "24 if the journal names more than 64 senders, then 18": 64 take 832 bytes, with ceiling and key number 839. A 65th
/// that is not whole is not named, and one that is named again is not another.
#[test]
fn as_many_senders_as_there_may_be() {
    let falling: Vec<u8> = (0..64).rev().flat_map(|sender| Entry::Sender(sender, 7).bytes()).collect();
    assert_eq!((shrunk(&falling, 832), shrunk(&falling, 831)), (Ok(naming(64)), Err(18)));
    let again = [&falling[..], &Entry::Sender(0, 7).bytes()].concat();
    assert_eq!(shrunk(&again, 832), Ok(naming(64)));
    assert_eq!(shrunk(&naming(65)[..65 * 13 - 1], 832), Ok(naming(64)));
    let longest = [vec![3, 0, 1, 1, 0, 0, 0], naming(64)].concat();
    let journal = [&falling[..], &[1, 1, 0, 0, 0, 3, 0]].concat();
    assert_eq!((shrunk(&journal, 839), shrunk(&journal, 838)), (Ok(longest), Err(18)));
    for room in [0, 832, 844, 845, 1000] {
        assert_eq!((shrunk(&naming(65), room), shrunk(&naming(66), room)), (Err(24), Err(24)), "{room}");
    }
    assert_eq!(MAX_SHRUNK_JOURNAL, 839);
}

/// How often each function gave each number, 0 where it accepted.
type Met = BTreeMap<(&'static str, u8), usize>;

/// Each of the four functions accepted, and gave each of its three or two numbers, at least so often.
fn check_met(met: &Met, at_least: usize) {
    assert_eq!(met.len(), 3 + 4 + 4 + 4, "{met:?}");
    assert!(met.values().all(|n| *n >= at_least), "{met:?}");
}

// ---- the safe functions

fn number(refusal: Refusal) -> u64 {
    u64::from(refusal.number()) << 32
}

/// What a safe function that writes answers, and what it leaves of an output of this room.
fn written_safely(room: usize, write: impl FnOnce(&mut [u8]) -> Result<usize, Refusal>) -> (u64, Vec<u8>) {
    let mut out = vec![0xA5; room];
    let (answer, length) = match write(&mut out) {
        Ok(length) => (length as u64, length),
        Err(refusal) => (number(refusal), 0),
    };
    assert!(out[length..].iter().all(|byte| *byte == 0xA5));
    out.truncate(length);
    (answer, out)
}

/// What a safe function answers, as the C function would, and what it leaves.
fn asked_safely(request: &Request, journal: &[u8], list: &[Record]) -> Option<(u64, Left)> {
    let mut places: Vec<SenderRecord> = list.iter().map(place).collect();
    let (answer, written) = match *request {
        Request::Recover => match recover(journal, &mut Senders::lent(&mut places)) {
            Err(refusal) => (number(refusal), vec![]),
            Ok(Recovered { ceiling, key_number, complete }) => {
                let number = key_number.map_or(0, |number| 1 << 41 | u64::from(number) << 48);
                let list = places.iter().map(record).collect();
                let left = Left { list, complete: Some(complete as u64), written: vec![] };
                return Some((u64::from(ceiling) | number, left));
            }
        },
        Request::Write { kind, sender, counter, number, room } => {
            let entry = match kind {
                1 => JournalRecord::Ceiling(counter),
                2 => JournalRecord::Sender { address: Eui64::from(sender), counter },
                3 => JournalRecord::KeyNumber(number),
                _ => return None,
            };
            written_safely(room, |out| write_record(journal, entry, out))
        }
        Request::Next { last } => (next_counter(journal, last).map_or_else(number, u64::from), vec![]),
        Request::Shrink { room } => written_safely(room, |out| shrink(journal, out)),
    };
    Some((answer, Left { written, ..Left::nothing(list) }))
}

fn place(record: &Record) -> SenderRecord {
    match record.used {
        0 => SenderRecord::FREE,
        _ => SenderRecord::new(Eui64::from(record.address), record.counter),
    }
}

fn record(place: &SenderRecord) -> Record {
    place.noted().map_or(FREE, |(sender, counter)| used(sender.into(), counter))
}

#[test]
fn the_safe_functions_say_the_same() {
    let mut random = Random::new(SEED);
    let mut met = Met::new();
    for _ in 0..3000 {
        let journal = generate::journal(&mut random);
        let list = generate::list(generate::places(&journal, &mut random), &mut random);
        let list: Vec<Record> = list.iter().map(|left| record(&place(left))).collect();
        let makers = [generate::write, generate::next, generate::shrink];
        for request in makers.map(|make| make(&journal, &mut random)).into_iter().chain([Request::Recover]) {
            let Some(found) = asked_safely(&request, &journal, &list) else { continue };
            assert_eq!(found, run(&request, &journal, &list), "{}", line(&request, &journal, &list));
            *met.entry((request.name(), (found.0 >> 32) as u8)).or_default() += 1;
        }
    }
    check_met(&met, 50);
    assert_eq!((MAX_SENDERS, MAX_JOURNAL_RECORD), (MOST, Entry::Sender(0, 0).bytes().len()));
}

// ---- the same from C

/// `JOURNALS` of `tests/agree_journal.c`, each with its four calls.
const FROM_C: usize = 600 * 4;

/// A printed line: the request, the journal, the list before it, and what was answered from C.
fn parsed(line: &str) -> Option<(Request, Vec<u8>, Vec<Record>, Done)> {
    let (called, answered) = line.split_once(" = ")?;
    let words: Vec<&str> = called.split(' ').collect();
    let mut answered = answered.split(' ');
    let answer = from_c::number(answered.next()?)?;
    let (journal, rest) = (unhex(words.get(1)?)?, &words[2..]);
    let request = match (words[0], rest) {
        ("nwk_recover_journal", [list]) => {
            let list = from_c::list_of(list)?;
            let left = Left { list: from_c::list_of(answered.next()?)?, complete: None, written: vec![] };
            let complete = from_c::number(answered.next()?).filter(|complete| *complete != u64::MAX);
            return Some((Request::Recover, journal, list, Done { answer, left: Left { complete, ..left } }));
        }
        ("nwk_write_journal_record", [kind, sender, counter, given, room]) => {
            let (kind, sender, counter) = (from_c::number(kind)?, from_c::number(sender)?, from_c::number(counter)?);
            Request::Write { kind, sender, counter, number: from_c::number(given)?, room: from_c::number(room)? }
        }
        ("nwk_next_counter", [last]) => Request::Next { last: from_c::number(last)? },
        ("nwk_shrink_journal", [room]) => Request::Shrink { room: from_c::number(room)? },
        _ => return None,
    };
    let written = answered.next().map_or(Some(vec![]), unhex)?;
    Some((request, journal, vec![], Done { answer, left: Left { written, ..Left::nothing(&[]) } }))
}

#[test]
fn c_gets_the_same_answers() {
    let printed = from_c::printed("agree_journal");
    let mut met = Met::new();
    for line in printed.lines() {
        let (request, journal, list, from_c) =
            parsed(line).unwrap_or_else(|| panic!("a line that says no call: {line}"));
        assert_eq!(asked(request, &journal, &list), from_c, "{line}");
        *met.entry((request.name(), from_c.refusal())).or_default() += 1;
    }
    println!("{} lines, {met:?}", printed.lines().count());
    assert_eq!(printed.lines().count(), FROM_C);
    check_met(&met, 20);
}
