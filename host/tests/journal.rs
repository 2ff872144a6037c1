//! The journal: recovery, writing a record, the next counter and shrinking over generated journals and lists, between
//! guard bytes and compared with the model; and what the requests promise of them, run on the codec.
#[allow(dead_code)]
mod support;

use std::collections::BTreeMap;
use support::generate::journals as generate;
use support::header_comments;
use support::journal_tally::{JournalTally, LONGEST};
use support::journals::{line, perform, Done, Left, Request};
use support::model::journal::{run, Entry, Journal, MOST};
use support::random::Random;
use support::senders::{Record, KNOWN_BIT};

const SEED: u64 = 0x10C2_11A1;
/// Journals for each length of a list from 0 to 70, and more with lists that suit the journal.
const JOURNALS: usize = 60;
const SUITED: usize = 12_000;
/// Journals of a few thousand records.
const LONG: usize = 12;
/// Each case of the tally is met at least this often.
const AT_LEAST: usize = 30;

const FREE: Record = Record { used: 0, address: 0, counter: 0 };

/// Makes a call, and compares answer and buffers with the model.
fn compare(request: &Request, journal: &[u8], list: &[Record], guard: u8) -> Done {
    let done = perform(request, journal, list, guard);
    let (answer, left) = run(request, journal, list);
    let said = || line(request, journal, list);
    assert!(done.answer == answer, "answered {:X}, expected {answer:X}: {}", done.answer, said());
    let Left { list: after, complete, written } = &done.left;
    assert!(*complete == left.complete, "complete {complete:?}, expected {:?}: {}", left.complete, said());
    assert!(*written == left.written, "wrote {written:02X?}, expected {:02X?}: {}", left.written, said());
    for (place, (found, wanted)) in after.iter().zip(&left.list).enumerate() {
        assert!(found == wanted, "place {place} is {found:X?}, expected {wanted:X?}: {}", said());
    }
    done
}

/// What holds of every call, whatever the model says: the numbers of the function, nothing beside a refusal, no other bits.
fn check(request: &Request, journal: &[u8], done: &Done) {
    let said = || line(request, journal, &[]);
    if done.refusal() != 0 {
        assert!(request.refusals().contains(&done.refusal()), "refusal {}: {}", done.refusal(), said());
        assert_eq!(done.answer, u64::from(done.refusal()) << 32, "beside a refusal: {}", said());
        return;
    }
    let number = done.key_number().map_or(0, |number| 1 << KNOWN_BIT | u64::from(number) << 48);
    let recovers = matches!(request, Request::Recover);
    assert_eq!(done.answer >> 32, (if recovers { number } else { 0 }) >> 32, "other bits: {}", said());
}

/// Each function over a journal and a list, those that write twice.
fn each(journal: &[u8], list: &[Record], random: &mut Random, tally: &mut JournalTally) {
    let mut requests = vec![Request::Recover, generate::next(journal, random)];
    for _ in 0..2 {
        requests.extend([generate::write(journal, random), generate::shrink(journal, random)]);
    }
    for request in requests {
        let done = compare(&request, journal, list, random.byte());
        check(&request, journal, &done);
        tally.count(&request, journal, list, &done);
    }
}

#[test]
fn every_call_answers_as_the_model() {
    let mut random = Random::new(SEED);
    let mut tally = JournalTally::default();
    for places in (0..=LONGEST).flat_map(|places| [places; JOURNALS]) {
        let (journal, list) = (generate::journal(&mut random), generate::list(places, &mut random));
        each(&journal, &list, &mut random, &mut tally);
    }
    for _ in 0..SUITED {
        let journal = generate::journal(&mut random);
        let list = generate::list(generate::places(&journal, &mut random), &mut random);
        each(&journal, &list, &mut random, &mut tally);
    }
    println!("{}", tally.report());
    assert!(tally.calls() >= 90_000);
    tally.check(AT_LEAST);
}

/// Every length of some journals, from none of their bytes to all, and each of these with one more byte that is no kind.
#[test]
fn every_cut_answers_as_the_model() {
    let mut random = Random::new(SEED + 1);
    let mut tally = JournalTally::default();
    for _ in 0..60 {
        let whole = generate::bytes_of(&generate::few(&mut random));
        for cut in 0..=whole.len() {
            let mut journal = whole[..cut].to_vec();
            let list = generate::list(generate::places(&journal, &mut random), &mut random);
            each(&journal, &list, &mut random, &mut tally);
            journal.push(generate::no_kind(&mut random));
            each(&journal, &list, &mut random, &mut tally);
        }
    }
    assert!(tally.calls() >= 30_000, "{} calls", tally.calls());
}

#[test]
fn long_journals_answer_as_the_model() {
    let mut random = Random::new(SEED + 2);
    let mut tally = JournalTally::default();
    let mut records = 0;
    for _ in 0..LONG {
        let journal = generate::long(&mut random);
        records += Journal::of(&journal).entries.len();
        for places in [0, 1, MOST - 1, MOST, MOST + 1, LONGEST] {
            let list = generate::list(places, &mut random);
            each(&journal, &list, &mut random, &mut tally);
        }
    }
    assert!(records >= 1000 * LONG, "{records} records");
}

/// What the calls are checked against is what the header's comments promise, in the order of the request.
#[test]
fn the_refusals_are_those_of_the_header() {
    let write = Request::Write { kind: 1, sender: 0, counter: 0, number: 0, room: 5 };
    for request in [Request::Recover, write, Request::Next { last: 0 }, Request::Shrink { room: 0 }] {
        assert_eq!(header_comments::refusals(request.name()), request.refusals(), "{}", request.name());
    }
}

// ---- what the requests promise, on the codec alone

/// What recovery of a journal gives over 64 places; none if it is refused.
fn recovered(journal: &[u8]) -> Option<State> {
    let done = perform(&Request::Recover, journal, &[FREE; MOST], 0x3C);
    let complete = done.left.complete.filter(|_| done.refusal() == 0)?;
    let used = done.left.list.iter().filter(|record| record.used != 0);
    let senders = used.map(|record| (record.address, record.counter)).collect();
    Some(State { ceiling: done.low(), key_number: done.key_number(), senders, complete })
}

/// What is recovered: ceiling, key number, senders in their order, and the length of the complete records.
#[derive(Clone, PartialEq, Eq, Debug)]
struct State {
    ceiling: u32,
    key_number: Option<u8>,
    senders: Vec<(u64, u32)>,
    complete: u64,
}

/// What a shrunk journal keeps: the ceiling, the key number, and the senders with their counters, whatever their order.
type Kept = (u32, Option<u8>, BTreeMap<u64, u32>);

impl State {
    fn kept(&self) -> Kept {
        let senders: BTreeMap<u64, u32> = self.senders.iter().copied().collect();
        assert_eq!(senders.len(), self.senders.len(), "a sender in two places");
        (self.ceiling, self.key_number, senders)
    }

    /// The state with one more record: the larger ceiling, the sender's counter in its place or in the next, the key number.
    fn with(mut self, entry: Entry) -> Self {
        self.complete += entry.bytes().len() as u64;
        match entry {
            Entry::Ceiling(ceiling) => self.ceiling = self.ceiling.max(ceiling),
            Entry::KeyNumber(number) => self.key_number = Some(number),
            Entry::Sender(sender, counter) => match self.senders.iter_mut().find(|(known, _)| *known == sender) {
                Some((_, last)) => *last = counter,
                None => self.senders.push((sender, counter)),
            },
        }
        self
    }
}

/// The codec's bytes of a record behind a journal; none if it is refused.
fn written(journal: &[u8], entry: Entry) -> Option<Vec<u8>> {
    let (kind, sender, counter, number) = match entry {
        Entry::Ceiling(ceiling) => (1, 0, ceiling, 0),
        Entry::Sender(sender, counter) => (2, sender, counter, 0),
        Entry::KeyNumber(number) => (3, 0, 0, number),
    };
    given(&Request::Write { kind, sender, counter, number, room: 13 }, journal)
}

/// The codec's shrunk journal; none if it is refused.
fn shrunk(journal: &[u8]) -> Option<Vec<u8>> {
    given(&Request::Shrink { room: generate::LONGEST_SHRUNK }, journal)
}

fn given(request: &Request, journal: &[u8]) -> Option<Vec<u8>> {
    let done = perform(request, journal, &[], 0x3C);
    (done.refusal() == 0).then_some(done.left.written)
}

/// Recovery of a journal followed by one whole record is the recovery before with that record applied; a part of the record changes
/// nothing; the complete records alone recover to the same; and what was written is the record.
#[test]
fn a_record_counts_when_it_is_whole() {
    let mut random = Random::new(SEED + 3);
    let (mut applied, mut parts, mut tails) = (0, 0, 0);
    for _ in 0..2000 {
        let journal = generate::journal(&mut random);
        let Some(before) = recovered(&journal) else { continue };
        let complete = &journal[..before.complete as usize];
        assert_eq!(recovered(complete).as_ref(), Some(&before));
        tails += usize::from(complete.len() < journal.len());
        let names: Vec<u64> = before.senders.iter().map(|(sender, _)| *sender).chain([random.number()]).collect();
        let entry = generate::entry(&names, &mut random);
        let Some(record) = written(&journal, entry) else {
            assert!(before.senders.len() == MOST, "refused: {entry:?}");
            continue;
        };
        assert_eq!(record, entry.bytes());
        for n in 0..record.len() {
            assert_eq!(recovered(&[complete, &record[..n]].concat()).as_ref(), Some(&before), "{n} bytes of {entry:?}");
            parts += 1;
        }
        assert_eq!(recovered(&[complete, &record].concat()), Some(before.clone().with(entry)), "{entry:?}");
        applied += 1;
    }
    assert!(applied >= 400 && parts >= 2000 && tails >= 100, "{applied} records, {parts} parts, {tails} tails");
}

/// A gateway whose store is a byte string: what it hands out rises over every cut, at rest or after any byte of a
/// record, and where a shrunk journal took the store's place, or a cut came before that.
#[test]
fn no_counter_is_handed_out_twice() {
    let mut random = Random::new(SEED + 4);
    let (mut cuts_inside, mut handed_out, mut replaced) = (0, 0, 0);
    for life in 0..300 {
        let (mut store, mut last, mut highest) = (Vec::new(), 0, 0);
        for _ in 0..random.between(20, 120) {
            match random.below(9) {
                0..=3 => {
                    let done = perform(&Request::Next { last }, &store, &[], 0x3C);
                    if done.refusal() == 0 {
                        assert!(done.low() > highest, "life {life}: {} after {highest}", done.low());
                        (last, highest) = (done.low(), done.low());
                        handed_out += 1;
                    }
                }
                4 => {
                    // A cut, and recovery.
                    last = recovered(&store).map(|state| state.ceiling).unwrap_or_else(|| panic!("{store:02X?}"));
                }
                5 => {
                    // The shrunk journal takes the store's place unless a cut comes first; one may come after it too.
                    let shrunk = shrunk(&store).expect("a journal of this writer");
                    let cut_first = random.percent(30);
                    if !cut_first {
                        replaced += usize::from(shrunk.len() < store.len());
                        store = shrunk;
                    }
                    if cut_first || random.bit() {
                        last = recovered(&store).expect("a journal of this writer").ceiling;
                    }
                }
                _ => {
                    let ahead = Entry::Ceiling(last.saturating_add(random.below(9) as u32));
                    let entry = if random.percent(60) { ahead } else { generate::entry(&[1, 2], &mut random) };
                    let entry = if matches!(entry, Entry::Ceiling(c) if c > highest + 1000) { ahead } else { entry };
                    let complete = recovered(&store).expect("a journal of this writer").complete;
                    let record = written(&store, entry).expect("two senders");
                    store.truncate(complete as usize);
                    let cut = random.percent(30);
                    store.extend(&record[..if cut { random.below(record.len() + 1) } else { record.len() }]);
                    if cut {
                        last = recovered(&store).expect("a journal of this writer").ceiling;
                        cuts_inside += 1;
                    }
                }
            }
        }
    }
    let met = cuts_inside >= 500 && handed_out >= 2000 && replaced >= 500;
    assert!(met, "{cuts_inside} cuts, {handed_out} counters, {replaced} stores made shorter");
}

/// "Recovers to the same ceiling, senders with their counters, and key number or none": and hands out the same
/// counters, and takes the same records. A shrunk journal has no more bytes than the complete records, shrinks to
/// itself, and recovers to something else without any one of its records. What recovery into 64 places refuses is
/// refused by the same number.
#[test]
fn a_shrunk_journal_recovers_to_the_same() {
    let mut random = Random::new(SEED + 5);
    let (mut shorter, mut as_long, mut refused) = (0, 0, 0);
    for n in 0..2000 {
        let journal = if n < LONG { generate::long(&mut random) } else { generate::journal(&mut random) };
        let Some(before) = recovered(&journal) else {
            let number = |request: Request| perform(&request, &journal, &[FREE; MOST], 0x3C).refusal();
            assert_eq!(number(Request::Shrink { room: 0 }), number(Request::Recover));
            refused += 1;
            continue;
        };
        let short = shrunk(&journal).expect("what recovers is shrunk");
        let after = recovered(&short).expect("what was shrunk recovers");
        assert_eq!((after.kept(), after.complete), (before.kept(), short.len() as u64));
        assert!(after.complete <= before.complete, "{} bytes from {}", after.complete, before.complete);
        assert_eq!(shrunk(&short).as_ref(), Some(&short));
        for request in [generate::next(&journal, &mut random), generate::write(&journal, &mut random)] {
            assert_eq!(perform(&request, &short, &[], 0x3C), perform(&request, &journal, &[], 0x3C));
        }
        let records = Journal::of(&short).entries;
        for left_out in 0..records.len() {
            let rest = [&records[..left_out], &records[left_out + 1..]].concat();
            let state = recovered(&generate::bytes_of(&rest)).expect("fewer records");
            assert_ne!(state.kept(), before.kept(), "without {:?}", records[left_out]);
        }
        let count = if after.complete < before.complete { &mut shorter } else { &mut as_long };
        *count += 1;
    }
    let met = shorter >= 500 && as_long >= 100 && refused >= 300;
    assert!(met, "{shorter} shorter, {as_long} as long, {refused} refused");
}

/// Every journal of these pieces, up to so many bytes.
fn every_journal(pieces: &[Vec<u8>], longest: usize) -> Vec<Vec<u8>> {
    let mut journals = vec![vec![]];
    let mut extended = 0;
    while let Some(journal) = journals.get(extended).cloned() {
        let longer = pieces.iter().map(|piece| [&journal[..], piece].concat());
        journals.extend(longer.filter(|journal| journal.len() <= longest));
        extended += 1;
    }
    journals
}

/// "No journal with fewer bytes recovers to that state": of all rows of a few records, and of all bytes of a few
/// values, the shortest that recovers to a state has the shrunk one's length, and all that recover to it are shrunk to
/// the same bytes.
#[test]
fn no_shorter_journal_recovers_to_the_same() {
    let values = |range: std::ops::RangeInclusive<u8>| range.map(|value| vec![value]).collect::<Vec<_>>();
    let records = [
        Entry::KeyNumber(0),
        Entry::KeyNumber(1),
        Entry::Ceiling(0),
        Entry::Ceiling(9),
        Entry::Sender(0x01, 0),
        Entry::Sender(0x01, 5),
        Entry::Sender(0x0100, 0),
    ];
    let each = [
        // A key number or none and a ceiling or 0, beside no sender or one; a key number or none beside two senders.
        (records.map(Entry::bytes).to_vec(), 28, 3 * 2 * (1 + 3) + 3 * 2),
        // A key number or none, beside any ceiling of four such bytes.
        (values(0..=3), 8, (1 + 4) * 4_usize.pow(4)),
        // A key number or none, beside no sender or one of twelve such bytes.
        (values(2..=3), 15, (1 + 2) * (1 + 2_usize.pow(12))),
    ];
    for (pieces, longest, states) in each {
        let mut found: BTreeMap<Kept, (usize, Vec<u8>)> = BTreeMap::new();
        for journal in every_journal(&pieces, longest) {
            let Some(state) = recovered(&journal) else { continue };
            let short = shrunk(&journal).expect("what recovers is shrunk");
            let (shortest, same) = found.entry(state.kept()).or_insert((journal.len(), short.clone()));
            assert_eq!(*same, short, "{journal:02X?}");
            *shortest = journal.len().min(*shortest);
        }
        assert_eq!(found.len(), states);
        for (state, (shortest, short)) in found {
            assert_eq!(short.len(), shortest, "{state:X?}");
        }
    }
}
