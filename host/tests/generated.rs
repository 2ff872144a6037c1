//! Generated calls over the seventeen operations on bytes, each between guard bytes and compared with a model of documents 01
//! and 02. `inbound.rs` has those over lists of senders, `journal.rs` those over journals.
#[allow(dead_code)]
mod support;

use support::burst_tally::BurstTally;
use support::calls::Call;
use support::clear_tally::ClearTally;
use support::compare::compare;
use support::counter_tally::CounterTally;
use support::generate;
use support::header_comments;
use support::level_tally::LevelTally;
use support::operations::{Extent, Operation, OPERATIONS};
use support::presence_tally::PresenceTally;
use support::random::Random;
use support::tally::{all_kinds, Tally};

const SEED: u64 = 0x5A19_BEE0_2025;
const CALLS_EACH: usize = 24_000;
const CALLS_IN_ALL: usize = 200_000;
/// Every refusal of every operation, every kind of content, every length and every room is met at least this often.
const AT_LEAST: usize = 10;
/// Every answer at each of the three levels, and 29 before it, at least this often.
const AT_EACH_LEVEL: usize = 3;

#[test]
fn every_operation_answers_as_the_model() {
    let mut random = Random::new(SEED);
    let (mut tally, mut bursts) = (Tally::new(), BurstTally::default());
    let (mut clear, mut counters) = (ClearTally::default(), CounterTally::default());
    let (mut presence, mut levels) = (PresenceTally::default(), LevelTally::default());
    for number in 0..CALLS_EACH {
        for operation in OPERATIONS {
            let generated = generate::call(operation, number, &mut random);
            let outcome = compare(&generated.call, random.byte(), random.byte());
            tally.count(&generated.call, &outcome, &generated.exact);
            clear.count(&generated.call, &outcome);
            counters.count(&generated.call, &outcome);
            presence.count(&generated.call, &outcome);
            levels.count(&generated.call, &outcome);
            if operation == Operation::OpenBurst {
                bursts.count(&generated.call, &outcome);
            }
        }
    }
    println!("{} calls\n{}\n{}", tally.all_calls(), tally.report(), bursts.report());
    println!("{}\n{}\n{}\n{}", clear.report(), counters.report(), presence.report(), levels.report());
    assert!(tally.all_calls() >= CALLS_IN_ALL);
    OPERATIONS.into_iter().for_each(|operation| check_tally(&tally, operation));
    bursts.check(AT_LEAST);
    clear.check(AT_LEAST);
    counters.check(AT_LEAST);
    presence.check(AT_LEAST);
    levels.check(AT_EACH_LEVEL);
    // "Opening no longer gives 14, sealing still does"; of a burst's frames its own tally says so.
    assert_eq!(tally.answers(Operation::Open, 14), 0);
    assert!(tally.answers(Operation::Seal, 14) >= AT_LEAST);
}

/// Acceptance, each refusal, each kind of content, each length of the bytes read and each room around the exact one were met,
/// and no other refusal.
fn check_tally(tally: &Tally, operation: Operation) {
    let shape = operation.shape();
    assert_eq!(tally.calls(operation), CALLS_EACH, "{}", shape.name);
    assert!(tally.answers(operation, 0) >= CALLS_EACH / 8, "{} was hardly ever accepted", shape.name);
    for &refusal in shape.refusals {
        let met = tally.answers(operation, refusal);
        assert!(met >= AT_LEAST, "{} refused by {refusal} only {met} times", shape.name);
    }
    let listed: usize = shape.refusals.iter().map(|&refusal| tally.answers(operation, refusal)).sum();
    assert_eq!(tally.answers(operation, 0) + listed, CALLS_EACH, "{} refused by another number", shape.name);
    let (kinds, rarest) = tally.kinds(operation);
    assert_eq!(kinds, all_kinds(operation), "{}: kinds of content accepted", shape.name);
    assert!(rarest >= AT_LEAST, "{}: a kind of content was accepted only {rarest} times", shape.name);
    for (i, (name, _)) in shape.inputs.iter().enumerate().filter(|(_, (_, free))| *free) {
        let rarest = tally.rarest_length(operation, i);
        assert!(rarest >= AT_LEAST, "{}: a length of {name} was met only {rarest} times", shape.name);
    }
    for (i, _) in shape.outputs.iter().enumerate().filter(|(_, extent)| !matches!(extent, Extent::Array(_))) {
        let rarest = tally.rarest_room(operation, i);
        assert!(rarest >= AT_LEAST, "{}: a room of output {i} was met only {rarest} times", shape.name);
    }
}

/// What the calls are checked against is what the header's comments promise.
#[test]
fn the_refusals_are_those_of_the_header() {
    for operation in OPERATIONS {
        let shape = operation.shape();
        assert_eq!(header_comments::refusals(shape.name), shape.refusals, "{}", shape.name);
    }
}

/// The codes that an operation over a code alone accepts.
fn accepted_codes(operation: Operation) -> Vec<u8> {
    let accepted = |code: &u8| {
        let call = Call::new(operation, [0; 16], vec![vec![*code]], Vec::new());
        compare(&call, 0, *code).refusal() == 0
    };
    (0..=255).filter(accepted).collect()
}

#[test]
fn every_code_answers_as_the_model() {
    assert_eq!(accepted_codes(Operation::TimeoutSeconds), Vec::from_iter(0..=14));
    assert_eq!(accepted_codes(Operation::PayloadKind), [0, 1, 3]);
}
