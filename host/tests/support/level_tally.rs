//! What the generated calls met of levels (document 02, request 9): each operation that takes one at every number that is tried, each
//! of its answers at each of the three levels, and at numbers that are no level 29 before each other answer; of bursts 29 as
//! each frame's answer, 20 before it, and no frames accepted.
use super::calls::{Call, Outcome};
use super::generate::NO_LEVELS;
use super::model;
use super::model::level::{self, LEVELS};
use super::operations::{Operation, LEVELLED};
use std::collections::BTreeMap;

/// What can be met of bursts at a number that is no level.
const BURSTS: [&str; 3] = ["29 of each frame", "20 before 29", "no frames and no level"];

/// What can be met of a MIC with 16 places, at a level.
const PLACES: &str = "opened with any bytes past the MIC";

#[derive(Default)]
pub struct LevelTally {
    /// By operation, level and answer.
    answers: BTreeMap<(&'static str, u64, u8), usize>,
    /// By operation and what the call answers at one of the three levels, where it was made at a number that is none.
    before: BTreeMap<(&'static str, u8), usize>,
    /// By the names above, and the level where there is one.
    met: BTreeMap<(&'static str, u64), usize>,
}

impl LevelTally {
    /// Counts a call of an operation that takes a level.
    pub fn count(&mut self, call: &Call, outcome: &Outcome) {
        if !call.operation.levelled() {
            return;
        }
        let name = call.operation.shape().name;
        *self.answers.entry((name, call.level, outcome.refusal())).or_default() += 1;
        match level::of(call.level) {
            Err(_) if call.operation == Operation::OpenBurst => self.one(of_burst(outcome), 0),
            Err(number) => {
                assert_eq!(outcome.refusal(), number, "{}", call.line());
                let others = LEVELS.map(|level| model::outcome(&call.at(level.number), 0).refusal());
                others.into_iter().for_each(|other| *self.before.entry((name, other)).or_default() += 1);
            }
            Ok(level) if call.operation == Operation::DecryptCcm && outcome.refusal() == 0 => {
                let past = call.inputs[3][level.mic..].iter().any(|byte| *byte != 0);
                self.one(if past { PLACES } else { "opened" }, call.level);
            }
            Ok(_) => {}
        }
    }

    fn one(&mut self, name: &'static str, level: u64) {
        *self.met.entry((name, level)).or_default() += 1;
    }

    /// Everything was met at least so often.
    pub fn check(&self, at_least: usize) {
        for (operation, level) in LEVELLED.into_iter().flat_map(|operation| NO_LEVELS.map(|level| (operation, level))) {
            let name = operation.shape().name;
            let met: usize = (0..=29).map(|answer| self.answered(name, level, answer)).sum();
            assert!(met >= at_least, "{name} was called at {level} only {met} times");
        }
        for operation in LEVELLED {
            self.check_answers(operation, at_least);
        }
        for name in BURSTS {
            self.check_one(name, 0, at_least);
        }
        LEVELS[..2].iter().for_each(|level| self.check_one(PLACES, level.number.into(), at_least));
    }

    /// At each level each answer of the operation but 29, and 29 before each of them.
    fn check_answers(&self, operation: Operation, at_least: usize) {
        let shape = operation.shape();
        for answer in shape.refusals.iter().copied().chain([0]).filter(|answer| *answer != 29) {
            for level in LEVELS {
                let met = self.answered(shape.name, level.number.into(), answer);
                assert!(met >= at_least, "{} answered {answer} at level {} only {met} times", shape.name, level.number);
            }
            let met = self.before.get(&(shape.name, answer)).copied().unwrap_or(0);
            let of_frames = operation == Operation::OpenBurst;
            assert!(of_frames || met >= at_least, "{} had 29 before {answer} only {met} times", shape.name);
        }
    }

    fn check_one(&self, name: &'static str, level: u64, at_least: usize) {
        let met = self.met.get(&(name, level)).copied().unwrap_or(0);
        assert!(met >= at_least, "{name} {level}: met only {met} times");
    }

    fn answered(&self, name: &'static str, level: u64, answer: u8) -> usize {
        self.answers.get(&(name, level, answer)).copied().unwrap_or(0)
    }

    pub fn report(&self) -> String {
        format!("levels: {:?}, 29 before {:?}, {:?}", self.answers, self.before, self.met)
    }
}

/// What a burst at a number that is no level shows.
fn of_burst(outcome: &Outcome) -> &'static str {
    match (outcome.refusal(), outcome.length()) {
        (20, _) => "20 before 29",
        (_, 0) => "no frames and no level",
        _ => {
            assert!(outcome.frames().all(|(record, _)| record[0] == 29));
            "29 of each frame"
        }
    }
}
