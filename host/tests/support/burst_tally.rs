//! What the generated bursts met: every size, each condition of 20 alone and at its edge, each own answer of a frame with
//! a good frame behind it, and in every size each kind of frame among good ones. A good frame is one that opens as sealed.
use super::calls::{lengths_of, Call, Outcome};
use super::operations::{MARK_CLEAR, MARK_SEALED, MAX_BURST, OPENED_MARK, OPENED_RECORD, PART};
use super::tally::NUMBERS;
use std::collections::{BTreeMap, BTreeSet};

/// What a frame of a burst can answer at a level: 0, and each number of opening but 18, since a part has room for every payload. Where
/// the level is none each frame answers 29.
pub const OWN_ANSWERS: [usize; 16] = [0, 1, 2, 3, 4, 5, 6, 7, 8, 9, 10, 11, 12, 15, 16, 19];
const NO_LEVEL: usize = 29;

/// The ways to meet one condition of 20 and none of the others.
pub const ALONE: [&str; 9] = [
    "17 lengths",
    "more than 17 lengths",
    "bytes without lengths",
    "lengths one below the bytes",
    "lengths one above the bytes",
    "lengths that add up in 16 bits only",
    "an output one byte short",
    "one answer too few",
    "no answers",
];

/// Accepted bursts that a wrong count or a cut sum would refuse.
pub const ACCEPTED: [&str; 3] =
    ["no frames, nothing lent", "no frames, something lent", "lengths above 16 bits in all"];

/// What stands among the good frames of a burst.
pub const AMONG: [&str; 5] = ["clear", "empty", "over-long", "damaged", "refused"];

#[derive(Default)]
pub struct BurstTally {
    /// By the number of lengths, accepted or not.
    sizes: BTreeMap<usize, usize>,
    /// By the names above.
    met: BTreeMap<&'static str, usize>,
    /// The own answers of the frames, and those with a good frame behind them.
    own: [usize; NUMBERS],
    before_a_good_one: [usize; NUMBERS],
    clear_before_a_good_one: usize,
    /// Accepted bursts by their size and what stands in them.
    among: BTreeMap<(usize, &'static str), usize>,
}

impl BurstTally {
    pub fn count(&mut self, call: &Call, outcome: &Outcome) {
        let burst = Lists::of(call);
        *self.sizes.entry(burst.count).or_default() += 1;
        let name = if outcome.refusal() == 0 { burst.accepted() } else { burst.alone() };
        if let Some(name) = name {
            *self.met.entry(name).or_default() += 1;
        }
        let own: Vec<Own> = outcome.frames().map(|(record, _)| (usize::from(record[0]), record[OPENED_MARK])).collect();
        own.iter().for_each(|&(number, _)| self.own[number] += 1);
        for pair in own.windows(2).filter(|pair| pair[1].1 == MARK_SEALED) {
            self.before_a_good_one[pair[0].0] += 1;
            self.clear_before_a_good_one += usize::from(pair[0].1 == MARK_CLEAR);
        }
        let kinds: BTreeSet<&str> = own.iter().zip(lengths_of(&call.inputs[1])).map(kind).collect();
        for kind in kinds.iter().filter(|_| kinds.contains("good")) {
            *self.among.entry((own.len(), kind)).or_default() += 1;
        }
    }

    /// Everything was met at least so often.
    pub fn check(&self, at_least: usize) {
        for size in 0..=MAX_BURST + 1 {
            let met = self.sizes.get(&size).copied().unwrap_or(0);
            assert!(met >= at_least, "a burst of {size} was met only {met} times");
        }
        for name in ALONE.iter().chain(&ACCEPTED) {
            let met = self.met.get(name).copied().unwrap_or(0);
            assert!(met >= at_least, "{name}: met only {met} times");
        }
        for (size, kind) in (2..=MAX_BURST).flat_map(|size| AMONG.map(|kind| (size, kind))) {
            let met = self.among.get(&(size, kind)).copied().unwrap_or(0);
            assert!(met >= at_least, "a burst of {size} had a frame that is {kind} among good ones only {met} times");
        }
        for number in OWN_ANSWERS {
            let (met, before) = (self.own[number], self.before_a_good_one[number]);
            assert!(met >= at_least, "a frame answered {number} only {met} times");
            assert!(before >= at_least, "a good frame stood behind one that answered {number} only {before} times");
        }
        let before = self.clear_before_a_good_one;
        assert!(before >= at_least, "a good frame stood behind a clear one only {before} times");
        assert!(self.own[NO_LEVEL] >= at_least, "a frame answered 29 only {} times", self.own[NO_LEVEL]);
        let own: usize = OWN_ANSWERS.iter().chain(&[NO_LEVEL]).map(|&number| self.own[number]).sum();
        assert_eq!(own, self.own.iter().sum::<usize>(), "a frame answered what no frame can");
    }

    /// The names that were met, and the own answers of the frames, with their counts.
    pub fn report(&self) -> String {
        format!("bursts: {:?}, own answers of their frames: {:?}", self.met, self.own)
    }
}

/// The own answer of a frame: its number, and its mark.
type Own = (usize, u8);

/// The kind of a frame, by its own answer and its length.
fn kind((own, length): (&Own, usize)) -> &'static str {
    match (own, length) {
        ((0, MARK_CLEAR), _) => "clear",
        ((0, _), _) => "good",
        (_, 0) => "empty",
        ((1, _), _) => "over-long",
        ((19, _), _) => "damaged",
        _ => "refused",
    }
}

/// What decides whether a burst is refused.
struct Lists {
    count: usize,
    sum: usize,
    bytes: usize,
    answers: usize,
    room: usize,
}

impl Lists {
    fn of(call: &Call) -> Self {
        let lengths = lengths_of(&call.inputs[1]);
        Self {
            count: lengths.len(),
            sum: lengths.iter().sum(),
            bytes: call.inputs[0].len(),
            answers: call.rooms[0] / OPENED_RECORD,
            room: call.rooms[1],
        }
    }

    /// The name of the condition of 20 that is the only one met.
    fn alone(&self) -> Option<&'static str> {
        let parts = PART * self.count;
        let met = [self.count > MAX_BURST, self.sum != self.bytes, self.room < parts, self.answers < self.count];
        Some(match met {
            [true, false, false, false] if self.count == MAX_BURST + 1 => "17 lengths",
            [true, false, false, false] => "more than 17 lengths",
            [false, true, false, false] if self.count == 0 => "bytes without lengths",
            [false, true, false, false] if self.sum + 1 == self.bytes => "lengths one below the bytes",
            [false, true, false, false] if self.sum == self.bytes + 1 => "lengths one above the bytes",
            [false, true, false, false] if self.sum % 65_536 == self.bytes => "lengths that add up in 16 bits only",
            [false, false, true, false] if self.room + 1 == parts => "an output one byte short",
            [false, false, false, true] if self.answers == 0 => "no answers",
            [false, false, false, true] if self.answers + 1 == self.count => "one answer too few",
            _ => return None,
        })
    }

    fn accepted(&self) -> Option<&'static str> {
        match (self.count, self.answers + self.room) {
            (0, 0) => Some("no frames, nothing lent"),
            (0, _) => Some("no frames, something lent"),
            _ => (self.sum > usize::from(u16::MAX)).then_some("lengths above 16 bits in all"),
        }
    }
}
