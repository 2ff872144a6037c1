//! The frame counters of one device under one key number: which frames were lost, as far as counters can tell.
//!
//! Opened frames alone count, in the order of the input. A rise of the counter by more than 1 is a gap or a jump. A gap's
//! counters were sent and not received. A jump is a restart: counters that were reserved ahead and never sent. A frame that is
//! not above the highest counter changes no range.
use super::period::Period;
use std::collections::{BTreeMap, BTreeSet, VecDeque};

/// A rise of the counter above this is a jump. The sequence number has 8 bits, so up to here it can speak against a gap.
pub const JUMP: u32 = 255;

/// How many gaps are kept for frames that come late, and how many counters that refused frames claim.
const RECENT_GAPS: usize = 32;
const MOST_CLAIMS: usize = 256;

/// A fall by so little is the same frame heard again, or one that came late, unless its sequence number says otherwise.
const SMALL_FALL: u32 = 16;

/// So many frames that start anew may be replays. More of them are rather what a device sends after a reset.
const FEW_REPLAYS: u32 = 16;

/// What is told of a device under a key number, within a period.
#[derive(Debug, Default, Clone, Copy, PartialEq, Eq)]
pub struct Losses {
    /// The first and the highest counter, repeats and starts anew aside.
    pub range: Option<(u32, u32)>,
    /// Counters under which a frame was opened.
    pub received: u64,
    /// Counters missing in gaps that the sequence numbers confirm, and in the other gaps.
    confirmed: u64,
    unconfirmed: u64,
    /// Of both, those that a refused frame claims.
    pub refused: u64,
    pub jumps: u64,
    pub passed_over: u64,
    pub starts_anew: u64,
    /// Frames at or below the highest counter.
    pub at_or_below: u64,
    /// A start anew may have been a reset, so that what was lost after it is not known; or that is yet to be decided.
    unbounded: bool,
    unsettled: bool,
}

impl Losses {
    /// Counters missing in gaps.
    pub fn gaps(&self) -> u64 {
        self.confirmed + self.unconfirmed
    }

    /// Frames that were lost for certain.
    pub fn at_least(&self) -> u64 {
        self.confirmed
    }

    /// The most frames that may have been lost; none where that is not known.
    pub fn at_most(&self) -> Option<u64> {
        (!self.unbounded && !self.unsettled).then(|| self.gaps() + self.passed_over)
    }

    pub fn add(&mut self, other: &Losses) {
        self.range = match (self.range, other.range) {
            (Some((first, highest)), Some((_, other))) => Some((first, highest.max(other))),
            (own, other) => own.or(other),
        };
        self.received += other.received;
        self.confirmed += other.confirmed;
        self.unconfirmed += other.unconfirmed;
        self.refused += other.refused;
        self.jumps += other.jumps;
        self.passed_over += other.passed_over;
        self.starts_anew += other.starts_anew;
        self.at_or_below += other.at_or_below;
        self.unbounded |= other.unbounded | other.unsettled;
    }

    /// Decides what a start anew was: a replay, where the counter went on, else perhaps a reset.
    fn settle(&mut self, went_on: bool) {
        self.unbounded |= self.unsettled && !went_on;
        self.unsettled = false;
    }
}

/// An opened frame as its device's counters see it.
#[derive(Debug, Clone, Copy)]
pub struct Heard {
    pub counter: u32,
    /// Its sequence number, where the device that sealed it also made it.
    pub sequence: Option<u8>,
    pub period: Period,
}

/// Counters missing between two received ones.
#[derive(Debug)]
struct Gap {
    after: u32,
    before: u32,
    refused: u64,
    period: Period,
    state: State,
}

#[derive(Debug, Clone, Copy, PartialEq)]
enum State {
    /// No frame that the device made has come since.
    Pending,
    Confirmed,
    Unconfirmed,
    Jump,
}

impl Gap {
    fn missing(&self) -> u64 {
        u64::from(self.before - self.after - 1)
    }

    fn holds(&self, counter: u32) -> bool {
        self.after < counter && counter < self.before
    }
}

/// The last frame that the device made itself, and how many of others it has passed on since.
#[derive(Debug, Clone, Copy)]
struct Own {
    counter: u32,
    sequence: u8,
    passed_on: u64,
}

/// What the sequence numbers say of a stretch between two frames that a device made.
#[derive(Debug, Clone, Copy, PartialEq)]
enum Verdict {
    /// They rose by the frames received and missing: the device went on.
    WentOn,
    /// They rose by more than counters were free: the device restarted.
    Restarted,
    Unknown,
}

/// The counters of a device under a key number.
#[derive(Debug)]
pub struct Counters {
    limit: u32,
    highest: u32,
    /// Every counter from here to the highest was received, or lies in one of the recent gaps.
    known_from: u32,
    recent: VecDeque<Gap>,
    /// Counters above the highest that refused frames claim.
    claims: BTreeSet<u32>,
    own: Option<Own>,
    /// The last counter of a run that started anew.
    run: Option<u32>,
    /// How many frames started anew, or went on from there, since a frame settled what they were.
    fallen: u32,
    periods: BTreeMap<Period, Losses>,
}

impl Counters {
    /// The counters from a device's first frame on. A rise above the limit is a jump.
    pub fn new(heard: Heard, limit: u32) -> Self {
        let counter = heard.counter;
        let mut counters = Self {
            limit,
            highest: counter,
            known_from: counter,
            recent: VecDeque::new(),
            claims: BTreeSet::new(),
            own: heard.sequence.map(|sequence| Own { counter, sequence, passed_on: 0 }),
            run: None,
            fallen: 0,
            periods: BTreeMap::new(),
        };
        counters.receive(heard);
        counters
    }

    pub fn periods(&self) -> &BTreeMap<Period, Losses> {
        &self.periods
    }

    /// Notes an opened frame.
    pub fn note(&mut self, heard: Heard) {
        match heard.counter > self.highest {
            true => self.rise(heard),
            false => self.fall(heard),
        }
    }

    /// Notes a counter that a refused frame claims: a frame did arrive, though not whole.
    pub fn claim(&mut self, counter: u32) {
        let near = counter > self.highest && counter - self.highest <= self.limit;
        if near && self.claims.len() < MOST_CLAIMS {
            self.claims.insert(counter);
        }
    }

    fn losses(&mut self, period: Period) -> &mut Losses {
        self.periods.entry(period).or_default()
    }

    fn receive(&mut self, heard: Heard) {
        let losses = self.losses(heard.period);
        losses.received += 1;
        let (first, highest) = losses.range.unwrap_or((heard.counter, heard.counter));
        losses.range = Some((first, highest.max(heard.counter)));
    }

    fn rise(&mut self, heard: Heard) {
        let rise = heard.counter - self.highest;
        match rise {
            1 => {}
            _ if rise > self.limit => self.jump(heard),
            _ => self.gap(heard),
        }
        self.highest = heard.counter;
        self.claims = self.claims.split_off(&heard.counter);
        self.claims.remove(&heard.counter);
        self.receive(heard);
        self.run = None;
        match (heard.sequence, &mut self.own) {
            (Some(sequence), _) => self.judge(heard.counter, sequence),
            (None, Some(own)) => own.passed_on += 1,
            (None, None) => {}
        }
    }

    /// A rise above the limit. The sequence numbers on its two sides have nothing to do with each other.
    fn jump(&mut self, heard: Heard) {
        let passed_over = u64::from(heard.counter - self.highest - 1);
        let losses = self.losses(heard.period);
        losses.jumps += 1;
        losses.passed_over += passed_over;
        self.own = None;
        self.recent.clear();
        self.known_from = heard.counter;
    }

    fn gap(&mut self, heard: Heard) {
        let refused = self.claims.range(self.highest + 1..heard.counter).count() as u64;
        let (after, before) = (self.highest, heard.counter);
        let gap = Gap { after, before, refused, period: heard.period, state: State::Pending };
        let losses = self.losses(heard.period);
        losses.unconfirmed += gap.missing();
        losses.refused += refused;
        self.keep(gap);
    }

    /// Keeps a gap among the recent ones, and lets go of the oldest.
    fn keep(&mut self, gap: Gap) {
        self.recent.push_back(gap);
        while self.recent.len() > RECENT_GAPS {
            let oldest = self.recent.pop_front();
            self.known_from = oldest.map_or(self.known_from, |gap| gap.before);
        }
    }

    /// A frame that the device made: its sequence number decides about the gaps since the last one.
    fn judge(&mut self, counter: u32, sequence: u8) {
        let verdict = self.own.map_or(Verdict::Unknown, |own| own.verdict(counter, sequence));
        match verdict {
            Verdict::WentOn => self.confirm(),
            Verdict::Restarted => self.restarted(),
            Verdict::Unknown => self.leave_open(),
        }
        let fallen = std::mem::take(&mut self.fallen);
        if fallen > 0 {
            let went_on = verdict == Verdict::WentOn && fallen <= FEW_REPLAYS;
            self.periods.values_mut().for_each(|losses| losses.settle(went_on));
        }
        self.own = Some(Own { counter, sequence, passed_on: 0 });
    }

    fn confirm(&mut self) {
        for gap in self.recent.iter_mut().filter(|gap| gap.state == State::Pending) {
            gap.state = State::Confirmed;
            let losses = self.periods.entry(gap.period).or_default();
            losses.unconfirmed -= gap.missing();
            losses.confirmed += gap.missing();
        }
    }

    /// Somewhere in the gaps since the last frame that the device made it restarted: they are one jump.
    fn restarted(&mut self) {
        let mut last = None;
        for gap in self.recent.iter_mut().filter(|gap| gap.state == State::Pending) {
            gap.state = State::Jump;
            let losses = self.periods.entry(gap.period).or_default();
            losses.unconfirmed -= gap.missing();
            losses.refused -= gap.refused;
            losses.passed_over += gap.missing();
            last = Some(gap.period);
        }
        if let Some(period) = last {
            self.losses(period).jumps += 1;
        }
    }

    fn leave_open(&mut self) {
        for gap in self.recent.iter_mut().filter(|gap| gap.state == State::Pending) {
            gap.state = State::Unconfirmed;
        }
    }

    /// A frame at or below the highest counter: heard again, come late, or the start of a run that is a reset or a replay.
    fn fall(&mut self, heard: Heard) {
        let counter = heard.counter;
        self.losses(heard.period).at_or_below += 1;
        let goes_on = self.run.is_some_and(|run| counter > run && counter - run <= self.limit);
        if !goes_on && self.is_again(heard) {
            if let Some(at) = self.recent.iter().position(|gap| gap.holds(counter)) {
                self.fill(at, heard);
            }
            return;
        }
        let losses = self.losses(heard.period);
        losses.starts_anew += u64::from(!goes_on);
        losses.unsettled = true;
        self.run = Some(counter);
        self.fallen = self.fallen.saturating_add(1);
    }

    /// Whether a frame at or below the highest counter is one of the last frames: its sequence number is the one that it had
    /// then, or, where that is not known, it fell by little.
    fn is_again(&self, heard: Heard) -> bool {
        let counter = heard.counter;
        if counter < self.known_from || self.highest - counter > self.limit {
            return false;
        }
        match (self.own, heard.sequence) {
            (Some(own), Some(sequence)) if own.passed_on == 0 => {
                own.sequence.wrapping_sub(sequence) == own.counter.wrapping_sub(counter) as u8
            }
            _ => self.highest - counter <= SMALL_FALL,
        }
    }

    /// A frame came late: its counter is no longer missing. What was to be decided by sequence numbers is left open.
    fn fill(&mut self, at: usize, heard: Heard) {
        self.leave_open();
        self.own = None;
        let Some(gap) = self.recent.remove(at) else {
            return;
        };
        let refused = gap.refused.min(gap.missing() - 1);
        let losses = self.losses(gap.period);
        match gap.state {
            State::Jump => losses.passed_over -= 1,
            State::Confirmed => losses.confirmed -= 1,
            State::Pending | State::Unconfirmed => losses.unconfirmed -= 1,
        }
        if gap.state != State::Jump {
            losses.refused -= gap.refused - refused;
        }
        let left = Gap { before: heard.counter, refused, ..gap };
        let right = Gap { after: heard.counter, refused: refused - refused.min(left.missing()), ..gap };
        let left = Gap { refused: refused - right.refused, ..left };
        for side in [right, left].into_iter().filter(|side| side.missing() > 0) {
            self.recent.insert(at, side);
        }
        self.receive(heard);
    }
}

impl Own {
    /// What the sequence number of the next frame that the device made says of the counters between.
    fn verdict(self, counter: u32, sequence: u8) -> Verdict {
        let between = u64::from(counter - self.counter - 1);
        let missing = between - self.passed_on.min(between);
        let rise = sequence.wrapping_sub(self.sequence);
        match rise {
            _ if rise == (missing + 1) as u8 => Verdict::WentOn,
            _ if between < 255 && u64::from(rise) > missing + 1 => Verdict::Restarted,
            _ => Verdict::Unknown,
        }
    }
}

#[cfg(test)]
mod tests {
    use super::*;

    /// What is told after frames of these counters; a sequence number stands beside a frame that the device made itself.
    fn told(frames: &[(u32, Option<u8>)]) -> Losses {
        let heard = |(counter, sequence): (u32, Option<u8>)| Heard { counter, sequence, period: None };
        let mut counters = Counters::new(heard(frames[0]), JUMP);
        frames[1..].iter().for_each(|frame| counters.note(heard(*frame)));
        counters.periods()[&None]
    }

    fn lost(frames: &[(u32, Option<u8>)]) -> (u64, Option<u64>) {
        let losses = told(frames);
        (losses.at_least(), losses.at_most())
    }

    #[test]
    fn sequence_numbers_confirm_a_gap_or_speak_against_it() {
        assert_eq!(lost(&[(5, Some(254)), (9, Some(2))]), (3, Some(3)));
        // 5 of its own cannot have been made under 4 counters.
        let restarted = told(&[(5, Some(1)), (9, Some(6))]);
        assert_eq!((restarted.jumps, restarted.passed_over, restarted.gaps()), (1, 3, 0));
        assert_eq!((restarted.at_least(), restarted.at_most()), (0, Some(3)));
        // Fewer of its own than counters: frames that it passed on were lost, or it restarted.
        assert_eq!(lost(&[(5, Some(1)), (9, Some(3))]), (0, Some(3)));
        assert_eq!(lost(&[(5, None), (9, None)]), (0, Some(3)));
    }

    #[test]
    fn frames_that_are_passed_on_stand_between() {
        assert_eq!(lost(&[(5, Some(1)), (6, None), (8, None), (10, Some(4))]), (2, Some(2)));
        assert_eq!(lost(&[(5, Some(1)), (6, None), (8, None), (10, Some(3))]), (0, Some(2)));
        assert_eq!(told(&[(5, Some(1)), (6, None), (8, None), (10, Some(5))]).jumps, 1);
    }

    #[test]
    fn a_rise_above_the_limit_is_a_jump() {
        let at_limit = told(&[(1, Some(0)), (1 + JUMP, Some(255))]);
        assert_eq!((at_limit.gaps(), at_limit.jumps), (254, 0));
        let above = told(&[(1, Some(0)), (2 + JUMP, Some(0))]);
        assert_eq!((above.gaps(), above.jumps, above.passed_over), (0, 1, 255));
        let widest = told(&[(0, None), (u32::MAX, None)]);
        assert_eq!((widest.passed_over, widest.range), (u64::from(u32::MAX) - 1, Some((0, u32::MAX))));
    }

    #[test]
    fn frames_again_and_late_ones() {
        let again = told(&[(5, Some(1)), (6, Some(2)), (6, Some(2)), (5, Some(1)), (7, Some(3))]);
        assert_eq!((again.at_or_below, again.starts_anew, again.received), (2, 0, 3));
        assert_eq!((again.at_least(), again.at_most()), (0, Some(0)));
        let late = told(&[(5, Some(1)), (8, Some(4)), (7, Some(3))]);
        assert_eq!((late.received, late.gaps(), late.at_least(), late.at_most()), (3, 1, 1, Some(1)));
        let both = told(&[(5, None), (8, None), (6, None), (7, None), (7, None)]);
        assert_eq!((both.received, both.gaps(), both.at_or_below, both.starts_anew), (4, 0, 3, 0));
    }

    #[test]
    fn a_reset_and_an_old_replay() {
        let reset = told(&[(90_000, Some(7)), (90_003, Some(10)), (1, Some(200)), (2, Some(201)), (9, Some(208))]);
        assert_eq!((reset.starts_anew, reset.at_or_below, reset.gaps()), (1, 3, 2));
        assert_eq!((reset.range, reset.at_least(), reset.at_most()), (Some((90_000, 90_003)), 2, None));
        // The device goes on where it was.
        let replay = told(&[(5_000, Some(7)), (11, Some(90)), (5_002, Some(9))]);
        assert_eq!((replay.starts_anew, replay.at_least(), replay.at_most()), (1, 1, Some(1)));
        // It does not: what came in between may have been a reset, also if later frames go on.
        let open = told(&[
            (5_000, Some(7)),
            (11, Some(90)),
            (5_001, Some(99)),
            (5_002, Some(100)),
            (12, Some(91)),
            (5_003, Some(101)),
        ]);
        assert_eq!((open.starts_anew, open.at_most()), (2, None));
        // A counter that falls by little, with a sequence number that does not belong to it.
        assert_eq!(told(&[(20, Some(7)), (21, Some(8)), (19, Some(80))]).starts_anew, 1);
    }

    #[test]
    fn counters_that_refused_frames_claim() {
        let heard = |counter, sequence| Heard { counter, sequence: Some(sequence), period: None };
        let mut counters = Counters::new(heard(5, 1), JUMP);
        // 6 arrived later after all, 300 is too far, and 4 was past.
        [6, 7, 7, 300, 4].into_iter().for_each(|counter| counters.claim(counter));
        counters.note(heard(6, 2));
        counters.note(heard(10, 6));
        let losses = counters.periods()[&None];
        assert_eq!((losses.gaps(), losses.refused, losses.at_least()), (3, 1, 3));
    }
}
