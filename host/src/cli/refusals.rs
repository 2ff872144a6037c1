//! Refusals by their numbers, and those by a wrong MIC also by their frame check sequence.
use super::mac::Check;
use store_reader::Refusal;

/// How often each number was met, in the order of the numbers.
#[derive(Debug, Default, Clone, PartialEq)]
pub struct Refusals {
    counts: Vec<(Refusal, u64)>,
    pub wrong_mic: WrongMic,
}

/// Frames refused by 19: a wrong frame check sequence says that they were damaged on air, a right one that they were sealed under
/// another key or level, or altered. The rest came without one.
#[derive(Debug, Default, Clone, Copy, PartialEq)]
pub struct WrongMic {
    pub wrong_fcs: u64,
    pub right_fcs: u64,
    pub without_fcs: u64,
}

impl Refusals {
    pub fn note(&mut self, refusal: Refusal, fcs: Check) {
        *self.entry(refusal) += 1;
        if refusal == Refusal::WRONG_MIC {
            self.wrong_mic.note(fcs);
        }
    }

    fn entry(&mut self, refusal: Refusal) -> &mut u64 {
        let at = match self.counts.binary_search_by_key(&refusal, |(refusal, _)| *refusal) {
            Ok(at) => at,
            Err(at) => {
                self.counts.insert(at, (refusal, 0));
                at
            }
        };
        &mut self.counts[at].1
    }

    pub fn add(&mut self, other: &Self) {
        for (refusal, n) in other.iter() {
            *self.entry(refusal) += n;
        }
        self.wrong_mic.wrong_fcs += other.wrong_mic.wrong_fcs;
        self.wrong_mic.right_fcs += other.wrong_mic.right_fcs;
        self.wrong_mic.without_fcs += other.wrong_mic.without_fcs;
    }

    pub fn iter(&self) -> impl Iterator<Item = (Refusal, u64)> + '_ {
        self.counts.iter().copied()
    }

    pub fn of(&self, refusal: Refusal) -> u64 {
        self.iter().find(|(met, _)| *met == refusal).map_or(0, |(_, n)| n)
    }

    pub fn all(&self) -> u64 {
        self.iter().map(|(_, n)| n).sum()
    }
}

impl WrongMic {
    fn note(&mut self, fcs: Check) {
        match fcs {
            Check::Wrong => self.wrong_fcs += 1,
            Check::Right => self.right_fcs += 1,
            Check::Missing => self.without_fcs += 1,
        }
    }

    /// The parts that there are, with how many and what they say; none where no frame has a frame check sequence.
    pub fn parts(self) -> Vec<(&'static str, u64, &'static str)> {
        let parts = [
            ("wrong", self.wrong_fcs, "with a wrong frame check sequence: damaged on air"),
            ("right", self.right_fcs, "with a right frame check sequence: under another key or level, or altered"),
            ("no", self.without_fcs, "without a frame check sequence: either"),
        ];
        let is_checked = self.wrong_fcs + self.right_fcs > 0;
        parts.into_iter().filter(|(_, n, _)| is_checked && *n > 0).collect()
    }
}
