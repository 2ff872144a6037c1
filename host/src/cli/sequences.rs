//! The sequence numbers of one source, whether its frames were heard from itself or through routers.
use super::period::Period;
use std::collections::BTreeMap;

/// Half of the 256 sequence numbers: what rose by less lies ahead, anything else behind.
const HALF: u8 = 128;

/// The sequence numbers of a source: the last of an opened frame, and what was passed over since.
#[derive(Debug, Default)]
pub struct Sequences {
    last: Option<u8>,
    /// Which numbers other frames have claimed since the last one.
    claimed: [u64; 4],
    /// The last number that lay behind: a second one ahead of it is a restart.
    behind: Option<u8>,
    never_heard: BTreeMap<Period, u64>,
}

impl Sequences {
    /// How many sequence numbers were never heard, by the period of the frame behind them.
    pub fn never_heard(&self) -> &BTreeMap<Period, u64> {
        &self.never_heard
    }

    /// Notes the number of an opened frame.
    pub fn note(&mut self, sequence: u8, period: Period) {
        let passed_over = match (self.last, self.behind) {
            (None, _) => 0,
            (Some(last), _) if sequence == last => return,
            (Some(last), _) if ahead(last, sequence) => self.unclaimed(last, sequence),
            (_, Some(behind)) if ahead(behind, sequence) => self.unclaimed(behind, sequence),
            _ => {
                self.behind = Some(sequence);
                return;
            }
        };
        if passed_over > 0 {
            *self.never_heard.entry(period).or_default() += passed_over;
        }
        *self = Self { last: Some(sequence), never_heard: std::mem::take(&mut self.never_heard), ..Self::default() };
    }

    /// Notes the number that a clear or refused frame claims: one that was heard.
    pub fn claim(&mut self, sequence: u8) {
        self.claimed[usize::from(sequence / 64)] |= 1 << (sequence % 64);
    }

    /// The numbers between two that no frame claims.
    fn unclaimed(&self, last: u8, next: u8) -> u64 {
        let between = (1..next.wrapping_sub(last)).map(|step| last.wrapping_add(step));
        between.filter(|n| self.claimed[usize::from(n / 64)] >> (n % 64) & 1 == 0).count() as u64
    }
}

/// Whether a number lies ahead of another: it rose by fewer than half of all.
fn ahead(last: u8, next: u8) -> bool {
    (1..HALF).contains(&next.wrapping_sub(last))
}

#[cfg(test)]
mod tests {
    use super::*;

    fn never_heard(numbers: &[u8], claimed: &[u8]) -> u64 {
        let mut sequences = Sequences::default();
        sequences.note(numbers[0], None);
        claimed.iter().for_each(|number| sequences.claim(*number));
        numbers[1..].iter().for_each(|number| sequences.note(*number, None));
        sequences.never_heard().values().sum()
    }

    #[test]
    fn numbers_passed_over() {
        assert_eq!(never_heard(&[254, 255, 0, 1], &[]), 0);
        assert_eq!(never_heard(&[254, 3], &[0, 3, 9]), 3);
        // The same frame on its next hop, and an earlier one.
        assert_eq!(never_heard(&[7, 7, 9, 9, 8, 10], &[]), 1);
        assert_eq!(never_heard(&[0, 127], &[]), 126);
    }

    /// A number that lies behind is an old frame; a second one ahead of it is a restart.
    #[test]
    fn a_restart() {
        assert_eq!(never_heard(&[10, 200, 202, 203], &[]), 1);
        assert_eq!(never_heard(&[10, 200, 11], &[]), 0);
    }
}
