//! What a run met, counted: frames by refusal number, and what was no frame.
use super::answer::{condition, Answer, Mark};
use super::csv;
use super::mac::Check;
use super::refusals::Refusals;
use super::replay::was_opened;
use super::source::Kind;
use super::value::{Fields, Value};
use std::collections::BTreeMap;
use std::fmt;
use store_reader::{Level, Refusal};

/// The version of what `--json` prints: it rises where a field goes or changes its meaning, and stays where one is added.
const JSON_VERSION: u8 = 1;

/// The refusals of a frame that another level may open.
pub const UNOPENED: [Refusal; 2] = [Refusal::NO_MIC, Refusal::WRONG_MIC];

/// By what names accepted inputs are counted.
#[derive(Debug, Clone, Copy)]
pub struct Names {
    /// What was done with them.
    pub done: &'static str,
    /// Whether clear frames are counted apart.
    pub clear: bool,
    /// Whether replays are refused.
    pub replay: bool,
}

impl Names {
    /// The name for `--json`. `open` accepts clear frames too, which this count leaves out, so there it is not called accepted.
    pub fn json(self) -> &'static str {
        match self.clear {
            true => self.done,
            false => "accepted",
        }
    }
}

#[derive(Default)]
pub struct Summary {
    /// Accepted inputs, clear frames aside.
    accepted: u64,
    /// Clear frames; none where inputs are not opened, so that nothing is marked.
    clear: Option<u64>,
    refused: Refusals,
    /// Accepted inputs by the key that opened them, where there are several.
    keys: BTreeMap<usize, u64>,
    others: BTreeMap<Kind, u64>,
    wrong_fcs: u64,
    /// Of accepted inputs, those with a wrong frame check sequence.
    accepted_wrong_fcs: u64,
    pub broken: u64,
    /// The bytes of damaged captures that were not read.
    pub unread: u64,
    /// The other level that opens the first sealed frame, where none was opened.
    pub opens_at: Option<Level>,
    /// Replays are refused.
    replay: bool,
    /// What the inputs are called, what is done with them, and the same of those to come.
    noun: &'static str,
    done: &'static str,
    to_do: &'static str,
}

impl Summary {
    pub fn new(noun: &'static str, done: &'static str, to_do: &'static str) -> Self {
        Self { noun, done, to_do, ..Self::default() }
    }

    /// The summary of `open`, which counts clear frames apart from those that a key opened.
    pub fn of_opening(replay: bool) -> Self {
        Self { clear: Some(0), replay, ..Self::new("frame", "opened", "open") }
    }

    pub fn names(&self) -> Names {
        Names { done: self.done, clear: self.clear.is_some(), replay: self.replay }
    }

    /// Counts a frame or command, and what the frame check sequence around it says.
    pub fn count(&mut self, answer: &Answer, fcs: Check) {
        self.wrong_fcs += u64::from(fcs == Check::Wrong);
        match (answer.refusal, answer.mark) {
            (Some(refusal), _) => self.refused.note(refusal, fcs),
            (None, Some(Mark::Clear)) => *self.clear.get_or_insert(0) += 1,
            (None, _) => {
                self.accepted += 1;
                self.accepted_wrong_fcs += u64::from(fcs == Check::Wrong);
            }
        }
        if let Some(key) = answer.key {
            *self.keys.entry(key).or_default() += 1;
        }
    }

    pub fn other(&mut self, kind: Kind) {
        *self.others.entry(kind).or_default() += 1;
    }

    /// All inputs so far.
    pub fn inputs(&self) -> u64 {
        self.all() + self.others.values().sum::<u64>() + self.broken
    }

    /// Everything that was accepted or refused.
    fn all(&self) -> u64 {
        self.accepted + self.clear.unwrap_or(0) + self.refusals()
    }

    fn refusals(&self) -> u64 {
        self.refused.all()
    }

    /// Whether a frame was opened, also one that is then refused as a replay.
    pub fn any_opened(&self) -> bool {
        self.accepted > 0 || self.refused.iter().any(|(refusal, _)| was_opened(refusal))
    }

    /// How many frames were sealed and not opened, where none was. Clear frames say nothing of the keys, and at another level they
    /// are right.
    fn keys_look_wrong(&self) -> Option<u64> {
        let says = !self.any_opened() && self.opens_at.is_none();
        Some(self.refused.of(Refusal::WRONG_MIC)).filter(|frames| *frames > 0 && says)
    }

    /// Whether most frames that a key opened have a wrong frame check sequence: then the sniffer has put something else there.
    fn fcs_looks_replaced(&self) -> bool {
        self.clear.is_some() && 2 * self.accepted_wrong_fcs > self.accepted
    }

    /// What is said where the keys look wrong.
    pub fn wrong_keys(&self) -> Option<String> {
        let frames = counted(self.keys_look_wrong()?, "sealed frame");
        Some(format!("no key opened any of {frames}: the keys look wrong"))
    }

    /// What is said where the level looks wrong.
    pub fn wrong_level(&self) -> Option<String> {
        let level = self.opens_at?;
        let frames = counted(UNOPENED.map(|refusal| self.refused.of(refusal)).iter().sum(), "sealed frame");
        Some(format!("no key opened any of {frames}, and the first of them opens at level {level}: look at --level"))
    }

    /// Of frames refused by 19, how many had which frame check sequence, where there are any.
    fn parts(&self, refusal: Refusal) -> impl Iterator<Item = (&'static str, u64, &'static str)> {
        self.refused.wrong_mic.parts().into_iter().filter(move |_| refusal == Refusal::WRONG_MIC)
    }

    /// The same counts for `--json`.
    pub fn fields(&self) -> Fields {
        let refused = self.refused.iter().map(|(refusal, n)| {
            let mut fields = refusal_fields(refusal, n, &self.refused);
            fields.push(("condition", Value::text(condition(refusal))));
            Value::Object(fields)
        });
        let others = self
            .others
            .iter()
            .map(|(kind, n)| Value::Object(vec![("kind", Value::text(kind)), ("count", Value::Number(*n))]));
        let keys = self
            .keys
            .iter()
            .map(|(key, n)| Value::Object(vec![("key", Value::Number(*key as u64)), ("count", Value::Number(*n))]));
        let mut counts: Fields = vec![
            ("json_version", JSON_VERSION.into()),
            ("frames", Value::Number(self.all())),
            (self.names().json(), Value::Number(self.accepted)),
        ];
        counts.extend(self.clear.map(|clear| ("clear", Value::Number(clear))));
        counts.extend([
            ("refused", Value::Number(self.refusals())),
            ("refusals", Value::List(refused.collect())),
            ("skipped", Value::List(others.collect())),
            ("wrong_fcs", Value::Number(self.wrong_fcs)),
            ("broken", Value::Number(self.broken)),
            ("bytes_not_read", Value::Number(self.unread)),
        ]);
        if !self.keys.is_empty() {
            counts.push(("opened_with", Value::List(keys.collect())));
        }
        if self.fcs_looks_replaced() {
            counts.push(("fcs_looks_replaced", Value::Flag(true)));
        }
        if self.keys_look_wrong().is_some() {
            counts.push(("keys_look_wrong", Value::Flag(true)));
        }
        counts.extend(self.opens_at.map(|level| ("opens_at_level", level.number().into())));
        vec![("summary", Value::Object(counts))]
    }

    /// The same counts for `--csv`: what is counted, a refusal's number, how many, and in words.
    pub fn csv(&self) -> String {
        let mut table = csv::row(["counted", "refusal", "count", "condition"]);
        table += &csv::row([self.done, "", &self.accepted.to_string(), ""]);
        if let Some(clear) = self.clear {
            table += &csv::row(["clear", "", &clear.to_string(), ""]);
        }
        for (refusal, n) in self.refused.iter() {
            table += &csv::row(["refused", &refusal.number().to_string(), &n.to_string(), condition(refusal)]);
            for (_, n, words) in self.parts(refusal) {
                table += &csv::row(["of these", &refusal.number().to_string(), &n.to_string(), words]);
            }
        }
        for (kind, n) in &self.others {
            table += &csv::row(["not a NWK frame", "", &n.to_string(), kind]);
        }
        table += &csv::row(["wrong frame check sequence", "", &self.wrong_fcs.to_string(), ""]);
        table += &csv::row(["not read", "", &self.broken.to_string(), ""]);
        table + &csv::row(["bytes not read", "", &self.unread.to_string(), ""])
    }
}

impl fmt::Display for Summary {
    fn fmt(&self, f: &mut fmt::Formatter<'_>) -> fmt::Result {
        write!(f, "{}: {} {}, ", counted(self.all(), self.noun), self.accepted, self.done)?;
        if let Some(clear) = self.clear.filter(|clear| *clear > 0) {
            write!(f, "{clear} clear, ")?;
        }
        writeln!(f, "{} refused", self.refusals())?;
        for (key, n) in &self.keys {
            writeln!(f, "{n:>6} {} with key {key}", self.done)?;
        }
        for (refusal, n) in self.refused.iter() {
            writeln!(f, "{n:>6} refused by {}: {}", refusal.number(), condition(refusal))?;
            for (_, n, words) in self.parts(refusal) {
                writeln!(f, "{n:>10} {words}")?;
            }
        }
        if self.wrong_fcs > 0 {
            writeln!(f, "{:>6} with a wrong frame check sequence", self.wrong_fcs)?;
        }
        if self.fcs_looks_replaced() {
            writeln!(f, "       most opened frames too: the sniffer seems to put something else there, so it says nothing of noise")?;
        }
        if !self.others.is_empty() {
            writeln!(f, "{} without a NWK frame to {}", counted(self.others.values().sum(), "record"), self.to_do)?;
            for (kind, n) in &self.others {
                writeln!(f, "{n:>6} {kind}")?;
            }
        }
        if self.broken > 0 {
            writeln!(f, "{} could not be read", counted(self.broken, "input"))?;
        }
        if self.unread > 0 {
            writeln!(f, "{} at the end of a capture not read", counted(self.unread, "byte"))?;
        }
        self.wrong_keys().map_or(Ok(()), |why| writeln!(f, "{why}"))
    }
}

/// A refusal with its count; one by 19 with what the frame check sequences say.
pub fn refusal_fields(refusal: Refusal, n: u64, refused: &Refusals) -> Fields {
    let mut fields: Fields = vec![("refusal", refusal.number().into()), ("count", Value::Number(n))];
    if refusal == Refusal::WRONG_MIC {
        fields.push(("wrong_fcs", Value::Number(refused.wrong_mic.wrong_fcs)));
        fields.push(("right_fcs", Value::Number(refused.wrong_mic.right_fcs)));
    }
    fields
}

pub fn counted(n: u64, noun: &str) -> String {
    let plural = if n == 1 { "" } else { "s" };
    format!("{n} {noun}{plural}")
}
