//! The rows of figures by sender and by time, and as JSON.
use super::losses::Losses;
use super::period::{By, Period};
use super::refusals::Refusals;
use super::summary::{refusal_fields, Names};
use super::time::Time;
use super::value::{Fields, Value};
use store_reader::{Eui64, Nwk};

/// Whose figures a row has.
#[derive(Debug, Clone, Copy, PartialEq)]
pub enum Whose {
    Long(Eui64),
    Short,
    /// Frames whose header cannot be read.
    Unread,
    /// Senders beyond the most that have a row.
    Further,
    /// All senders in a period, and in all periods.
    All,
    Total,
}

/// A row: what was counted for a sender, in a period.
#[derive(Debug, PartialEq)]
pub struct Row {
    period: Period,
    pub whose: Whose,
    shorts: Vec<Nwk>,
    /// Accepted frames, clear ones aside.
    pub accepted: u64,
    pub clear: u64,
    pub refused: Refusals,
    pub first: Option<Time>,
    pub last: Option<Time>,
    /// Sequence numbers that were never heard.
    pub sequences: u64,
    /// What counters tell, by key number.
    pub losses: Vec<(u8, Losses)>,
}

/// How a table is laid out: the names of counts, and the time that rows are told by.
#[derive(Debug, Clone, Copy)]
pub struct Layout {
    pub names: Names,
    pub by: Option<By>,
    pub by_sender: bool,
    pub local: bool,
}

impl Row {
    pub fn new(period: Period, whose: Whose) -> Self {
        Self {
            period,
            whose,
            shorts: Vec::new(),
            accepted: 0,
            clear: 0,
            refused: Refusals::default(),
            first: None,
            last: None,
            sequences: 0,
            losses: Vec::new(),
        }
    }

    pub fn has_short(&mut self, short: Nwk) {
        if let Err(at) = self.shorts.binary_search(&short) {
            self.shorts.insert(at, short);
        }
    }

    /// The rows of all senders together, one for each period.
    pub fn by_period(rows: Vec<Row>) -> Vec<Row> {
        let mut all: Vec<Row> = Vec::new();
        for row in rows {
            if all.last().is_none_or(|last| last.period != row.period) {
                all.push(Row::new(row.period, Whose::All));
            }
            if let Some(last) = all.last_mut() {
                last.add(&row);
            }
        }
        all
    }

    pub fn add(&mut self, other: &Row) {
        self.accepted += other.accepted;
        self.clear += other.clear;
        self.refused.add(&other.refused);
        self.first = [self.first, other.first].into_iter().flatten().min();
        self.last = [self.last, other.last].into_iter().flatten().max();
        self.sequences += other.sequences;
        self.losses.extend(&other.losses);
    }

    /// What counters tell under all key numbers together; none where no counter was heard.
    pub fn all_losses(&self) -> Option<Losses> {
        let mut all = Losses::default();
        self.losses.iter().for_each(|(_, losses)| all.add(losses));
        (!self.losses.is_empty()).then_some(all)
    }

    pub fn sender(&self) -> String {
        match self.whose {
            Whose::Long(address) => address.to_string(),
            Whose::Short => String::new(),
            Whose::Unread => "header not read".to_string(),
            Whose::Further => "further senders".to_string(),
            Whose::All | Whose::Total => "all".to_string(),
        }
    }

    pub fn shorts(&self) -> String {
        let shorts: Vec<String> = self.shorts.iter().map(Nwk::to_string).collect();
        shorts.join(" ")
    }

    /// The sequence numbers never heard, where an opened frame tells what to expect.
    pub fn sequences(&self) -> Option<u64> {
        (self.accepted > 0 || self.sequences > 0).then_some(self.sequences)
    }

    pub fn period(&self, layout: Layout) -> Option<String> {
        layout.by.map(|by| match self.whose {
            Whose::Total => "all".to_string(),
            _ => by.show(self.period, layout.local),
        })
    }
}

/// A value, or nothing where there is none.
pub fn shown<T: ToString>(value: Option<T>) -> String {
    value.map_or(String::new(), |value| value.to_string())
}

/// The share that was lost, at least and at most, of what was lost and what was received.
pub fn rates(losses: &Losses) -> (f64, Option<f64>) {
    let rate = |lost: u64| match lost + losses.received {
        0 => 0.0,
        sent => lost as f64 / sent as f64,
    };
    (rate(losses.at_least()), losses.at_most().map(rate))
}

/// A row, the key number where that is told apart, and what the counters tell.
pub type Told<'a> = (&'a Row, Option<u8>, Losses);

impl Row {
    /// The figures of each key number, or of all together where senders are.
    pub fn told(&self, layout: Layout) -> Vec<Told<'_>> {
        match layout.by_sender {
            true => self.losses.iter().map(|(key, losses)| (self, Some(*key), *losses)).collect(),
            false => self.all_losses().map(|losses| (self, None, losses)).into_iter().collect(),
        }
    }
}

impl Row {
    /// The row for `--json`.
    pub fn fields(&self, layout: Layout) -> Fields {
        let names = layout.names;
        let mut fields = Fields::new();
        if let (Some(by), Some(period)) = (layout.by, self.period(layout)) {
            fields.push((by.name(), Value::text(period)));
        }
        if layout.by_sender {
            match self.whose {
                Whose::Long(address) => fields.push(("ieee", Value::text(address))),
                Whose::Further => fields.push(("further_senders", Value::Flag(true))),
                _ => {}
            }
            fields.push(("short", Value::list(&self.shorts, Value::text)));
        }
        fields.push((names.json(), Value::Number(self.accepted)));
        if names.clear {
            fields.push(("clear", Value::Number(self.clear)));
        }
        fields.push(("refused", Value::Number(self.refused.all())));
        let refusals = self.refused.iter().map(|(refusal, n)| Value::Object(refusal_fields(refusal, n, &self.refused)));
        fields.push(("refusals", Value::List(refusals.collect())));
        fields.extend(self.first.map(|time| ("first_time", Value::text(time))));
        fields.extend(self.last.map(|time| ("last_time", Value::text(time))));
        fields.extend(self.sequences().map(|n| ("sequence_numbers_never_heard", Value::Number(n))));
        let told = self.told(layout);
        let counters = told.iter().map(|(_, key, losses)| Value::Object(json_losses(*key, losses)));
        fields.push(("counters", Value::List(counters.collect())));
        vec![(if layout.by_sender { "sender" } else { "period" }, Value::Object(fields))]
    }
}

fn json_losses(key: Option<u8>, losses: &Losses) -> Fields {
    let (low, high) = rates(losses);
    let mut fields = Fields::new();
    fields.extend(key.map(|key| ("key_number", Value::from(key))));
    if let (Some((first, highest)), Some(_)) = (losses.range, key) {
        fields.extend([("first", Value::from(first)), ("highest", Value::from(highest))]);
    }
    let numbers = [
        ("received", losses.received),
        ("gaps", losses.gaps()),
        ("gaps_refused", losses.refused),
        ("jumps", losses.jumps),
        ("passed_over", losses.passed_over),
        ("starts_anew", losses.starts_anew),
        ("not_above", losses.at_or_below),
        ("lost_at_least", losses.at_least()),
    ];
    fields.extend(numbers.map(|(name, n)| (name, Value::Number(n))));
    fields.extend(losses.at_most().map(|n| ("lost_at_most", Value::Number(n))));
    fields.push(("loss_rate_at_least", Value::Rate(low)));
    fields.extend(high.map(|rate| ("loss_rate_at_most", Value::Rate(rate))));
    fields
}
