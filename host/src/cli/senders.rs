//! Counts by sender and by time, with what counters and sequence numbers tell of frames that were lost.
//!
//! A frame is counted for its source, the device that made it. On each hop it is sealed anew, by the device that sends, under
//! that device's counter; so counters are kept for the device whose long address the auxiliary header has.
use super::answer::{Answer, Mark};
use super::losses::{Counters, Heard};
use super::mac::{MacAddress, MacHeader};
use super::period::{By, Period};
use super::refusals::Refusals;
use super::rows::{Row, Whose};
use super::sequences::Sequences;
use super::source::Entry;
use super::time::Time;
use std::collections::BTreeMap;
use store_reader::{Eui64, Nwk, NwkAuxHeader, NwkHeader, PanId};

/// The most rows that are kept, and the most devices whose counters and sequence numbers are followed. What comes beyond is counted
/// in one row.
pub const MOST_ROWS: usize = 100_000;
pub const MOST_DEVICES: usize = 10_000;

/// The most short addresses that are kept of a sender.
const MOST_SHORTS: usize = 16;

/// A short address, which is one network's.
type Short = (Option<PanId>, Nwk);

/// A sender: by its long address where that is known, else by its short one. The header of some frames cannot be read, and some
/// senders have no row any more.
#[derive(Debug, Clone, Copy, PartialEq, Eq, PartialOrd, Ord)]
enum Sender {
    Long(Eui64),
    Short(Short),
    Unread,
    Further,
}

/// What was counted for a sender, in a period.
#[derive(Default)]
struct Counts {
    /// Accepted frames, clear ones aside.
    accepted: u64,
    clear: u64,
    refused: Refusals,
    first: Option<Time>,
    last: Option<Time>,
    shorts: Vec<Short>,
}

/// The counters of a device under a key number, and the source of its frames where no MAC header tells who made them.
struct Device {
    counters: Counters,
    source: Nwk,
    /// Frames of several sources came, so it is not known which of them the device made.
    mixed: bool,
}

/// How figures are told: by time if asked for, by sender if asked for, and from which rise of a counter on there is a jump.
#[derive(Debug, Clone, Copy, PartialEq)]
pub struct Telling {
    pub by: Option<By>,
    pub by_sender: bool,
    pub jump: u32,
}

pub struct Senders {
    telling: Telling,
    counts: BTreeMap<(Period, Sender), Counts>,
    devices: BTreeMap<(Eui64, u8), Device>,
    sequences: BTreeMap<Short, Sequences>,
    /// The long address of a short one; none where two claim it.
    long: BTreeMap<Short, Option<Eui64>>,
    /// A device came for whose counters there was no place.
    not_followed: bool,
}

impl Counts {
    fn note(&mut self, answer: &Answer, entry: &Entry) {
        match (answer.refusal, answer.mark) {
            (Some(refusal), _) => self.refused.note(refusal, entry.fcs),
            (None, Some(Mark::Clear)) => self.clear += 1,
            (None, _) => self.accepted += 1,
        }
        self.span(entry.time, entry.time);
    }

    fn span(&mut self, first: Option<Time>, last: Option<Time>) {
        self.first = match (self.first, first) {
            (Some(known), Some(first)) => Some(known.min(first)),
            (known, first) => known.or(first),
        };
        self.last = self.last.max(last);
    }

    fn has_short(&mut self, short: Short) {
        if !self.shorts.contains(&short) && self.shorts.len() < MOST_SHORTS {
            self.shorts.push(short);
        }
    }

    fn add(&mut self, other: Counts) {
        self.accepted += other.accepted;
        self.clear += other.clear;
        self.refused.add(&other.refused);
        self.span(other.first, other.last);
        other.shorts.into_iter().for_each(|short| self.has_short(short));
    }
}

impl Senders {
    pub fn new(telling: Telling) -> Self {
        Self {
            telling,
            counts: BTreeMap::new(),
            devices: BTreeMap::new(),
            sequences: BTreeMap::new(),
            long: BTreeMap::new(),
            not_followed: false,
        }
    }

    /// Counts a frame for its source, its sequence number too, and its counter for the device that sealed it.
    pub fn note(&mut self, answer: &Answer, entry: &Entry) {
        let period = self.telling.by.and_then(|by| by.period(entry.time));
        let Some(header) = &answer.header else {
            return self.counts_of(period, Sender::Unread).1.note(answer, entry);
        };
        let mac = entry.mac.as_ref();
        let short = (mac.and_then(|mac| mac.pan), header.source);
        let sender = header.source_ieee.map_or(Sender::Short(short), Sender::Long);
        let (period, counts) = self.counts_of(period, sender);
        counts.note(answer, entry);
        counts.has_short(short);
        let is_shown = answer.shows_addresses();
        self.note_sequence(short, header.sequence_number, period, is_shown);
        if let Some(auxiliary) = &answer.auxiliary {
            self.note_counter(header, auxiliary, mac, period, is_shown);
        }
        if is_shown {
            self.learn(header, answer.auxiliary.as_ref(), mac, short);
        }
    }

    /// The counts of a sender in a period; those of further senders, and no period, where no row is free.
    fn counts_of(&mut self, period: Period, sender: Sender) -> (Period, &mut Counts) {
        let key = match self.counts.len() < MOST_ROWS || self.counts.contains_key(&(period, sender)) {
            true => (period, sender),
            false => (None, Sender::Further),
        };
        (key.0, self.counts.entry(key).or_default())
    }

    fn note_sequence(&mut self, short: Short, sequence: u8, period: Period, is_shown: bool) {
        if let Some(known) = self.sequences.get_mut(&short) {
            return match is_shown {
                true => known.note(sequence, period),
                false => known.claim(sequence),
            };
        }
        if is_shown && self.sequences.len() < MOST_DEVICES {
            self.sequences.entry(short).or_default().note(sequence, period);
        }
    }

    /// Notes the counter of an opened frame, or the claim of one that no key opened.
    fn note_counter(
        &mut self,
        header: &NwkHeader,
        auxiliary: &NwkAuxHeader,
        mac: Option<&MacHeader>,
        period: Period,
        is_shown: bool,
    ) {
        let Some(long) = auxiliary.extended_source.or(header.source_ieee) else {
            return;
        };
        let counter = auxiliary.frame_counter;
        let key = (long, auxiliary.key_sequence_number);
        let is_place = self.devices.len() < MOST_DEVICES;
        let known = self.devices.get_mut(&key);
        if !is_shown {
            return known.map_or((), |device| device.counters.claim(counter));
        }
        let made = made_by(header, long, mac);
        let sequence = Some(header.sequence_number);
        match known {
            Some(device) => {
                device.mixed |= made.is_none() && device.source != header.source;
                let sequence = sequence.filter(|_| made.unwrap_or(!device.mixed));
                device.counters.note(Heard { counter, sequence, period });
            }
            None if is_place => {
                let heard = Heard { counter, sequence: sequence.filter(|_| made.unwrap_or(true)), period };
                let counters = Counters::new(heard, self.telling.jump);
                self.devices.insert(key, Device { counters, source: header.source, mixed: false });
            }
            None => self.not_followed = true,
        }
    }

    /// Learns long addresses from a frame that shows them: the source's from the header, and from the auxiliary header that of the
    /// device that sent it. Without a MAC header that is taken to be the source.
    fn learn(&mut self, header: &NwkHeader, auxiliary: Option<&NwkAuxHeader>, mac: Option<&MacHeader>, source: Short) {
        if let Some(long) = header.source_ieee {
            self.is_of(source, long);
        }
        let sent_by = match mac.map(|mac| mac.source) {
            None => Some(source),
            Some(Some(MacAddress::Short(address))) => Some((source.0, address)),
            Some(_) => None,
        };
        if let (Some(short), Some(long)) = (sent_by, auxiliary.and_then(|auxiliary| auxiliary.extended_source)) {
            self.is_of(short, long);
        }
    }

    fn is_of(&mut self, short: Short, long: Eui64) {
        if self.long.len() < MOST_DEVICES || self.long.contains_key(&short) {
            let known = self.long.entry(short).or_insert(Some(long));
            *known = known.filter(|known| *known == long);
        }
    }

    /// The sender of a short address: by its long one where that is known.
    fn sender_of(&self, short: Short) -> Sender {
        self.long.get(&short).copied().flatten().map_or(Sender::Short(short), Sender::Long)
    }

    /// Whether there were more senders than have a place.
    pub fn is_full(&self) -> bool {
        self.not_followed || self.counts.contains_key(&(None, Sender::Further))
    }

    /// The rows of the tables. A device that only passes frames on has counters and no frames of its own.
    pub fn rows(mut self) -> Vec<Row> {
        let mut counts: BTreeMap<(Period, Sender), Counts> = BTreeMap::new();
        for ((period, sender), of_sender) in std::mem::take(&mut self.counts) {
            let joined = match sender {
                Sender::Short(short) => self.sender_of(short),
                other => other,
            };
            counts.entry((period, joined)).or_default().add(of_sender);
        }
        let mut rows: BTreeMap<(Period, Sender), Row> = BTreeMap::new();
        for ((period, sender), of_sender) in counts {
            rows.insert((period, sender), row(period, sender, of_sender));
        }
        self.add_losses(&mut rows);
        self.add_sequences(&mut rows);
        let mut shorts: BTreeMap<Eui64, Vec<Nwk>> = BTreeMap::new();
        for (short, long) in self.long.iter().filter_map(|(short, long)| Some((short.1, (*long)?))) {
            shorts.entry(long).or_default().push(short);
        }
        for ((_, sender), row) in &mut rows {
            if let Sender::Long(long) = sender {
                shorts.get(long).into_iter().flatten().for_each(|short| row.has_short(*short));
            }
        }
        let rows = rows.into_values().collect();
        match self.telling.by_sender {
            true => rows,
            false => Row::by_period(rows),
        }
    }

    fn add_losses(&self, rows: &mut BTreeMap<(Period, Sender), Row>) {
        for ((long, key), device) in &self.devices {
            for (period, losses) in device.counters.periods() {
                let sender = Sender::Long(*long);
                let row = rows.entry((*period, sender)).or_insert_with(|| row(*period, sender, Counts::default()));
                row.losses.push((*key, *losses));
            }
        }
    }

    fn add_sequences(&self, rows: &mut BTreeMap<(Period, Sender), Row>) {
        for (short, sequences) in &self.sequences {
            for (period, never_heard) in sequences.never_heard() {
                let sender = self.sender_of(*short);
                let row = rows.entry((*period, sender)).or_insert_with(|| row(*period, sender, Counts::default()));
                row.has_short(short.1);
                row.sequences += never_heard;
            }
        }
    }
}

/// Whether the device that sealed a frame also made it; none where nothing tells.
fn made_by(header: &NwkHeader, device: Eui64, mac: Option<&MacHeader>) -> Option<bool> {
    match (header.source_ieee, mac.map(|mac| mac.source)) {
        (Some(long), _) => Some(long == device),
        (None, Some(Some(MacAddress::Short(address)))) => Some(address == header.source),
        (None, Some(_)) => Some(false),
        (None, None) => None,
    }
}

fn row(period: Period, sender: Sender, counts: Counts) -> Row {
    let whose = match sender {
        Sender::Long(long) => Whose::Long(long),
        Sender::Short(_) => Whose::Short,
        Sender::Unread => Whose::Unread,
        Sender::Further => Whose::Further,
    };
    let mut row = Row::new(period, whose);
    counts.shorts.iter().for_each(|(_, short)| row.has_short(*short));
    (row.accepted, row.clear, row.refused) = (counts.accepted, counts.clear, counts.refused);
    (row.first, row.last) = (counts.first, counts.last);
    row
}

#[cfg(test)]
mod tests {
    use super::*;

    #[test]
    fn a_short_address_with_two_long_ones_has_none() {
        let mut senders = Senders::new(Telling { by: None, by_sender: true, jump: 255 });
        let short = (None, Nwk(1));
        senders.is_of(short, Eui64::from(1));
        senders.is_of(short, Eui64::from(1));
        assert_eq!(senders.sender_of(short), Sender::Long(Eui64::from(1)));
        senders.is_of(short, Eui64::from(2));
        senders.is_of(short, Eui64::from(1));
        assert_eq!(senders.sender_of(short), Sender::Short(short));
    }

    /// Only a MAC header, or the long address in the frame's own header, tells who made a frame.
    #[test]
    fn who_made_a_frame() {
        let device = Eui64::from(7);
        let mut header = NwkHeader::new(store_reader::NwkFrameType::Data, Nwk(0x7A10), Nwk(0));
        let from = |address| MacHeader { source: Some(MacAddress::Short(Nwk(address))), ..MacHeader::default() };
        assert_eq!(made_by(&header, device, Some(&from(0x7A10))), Some(true));
        assert_eq!(made_by(&header, device, Some(&from(0x3F21))), Some(false));
        assert_eq!(made_by(&header, device, Some(&MacHeader::default())), Some(false));
        assert_eq!(made_by(&header, device, None), None);
        header.source_ieee = Some(device);
        assert_eq!(made_by(&header, device, Some(&from(0x3F21))), Some(true));
        assert_eq!(made_by(&header, Eui64::from(8), None), Some(false));
    }
}
