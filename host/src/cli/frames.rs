//! One row a frame, as comma-separated values.
use super::answer::{condition, Answer, Mark};
use super::csv;
use super::mac::Check;
use super::source::Entry;
use store_reader::Refusal;

/// The columns.
const HEADS: [&str; 21] = [
    "file",
    "record",
    "time",
    "pan",
    "mac_source",
    "mac_destination",
    "fcs",
    "result",
    "refusal",
    "condition",
    "type",
    "source",
    "destination",
    "sequence",
    "source_ieee",
    "sealed_by",
    "key_number",
    "counter",
    "opened_with_key",
    "command",
    "payload",
];

pub fn heads() -> String {
    csv::row(HEADS)
}

fn shown<T: ToString>(value: Option<T>) -> String {
    value.map_or(String::new(), |value| value.to_string())
}

/// The cells of what a capture says beside a frame.
fn front(file: &str, entry: &Entry) -> Vec<String> {
    let mac = entry.mac.unwrap_or_default();
    let fcs = match entry.fcs {
        Check::Missing => "",
        Check::Right => "right",
        Check::Wrong => "wrong",
    };
    vec![
        file.to_string(),
        entry.place.parts().1.to_string(),
        shown(entry.time),
        shown(mac.pan),
        shown(mac.source),
        shown(mac.destination),
        fcs.to_string(),
    ]
}

/// The row of a frame. What is done with frames is the result of one that was accepted and is not clear.
pub fn of_answer(file: &str, entry: &Entry, answer: &Answer, done: &str) -> String {
    let mut cells = front(file, entry);
    let result = match (answer.refusal, answer.mark) {
        (Some(_), _) => "refused",
        (None, Some(Mark::Clear)) => "clear",
        (None, _) => done,
    };
    let number = answer.refusal.map(Refusal::number);
    cells.extend([result.to_string(), shown(number), shown(answer.refusal.map(condition))]);
    let (header, auxiliary) = (answer.header.as_ref(), answer.auxiliary.as_ref());
    cells.extend([
        shown(answer.kind()),
        shown(header.map(|header| header.source)),
        shown(header.map(|header| header.destination)),
        shown(header.map(|header| header.sequence_number)),
        shown(header.and_then(|header| header.source_ieee)),
        shown(auxiliary.and_then(|auxiliary| auxiliary.extended_source)),
        shown(auxiliary.map(|auxiliary| auxiliary.key_sequence_number)),
        shown(auxiliary.map(|auxiliary| auxiliary.frame_counter)),
        shown(answer.key),
        answer.command_name(),
        answer.payload_digits(),
    ]);
    csv::row(cells.iter().map(String::as_str))
}

/// The row of what is no NWK frame, or could not be read.
pub fn of_other(file: &str, entry: &Entry, result: &str, words: &str) -> String {
    let mut cells = front(file, entry);
    cells.extend([result.to_string(), String::new(), words.to_string()]);
    cells.resize(HEADS.len(), String::new());
    csv::row(cells.iter().map(String::as_str))
}
