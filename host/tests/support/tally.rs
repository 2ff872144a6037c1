//! What was called, so that a test cannot silently stop testing: calls by operation and refusal, kinds of content, input
//! lengths, rooms. `burst_tally` has what is counted of bursts beside, `clear_tally` what of clear frames, `counter_tally` what of
//! the last counter, `presence_tally` what of presence bits, `level_tally` what of levels.
use super::calls::{Call, Outcome};
use super::operations::{Operation, HEADER_RECORD, MAX_BURST, OPENED_HEADER, OPERATIONS};
use std::collections::BTreeMap;

/// The longest input whose length is counted.
pub const LONGEST: usize = 130;
/// One more than the highest refusal number.
pub const NUMBERS: usize = 30;
/// Rooms are counted from 3 below what is exactly needed to 3 above.
pub const AROUND: isize = 3;
const ROOMS: usize = 2 * AROUND as usize + 1;

#[derive(Clone, Default)]
struct Row {
    /// By refusal number; 0: accepted.
    answers: [usize; NUMBERS],
    /// How often each kind of content was accepted.
    kinds: BTreeMap<usize, usize>,
    /// For each input, how often each length was given.
    lengths: Vec<Vec<usize>>,
    /// For each output, how often each room around the exact one was lent, and how often none. A list's is in records.
    rooms: Vec<[usize; ROOMS]>,
    no_room: Vec<usize>,
}

pub struct Tally {
    rows: Vec<Row>,
}

impl Tally {
    pub fn new() -> Self {
        let row = |operation: Operation| Row {
            lengths: vec![vec![0; LONGEST + 1]; operation.shape().inputs.len()],
            rooms: vec![[0; ROOMS]; operation.shape().outputs.len()],
            no_room: vec![0; operation.shape().outputs.len()],
            ..Row::default()
        };
        Self { rows: OPERATIONS.into_iter().map(row).collect() }
    }

    /// Counts a call; `exact` is what each output needs.
    pub fn count(&mut self, call: &Call, outcome: &Outcome, exact: &[usize]) {
        let row = &mut self.rows[call.operation as usize];
        row.answers[usize::from(outcome.refusal())] += 1;
        if outcome.refusal() == 0 {
            *row.kinds.entry(kind(call, outcome)).or_insert(0) += 1;
        }
        for (lengths, input) in row.lengths.iter_mut().zip(&call.inputs) {
            if let Some(count) = lengths.get_mut(input.len()) {
                *count += 1;
            }
        }
        for (i, (&room, &needed)) in call.rooms.iter().zip(exact).enumerate() {
            let unit = call.operation.shape().outputs[i].unit();
            let place = (room / unit) as isize - (needed / unit) as isize + AROUND;
            if let Some(count) = usize::try_from(place).ok().and_then(|place| row.rooms[i].get_mut(place)) {
                *count += 1;
            }
            row.no_room[i] += usize::from(room == 0);
        }
    }

    pub fn calls(&self, operation: Operation) -> usize {
        self.rows[operation as usize].answers.iter().sum()
    }

    pub fn all_calls(&self) -> usize {
        OPERATIONS.into_iter().map(|operation| self.calls(operation)).sum()
    }

    /// How often an operation answered a refusal number; 0: accepted.
    pub fn answers(&self, operation: Operation, refusal: u8) -> usize {
        self.rows[operation as usize].answers[usize::from(refusal)]
    }

    /// How many kinds of content were accepted, and how often the rarest of them.
    pub fn kinds(&self, operation: Operation) -> (usize, usize) {
        let kinds = &self.rows[operation as usize].kinds;
        (kinds.len(), kinds.values().copied().min().unwrap_or(0))
    }

    /// The least count over the lengths 0 to 130 of an input.
    pub fn rarest_length(&self, operation: Operation, input: usize) -> usize {
        self.rows[operation as usize].lengths[input].iter().copied().min().unwrap_or(0)
    }

    /// The least count over the rooms around the exact one, and over no room, of an output.
    pub fn rarest_room(&self, operation: Operation, output: usize) -> usize {
        let row = &self.rows[operation as usize];
        row.rooms[output].iter().copied().fold(row.no_room[output], usize::min)
    }

    /// One line for each operation: calls, accepted, and each refusal with its count.
    pub fn report(&self) -> String {
        let line = |operation: Operation| {
            let refusals: Vec<String> = (1..NUMBERS as u8)
                .filter(|&number| self.answers(operation, number) > 0)
                .map(|number| format!("{number}: {}", self.answers(operation, number)))
                .collect();
            let (name, calls) = (operation.shape().name, self.calls(operation));
            format!("{name}: {calls} calls, accepted {}, {}", self.answers(operation, 0), refusals.join(", "))
        };
        OPERATIONS.map(line).join("\n")
    }
}

/// Which optional fields a header record has.
fn header_kind(record: &[u8]) -> usize {
    [16, 25, 34, 36].iter().fold(0, |kind, &presence| 2 * kind + usize::from(record[presence]))
}

/// No auxiliary header, one without IEEE, one with it.
fn auxiliary_kind(record: &[u8]) -> usize {
    usize::from(record[0]) + usize::from(record[0] == 1 && record[9] == 1)
}

/// The kind of content of an accepted call: the fields present, the frames' number, the command's identifier, or the code.
fn kind(call: &Call, outcome: &Outcome) -> usize {
    use Operation::*;
    let (inputs, outputs) = (&call.inputs, &outcome.outputs);
    match call.operation {
        ReadHeader => header_kind(&outputs[0]),
        WriteHeader | WriteFrame => header_kind(&inputs[0]),
        ReadAuxiliary => auxiliary_kind(&outputs[0]),
        WriteAuxiliary => auxiliary_kind(&inputs[0]),
        ReadFrame => 3 * header_kind(&outputs[0]) + auxiliary_kind(&outputs[1]),
        Open => {
            let (header, auxiliary) = outputs[0][OPENED_HEADER..].split_at(HEADER_RECORD);
            3 * header_kind(header) + auxiliary_kind(auxiliary)
        }
        OpenBurst => outcome.length(),
        Seal => 3 * header_kind(&inputs[0]) + auxiliary_kind(&inputs[1]),
        ReadCommand => usize::from(outputs[0][0]),
        WriteCommand => usize::from(inputs[0][0]),
        PayloadKind | TimeoutSeconds => usize::from(inputs[0][0]),
        EncryptCcm | DecryptCcm => usize::from(inputs[1].is_empty()) + 2 * usize::from(inputs[2].is_empty()),
        SplitMic => usize::from(outputs[1].iter().all(|&byte| byte == 0)),
        EncryptBlock => 0,
    }
}

/// How many kinds of content an operation can accept. Sealing, and opening a sealed frame, need one of two IEEEs.
pub fn all_kinds(operation: Operation) -> usize {
    use Operation::*;
    match operation {
        ReadHeader | WriteHeader | WriteFrame | ReadCommand | WriteCommand => 16,
        ReadAuxiliary | WriteAuxiliary => 2,
        ReadFrame => 48,
        Seal => 24,
        Open => 24 + 16,
        OpenBurst => MAX_BURST + 1,
        PayloadKind => 3,
        TimeoutSeconds => 15,
        EncryptCcm | DecryptCcm => 4,
        SplitMic => 2,
        EncryptBlock => 1,
    }
}
