//! Calls over a journal through the C boundary: journal, list, complete length and output stand between guard bytes.
use super::guarded::Guarded;
use super::hex::hex;
use super::model::journal::MOST;
use super::senders::{Record, FIELDS, KNOWN_BIT, SIZE};
use store_reader::sys;

/// Where recovery's answer has the key number.
pub const KEY_NUMBER_SHIFT: u32 = 48;

/// What is asked of a journal.
#[derive(Clone, Copy, PartialEq, Eq, Debug)]
pub enum Request {
    Recover,
    Write { kind: u8, sender: u64, counter: u32, number: u8, room: usize },
    Next { last: u32 },
    Shrink { room: usize },
}

impl Request {
    /// The C function.
    pub fn name(&self) -> &'static str {
        match self {
            Self::Recover => "nwk_recover_journal",
            Self::Write { .. } => "nwk_write_journal_record",
            Self::Next { .. } => "nwk_next_counter",
            Self::Shrink { .. } => "nwk_shrink_journal",
        }
    }

    /// The numbers that it can answer, in their order, which `journal.rs` compares with the comments of `include/nwk.h`.
    pub fn refusals(&self) -> &'static [u8] {
        match self {
            Self::Recover => &[25, 24],
            Self::Write { .. } | Self::Shrink { .. } => &[25, 24, 18],
            Self::Next { .. } => &[25, 26, 27],
        }
    }

    fn room(&self) -> usize {
        match *self {
            Self::Write { room, .. } | Self::Shrink { room } => room,
            Self::Recover | Self::Next { .. } => 0,
        }
    }
}

/// What a call leaves in the buffers lent: the list, the complete length if it was given, and the bytes written.
#[derive(Clone, PartialEq, Eq, Debug)]
pub struct Left {
    pub list: Vec<Record>,
    pub complete: Option<u64>,
    pub written: Vec<u8>,
}

impl Left {
    /// Everything is as it was.
    pub fn nothing(list: &[Record]) -> Self {
        Self { list: list.to_vec(), complete: None, written: Vec::new() }
    }
}

/// What a call answered.
#[derive(Clone, PartialEq, Eq, Debug)]
pub struct Done {
    pub answer: u64,
    pub left: Left,
}

impl Done {
    pub fn refusal(&self) -> u8 {
        (self.answer >> 32) as u8
    }

    /// The length, the ceiling, or the counter.
    pub fn low(&self) -> u32 {
        self.answer as u32
    }

    /// The key number that recovery gave.
    pub fn key_number(&self) -> Option<u8> {
        (self.answer >> KNOWN_BIT & 1 == 1).then_some((self.answer >> KEY_NUMBER_SHIFT) as u8)
    }
}

/// Makes a call with buffers between guards of the value `guard`. Afterwards the guards, the journal and the places past the 64th are
/// unchanged, and beside a refusal every byte lent is.
pub fn perform(request: &Request, journal: &[u8], list: &[Record], guard: u8) -> Done {
    let fill = !guard;
    let bytes: Vec<u8> = list.iter().flat_map(|record| record.bytes(fill)).collect();
    let given = Guarded::new(journal, guard);
    let mut lent = Guarded::aligned(&bytes, 8, guard);
    // No length has the highest bit.
    let mut complete = Guarded::aligned(&[fill | 0x80; 8], 8, guard);
    let mut out = Guarded::new(&vec![fill; request.room()], guard);
    let answer = through_c(request, &given, &mut lent, list.len(), &mut complete, &mut out);
    let said = || line(request, journal, list);
    assert!(given.unchanged(), "the journal changed: {}", said());
    let guards = [&lent, &complete, &out].iter().all(|buffer| buffer.guards_unchanged());
    assert!(guards, "guards changed: {}", said());
    let past = (SIZE * MOST).min(bytes.len());
    assert_eq!(lent.content()[past..], bytes[past..], "places past the 64th: {}", said());
    let stayed = |buffer: &Guarded| buffer.unchanged();
    let done = Done {
        answer,
        left: Left {
            list: lent.content().chunks(SIZE).map(|record| Record::of_bytes(&record[..FIELDS])).collect(),
            complete: (!stayed(&complete)).then(|| u64::from_le_bytes(std::array::from_fn(|i| complete.content()[i]))),
            written: written(request, answer, &out, fill).unwrap_or_else(|| panic!("the output's rest: {}", said())),
        },
    };
    if done.refusal() != 0 {
        let all = [&lent, &complete, &out].iter().all(|buffer| stayed(buffer));
        assert!(all, "beside refusal {}: {}", done.refusal(), said());
    }
    done
}

/// The bytes that a record or a shrunk journal was written to; none if a byte behind them is not as it was.
fn written(request: &Request, answer: u64, out: &Guarded, fill: u8) -> Option<Vec<u8>> {
    let writes = matches!(request, Request::Write { .. } | Request::Shrink { .. });
    let length = if writes && answer >> 32 == 0 { answer as u32 as usize } else { 0 };
    let (front, rest) = out.content().split_at_checked(length)?;
    rest.iter().all(|byte| *byte == fill).then(|| front.to_vec())
}

fn through_c(
    request: &Request,
    journal: &Guarded,
    list: &mut Guarded,
    count: usize,
    complete: &mut Guarded,
    out: &mut Guarded,
) -> u64 {
    let (bytes, length) = (journal.pointer(), journal.len());
    // SAFETY: each pointer is that of a live buffer of its length, the list's and the number's aligned to 8, and no two overlap.
    unsafe {
        match *request {
            Request::Recover => {
                let (senders, complete) = (list.pointer_mut().cast(), complete.pointer_mut().cast());
                sys::nwk_recover_journal(bytes, length, senders, count, complete)
            }
            Request::Write { kind, sender, counter, number, room } => {
                sys::nwk_write_journal_record(bytes, length, kind, sender, counter, number, out.pointer_mut(), room)
            }
            Request::Next { last } => sys::nwk_next_counter(bytes, length, last),
            Request::Shrink { room } => sys::nwk_shrink_journal(bytes, length, out.pointer_mut(), room),
        }
    }
}

/// The call as one line, for a report. Of a long journal the first and last bytes.
pub fn line(request: &Request, journal: &[u8], list: &[Record]) -> String {
    let shown = match journal.len() {
        0..=2000 => hex(journal),
        n => format!("{}..{}", hex(&journal[..200]), hex(&journal[n - 200..])),
    };
    let used = list.iter().filter(|record| record.used != 0).count();
    format!("{request:X?} over {} bytes {shown}, {} places, {used} used", journal.len(), list.len())
}
