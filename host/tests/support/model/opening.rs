//! Opening (document 01, "Frame"; document 02, requests 3, 5 and 9): sealed frames, clear ones, and the opened record of
//! `include/nwk.h`.
use super::auxiliary::{self, Auxiliary};
use super::frame::{self, Frame};
use super::level::{self, Level};
use super::{refuse, Answer, Done};
use crate::support::operations::{MARK_CLEAR, MARK_SEALED, OPENED_NONCE_IEEE, OPENED_RECORD};

/// "Opening takes a frame's bytes and first reads them, with reading's refusals." The auxiliary header "is present exactly if
/// bit 9 of frame control is set", and a frame "whose security bit is off" is clear. 29 is "before all but 20", so also of a frame
/// that is not read and of a clear one.
pub fn open(level: u64, key: &[u8; 16], bytes: &[u8], rooms: &[usize]) -> Answer {
    let level = level::of(level)?;
    let frame = frame::read(bytes)?;
    let behind = &bytes[frame.headers_length..];
    match &frame.auxiliary {
        Some(auxiliary) => open_sealed(level, key, &frame, auxiliary, behind, rooms),
        None => open_clear(&frame, behind.len(), rooms),
    }
}

/// "Every frame that was opened before has the answer it had, now marked sealed." 16 "now reads 'fewer bytes than the tag'".
fn open_sealed(
    level: Level,
    key: &[u8; 16],
    frame: &Frame,
    auxiliary: &Auxiliary,
    behind: &[u8],
    rooms: &[usize],
) -> Answer {
    let ieee = frame::nonce_ieee(&frame.header, auxiliary).ok_or(15)?;
    refuse(&[(16, behind.len() < level.mic)])?;
    let length = behind.len() - level.mic;
    refuse(&[(18, rooms[0] < OPENED_RECORD || rooms[1] < length)])?;
    let payload = frame::open(level, key, &frame.header, auxiliary, &ieee, behind).ok_or(19)?;
    Ok(Done::new(length, vec![record(MARK_SEALED, frame, length, Some(ieee)), payload]))
}

/// Opening "marks the answer as clear and does not touch the output. The length given is then the payload's, and no output
/// byte is the result". "15 to 19 are not checked for a clear frame": the output may be short, but 18 is said of the record,
/// which only the C function has.
fn open_clear(frame: &Frame, length: usize, rooms: &[usize]) -> Answer {
    refuse(&[(18, rooms[0] < OPENED_RECORD)])?;
    let done = Done::new(length, vec![record(MARK_CLEAR, frame, length, None), Vec::new()]);
    Ok(Done { clear: true, ..done })
}

/// The payload handed back "is a part of the frame if clear": its bytes behind the headers, up to the last one.
pub fn clear_payload(bytes: &[u8]) -> Option<&[u8]> {
    let frame = frame::read(bytes).ok()?;
    frame.auxiliary.is_none().then(|| &bytes[frame.headers_length..])
}

/// No refusal, the mark, the length, "the long address the nonce used (none for a clear frame)", and the two records.
fn record(mark: u8, frame: &Frame, length: usize, ieee: Option<[u8; 8]>) -> Vec<u8> {
    let mut record = vec![0; 16];
    record[1] = mark;
    record[2..4].copy_from_slice(&(length as u16).to_le_bytes());
    record[5] = u8::from(ieee.is_some());
    record[OPENED_NONCE_IEEE].copy_from_slice(&ieee.unwrap_or_default());
    record.extend(frame.header.record());
    record.extend(auxiliary::record(&frame.auxiliary));
    record
}
