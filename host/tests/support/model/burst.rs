//! A burst (document 02, requests 1, 3 and 9): the four conditions of 20, and each frame opened alone into its own part.
use super::{opening, refuse, Answer, Done};
use crate::support::calls::lengths_of;
use crate::support::operations::{MAX_BURST, OPENED_RECORD, PART};

/// "20, first of all, if there are more than 16 lengths, they do not add up to the bytes lent, the output is shorter than
/// 108 times their number, or the list for the answers is shorter than their number." Else the number of frames: 29 is "before all
/// but 20 and in a burst as each frame's answer".
pub fn open(level: u64, key: &[u8; 16], frames: &[u8], list: &[u8], rooms: &[usize]) -> Answer {
    let lengths = lengths_of(list);
    refuse(&[
        (20, lengths.len() > MAX_BURST),
        (20, lengths.iter().sum::<usize>() != frames.len()),
        (20, rooms[1] < PART * lengths.len()),
        (20, rooms[0] / OPENED_RECORD < lengths.len()),
    ])?;
    let (mut answers, mut parts) = (Vec::new(), Vec::new());
    let mut rest = frames;
    for &length in &lengths {
        let (frame, behind) = rest.split_at(length);
        let (answer, part) = alone(level, key, frame);
        answers.extend(answer);
        parts.extend(part);
        rest = behind;
    }
    Ok(Done { length: lengths.len(), clear: false, written: vec![answers, parts] })
}

/// The answer and the part of a frame: "each answer equals opening that frame alone into that part". Beside a refusal's
/// number the answer is zeros, its mark too. A part stays behind what opening writes, and "a clear frame writes nothing to its
/// part".
fn alone(level: u64, key: &[u8; 16], frame: &[u8]) -> (Vec<Option<u8>>, Vec<Option<u8>>) {
    let (answer, mut part) = match opening::open(level, key, frame, &[OPENED_RECORD, PART]) {
        Ok(Done { written, .. }) => (written[0].clone(), written[1].clone()),
        Err(number) => {
            let mut answer = vec![Some(0); OPENED_RECORD];
            answer[0] = Some(number);
            (answer, Vec::new())
        }
    };
    part.resize(PART, None);
    (answer, part)
}
