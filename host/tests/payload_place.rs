//! `nwk_payload_place` over every mark, length and frame that opening can speak of, and over numbers that it cannot: where document
//! 02, request 3, says that a payload is.
use store_reader::sys;

const LONG: u64 = 118;
/// Past the longest frame, past 32 bits, and the largest number.
const TOO_LONG: [u64; 4] = [LONG + 1, 1 << 32, (1 << 32) + 5, u64::MAX];

#[derive(Debug, PartialEq, Eq)]
enum Place {
    /// In the frame, from a byte on, so many bytes.
    Frame(u64, u64),
    /// At the front of the output, so many bytes.
    Output(u64),
    Refused(u8),
}

/// "The payload handed back is a part of the frame if clear, and of the opened bytes if sealed", the frame's last bytes and the
/// output's first ones. A code that no mark has is 13, and a frame or a payload of more than 118 bytes is 1, which comes first.
fn expected(mark: u8, length: u64, frame: u64) -> Place {
    if length > LONG || frame > LONG {
        return Place::Refused(1);
    }
    match mark {
        0 => Place::Output(0),
        1 => Place::Frame(frame.saturating_sub(length), length),
        2 => Place::Output(length),
        _ => Place::Refused(13),
    }
}

fn answered(mark: u8, length: u64, frame: u64) -> Place {
    // SAFETY: numbers go in and one comes out.
    let answer = unsafe { sys::nwk_payload_place(mark, length, frame) };
    let (n, refusal, is_clear, first) = (answer & 0xFFFF_FFFF, answer >> 32 & 0xFF, answer >> 40 & 1, answer >> 48);
    assert_eq!(answer, n | refusal << 32 | is_clear << 40 | first << 48, "no other bit is set");
    match (refusal, is_clear) {
        (0, 0) => {
            assert_eq!(first, 0);
            Place::Output(n)
        }
        (0, _) => Place::Frame(first, n),
        _ => {
            assert_eq!(answer, refusal << 32, "a refusal is its number alone");
            Place::Refused(u8::try_from(refusal).unwrap())
        }
    }
}

#[test]
fn a_payload_is_where_the_mark_says() {
    let lengths = || (0..=LONG).chain(TOO_LONG);
    for mark in [0, 1, 2, 3, 4, 255] {
        for length in lengths() {
            for frame in lengths() {
                assert_eq!(answered(mark, length, frame), expected(mark, length, frame), "{mark} {length} {frame}");
            }
        }
    }
}
