//! Opening a burst: the frames that the radio hands over at once.
use crate::refusal::length;
use crate::{sys, Network, Opened, OpenedRecord, Refusal, MAX_PAYLOAD};
use core::fmt;
use core::iter::{FusedIterator, Zip};
use core::slice::{ChunksExact, Iter};

/// Opens a burst: up to [`MAX_BURST`](crate::MAX_BURST) frames of one network, handed over end to end with the length of
/// each. What comes back gives every frame, in its order, as [`open`](crate::open) would have. A refused frame stops no
/// other.
///
/// Look at each frame's mark first: it says where the payload is, and whether it is authenticated. The payload of a sealed
/// frame k (from 0) stands at the front of its own part of the output, the [`MAX_PAYLOAD`] bytes from `MAX_PAYLOAD * k`. A clear
/// frame leaves its part as it was: its payload is the last bytes of that frame, and its length says nothing of the output.
/// If the frame's type is 1 that is a command, to be read apart. The rest of the output stays as it was. `answers` has a
/// place for each frame, and may have more.
///
/// ```
/// use store_reader::{
///     open, open_burst, seal, write, Eui64, Network, Nwk, NwkAuxHeader, NwkFrameType, NwkHeader, Opened, OpenedRecord, Refusal,
///     MAX_BURST, MAX_BURST_OUTPUT, MAX_FRAME, MAX_PAYLOAD,
/// };
///
/// let network = Network::new("C0C1C2C3C4C5C6C7C8C9CACBCCCDCECF".parse().unwrap());
/// let header = NwkHeader::new(NwkFrameType::Data, Nwk(0x1234), Nwk(0x0000));
/// let probe = Eui64([1, 2, 3, 4, 5, 6, 7, 8]);
///
/// // Three frames end to end: a clear one, a sealed one whose last bit is damaged, and a sealed one.
/// let mut frames = [0; 3 * MAX_FRAME];
/// let m = write(&header, b"new here", &mut frames)?;
/// let header = header.secured();
/// let n = seal(&network, &header, Some(&NwkAuxHeader::new(1, probe)), b"21.5 C", &mut frames[m..])?;
/// let end = m + n + seal(&network, &header, Some(&NwkAuxHeader::new(2, probe)), b"21.7 C", &mut frames[m + n..])?;
/// frames[m + n - 1] ^= 1;
///
/// let lengths = [m as u16, n as u16, n as u16];
/// let mut answers = [OpenedRecord::new(); MAX_BURST];
/// let mut out = [0; MAX_BURST_OUTPUT];
/// let mut burst = open_burst(&network, &frames[..end], &lengths, &mut answers, &mut out)?;
/// assert_eq!(burst.len(), 3);
/// match burst.next().unwrap()? {
///     Opened::Clear(frame) => assert_eq!(frame.payload, &frames[m - 8..m]),
///     Opened::Sealed(_) => panic!("it was clear"),
/// }
/// assert_eq!(burst.next(), Some(Err(Refusal::WRONG_MIC)));
///
/// let third = burst.next().unwrap();
/// assert_eq!(third, open(&network, &frames[m + n..end], &mut [0; MAX_PAYLOAD]));
/// assert_eq!(third?.sealed().map(|frame| frame.payload), Some(&b"21.7 C"[..]));
/// # Ok::<(), Refusal>(())
/// ```
///
/// # Errors
///
/// Refusal 20: there are more than 16 lengths, they do not add up to the bytes of `frames`, the output is shorter than 108
/// times their number, or there are fewer answers than lengths. A frame's own refusal, 1 to 12, 15, 16 or 19, is no error of
/// the burst: it stands where that frame does.
pub fn open_burst<'a>(
    network: &Network,
    frames: &'a [u8],
    lengths: &'a [u16],
    answers: &'a mut [OpenedRecord],
    out: &'a mut [u8],
) -> Result<Burst<'a>, Refusal> {
    let (level, first, second) = network.numbers();
    // SAFETY: each pointer goes with the length of its slice, a place of the answers is its 182 bytes and nothing else, and
    // no two slices overlap.
    let answer = unsafe {
        sys::nwk_open_burst(
            level,
            first,
            second,
            frames.as_ptr(),
            frames.len(),
            lengths.as_ptr(),
            lengths.len(),
            answers.as_mut_ptr().cast(),
            answers.len(),
            out.as_mut_ptr(),
            out.len(),
        )
    };
    let answers = answers.get(..length(answer)?).ok_or(Refusal::INTERNAL)?;
    Ok(Burst { answers: answers.iter().zip(lengths).zip(out.chunks_exact(MAX_PAYLOAD)), frames })
}

/// The frames of a burst: an iterator over what [`open`](crate::open) would have given for each. [`open_burst`] makes it.
#[derive(Clone)]
pub struct Burst<'a> {
    /// The answer of each frame, its length, and its part of the output.
    answers: Zip<Zip<Iter<'a, OpenedRecord>, Iter<'a, u16>>, ChunksExact<'a, u8>>,
    /// The frames that are still to come, end to end.
    frames: &'a [u8],
}

impl<'a> Iterator for Burst<'a> {
    type Item = Result<Opened<'a>, Refusal>;

    fn next(&mut self) -> Option<Self::Item> {
        let ((record, length), part) = self.answers.next()?;
        let Some((frame, rest)) = self.frames.split_at_checked(usize::from(*length)) else {
            return Some(Err(Refusal::INTERNAL));
        };
        self.frames = rest;
        Some(Opened::from_record(record, frame, part))
    }

    fn size_hint(&self) -> (usize, Option<usize>) {
        self.answers.size_hint()
    }
}

impl ExactSizeIterator for Burst<'_> {}

impl FusedIterator for Burst<'_> {}

/// The list of the frames that are still to come.
impl fmt::Debug for Burst<'_> {
    fn fmt(&self, f: &mut fmt::Formatter<'_>) -> fmt::Result {
        f.debug_list().entries(self.clone()).finish()
    }
}
