//! The seventeen operations of `include/nwk.h` on frames and commands: their buffers, and the refusals each of them can answer.
//! `senders` has the three over a list of senders, `journals` the four over a journal.
use std::ops::Range;

pub const HEADER_RECORD: usize = 147;
pub const AUXILIARY_RECORD: usize = 19;
/// Where an auxiliary record has the frame counter.
pub const AUXILIARY_COUNTER: Range<usize> = 5..9;
pub const OPENED_RECORD: usize = 182;
/// Where an opened record has the header record; the auxiliary record is behind it.
pub const OPENED_HEADER: usize = 16;
/// Where it has the long address that the nonce used, behind the presence byte.
pub const OPENED_NONCE_IEEE: Range<usize> = 6..14;
/// Where it has the mark, and what the mark is of a frame that was opened; 0 beside a refusal.
pub const OPENED_MARK: usize = 1;
pub const MARK_CLEAR: u8 = 1;
pub const MARK_SEALED: u8 = 2;
pub const COMMAND_RECORD: usize = 535;
/// The most frames of a burst, and each frame's part of the output.
pub const MAX_BURST: usize = 16;
pub const PART: usize = 108;
/// The places of a MIC that is handed to or given by CCM and the splitter alone.
pub const MIC_PLACES: usize = 16;
pub const BLOCK: usize = 16;
/// A number of eight bytes that a call leaves.
pub const NUMBER: usize = 8;

#[derive(Clone, Copy, PartialEq, Eq, Debug)]
pub enum Operation {
    ReadHeader,
    WriteHeader,
    ReadAuxiliary,
    WriteAuxiliary,
    ReadFrame,
    WriteFrame,
    Seal,
    Open,
    OpenBurst,
    PayloadKind,
    ReadCommand,
    WriteCommand,
    TimeoutSeconds,
    EncryptCcm,
    DecryptCcm,
    SplitMic,
    EncryptBlock,
}

/// How many bytes of a lent buffer an accepted call writes.
#[derive(Clone, Copy, PartialEq, Eq, Debug)]
pub enum Extent {
    /// As many as the length answered; none if the answer is marked as clear.
    Length,
    /// A fixed number: a record.
    Fixed(usize),
    /// All of an array, which goes over without a length: a MIC, a block.
    Array(usize),
    /// A list of records of this size, as many as the length answered. Its room is a whole number of them.
    Records(usize),
    /// As many parts of this size as the length answered. Of each part the front, as its record says; nothing if it is marked
    /// as clear.
    Parts(usize),
}

impl Extent {
    /// What the room is counted in: the records of a list, else bytes.
    pub fn unit(self) -> usize {
        match self {
            Records(size) => size,
            _ => 1,
        }
    }
}

/// An input: its name, and whether its length is free, so that every length from 0 to 130 is to be tried.
pub type Input = (&'static str, bool);

pub struct Shape {
    pub name: &'static str,
    pub keyed: bool,
    pub inputs: &'static [Input],
    pub outputs: &'static [Extent],
    pub refusals: &'static [u8],
}

use Extent::{Array, Fixed, Length, Parts, Records};
use Operation::*;

pub const OPERATIONS: [Operation; 17] = [
    ReadHeader,
    WriteHeader,
    ReadAuxiliary,
    WriteAuxiliary,
    ReadFrame,
    WriteFrame,
    Seal,
    Open,
    OpenBurst,
    PayloadKind,
    ReadCommand,
    WriteCommand,
    TimeoutSeconds,
    EncryptCcm,
    DecryptCcm,
    SplitMic,
    EncryptBlock,
];

/// Those that take the network's level.
pub const LEVELLED: [Operation; 6] = [Seal, Open, OpenBurst, EncryptCcm, DecryptCcm, SplitMic];

impl Operation {
    pub fn named(name: &str) -> Option<Operation> {
        OPERATIONS.into_iter().find(|operation| operation.shape().name == name)
    }

    pub fn shape(self) -> &'static Shape {
        &SHAPES[self as usize]
    }

    /// Whether it takes the network's level, before all else.
    pub fn levelled(self) -> bool {
        LEVELLED.contains(&self)
    }

    /// How many bytes a number of an input has: the lengths of a burst are numbers of 16 bits.
    pub fn width(self, input: usize) -> usize {
        match (self, input) {
            (OpenBurst, 1) => 2,
            _ => 1,
        }
    }
}

const fn shape(
    name: &'static str,
    keyed: bool,
    inputs: &'static [Input],
    outputs: &'static [Extent],
    refusals: &'static [u8],
) -> Shape {
    Shape { name, keyed, inputs, outputs, refusals }
}

/// In the order of `OPERATIONS`. The refusals are those of the comments in `include/nwk.h`, which `generated.rs` looks at.
static SHAPES: [Shape; 17] = [
    shape("nwk_read_header", false, &[("bytes", true)], &[Fixed(HEADER_RECORD)], &[1, 2, 3, 4, 5, 6, 7, 8, 18]),
    shape("nwk_write_header", false, &[("header", false)], &[Length], &[13, 28, 17, 18]),
    shape("nwk_read_auxiliary", false, &[("bytes", true)], &[Fixed(AUXILIARY_RECORD)], &[1, 9, 10, 11, 18]),
    shape("nwk_write_auxiliary", false, &[("auxiliary", false)], &[Length], &[13, 18]),
    shape(
        "nwk_read_frame",
        false,
        &[("bytes", true)],
        &[Fixed(HEADER_RECORD), Fixed(AUXILIARY_RECORD)],
        &[1, 2, 3, 4, 5, 6, 7, 8, 9, 10, 11, 12, 18],
    ),
    shape("nwk_write_frame", false, &[("header", false), ("payload", true)], &[Length], &[13, 28, 17, 18]),
    shape(
        "nwk_seal",
        true,
        &[("header", false), ("auxiliary", false), ("payload", true)],
        &[Length],
        &[29, 13, 28, 14, 15, 21, 17, 18],
    ),
    shape(
        "nwk_open",
        true,
        &[("bytes", true)],
        &[Fixed(OPENED_RECORD), Length],
        &[29, 1, 2, 3, 4, 5, 6, 7, 8, 9, 10, 11, 12, 15, 16, 18, 19],
    ),
    shape(
        "nwk_open_burst",
        true,
        &[("frames", false), ("lengths", false)],
        &[Records(OPENED_RECORD), Parts(PART)],
        &[20],
    ),
    shape("nwk_payload_kind", false, &[("frame_type", false)], &[], &[13]),
    shape("nwk_read_command", false, &[("bytes", true)], &[Fixed(COMMAND_RECORD)], &[12, 18]),
    shape("nwk_write_command", false, &[("command", false)], &[Length], &[13, 17, 18]),
    shape("nwk_timeout_seconds", false, &[("code", false)], &[], &[13]),
    shape(
        "nwk_encrypt_ccm",
        true,
        &[("nonce", false), ("auth", true), ("payload", true)],
        &[Length, Array(MIC_PLACES)],
        &[29, 1, 18],
    ),
    shape(
        "nwk_decrypt_ccm",
        true,
        &[("nonce", false), ("auth", true), ("ciphertext", true), ("mic", false)],
        &[Length],
        &[29, 1, 18, 19],
    ),
    shape("nwk_split_mic", false, &[("bytes", true)], &[Array(MIC_PLACES), Array(NUMBER)], &[29, 16]),
    shape("nwk_encrypt_block", true, &[("block", false)], &[Array(BLOCK)], &[]),
];
