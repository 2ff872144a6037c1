//! One call through the C boundary, made between guard bytes, and what must hold after every call.
use super::guarded::Guarded;
use super::hex::hex;
use super::operations::{Extent, Operation, MARK_CLEAR, MARK_SEALED, MIC_PLACES, OPENED_MARK, OPENED_RECORD, PART};
use store_reader::sys;

/// An operation with its inputs and the lengths of its lent outputs, in the order of its parameters. The lengths of a burst
/// are an input of two bytes each, the lowest first.
#[derive(Clone, Debug)]
pub struct Call {
    pub operation: Operation,
    /// The network's level, of the operations that take it.
    pub level: u64,
    pub key: [u8; 16],
    pub inputs: Vec<Vec<u8>>,
    pub rooms: Vec<usize>,
}

/// The level of a call that does not choose one: the level that is compared with the Rust.
pub const LEVEL: u64 = 5;
/// The bit of opening's answer that marks a clear frame.
pub const CLEAR_BIT: u32 = 40;
/// The security bit in the second byte of a frame: bit 9 of frame control.
pub const SECURITY_BIT: u8 = 0x02;

/// What a call answered, and the whole of each lent output afterwards.
#[derive(Clone, PartialEq, Eq, Debug)]
pub struct Outcome {
    pub answer: u64,
    pub outputs: Vec<Vec<u8>>,
}

impl Outcome {
    pub fn length(&self) -> usize {
        self.answer as u32 as usize
    }

    pub fn refusal(&self) -> u8 {
        (self.answer >> 32) as u8
    }

    /// Whether the answer is marked as clear, which only opening's is.
    pub fn clear(&self) -> bool {
        self.answer >> CLEAR_BIT & 1 == 1
    }

    /// The payload of a frame that was opened.
    pub fn payload<'a>(&'a self, call: &'a Call) -> &'a [u8] {
        payload_of(&self.outputs[0], &call.inputs[0], &self.outputs[1])
    }

    /// The record and the part of each frame of a burst; none where it was refused.
    pub fn frames(&self) -> impl Iterator<Item = (&[u8], &[u8])> {
        self.outputs[0].chunks(OPENED_RECORD).zip(self.outputs[1].chunks(PART)).take(self.length())
    }

    /// Bits 41 to 63, which are always 0.
    fn other_bits(&self) -> u64 {
        self.answer >> (CLEAR_BIT + 1)
    }
}

/// The length that an opened record says.
pub fn length_of(record: &[u8]) -> usize {
    usize::from(u16::from_le_bytes([record[2], record[3]]))
}

/// The payload that an opened record speaks of: the last bytes of the frame if its mark is clear, the first of the opened bytes
/// if it is sealed, else none.
pub fn payload_of<'a>(record: &[u8], frame: &'a [u8], opened: &'a [u8]) -> &'a [u8] {
    match record[OPENED_MARK] {
        MARK_CLEAR => &frame[frame.len() - length_of(record)..],
        MARK_SEALED => &opened[..length_of(record)],
        _ => &[],
    }
}

/// The input of a burst that has these lengths.
pub fn list_of(lengths: &[u16]) -> Vec<u8> {
    lengths.iter().flat_map(|length| length.to_le_bytes()).collect()
}

/// The lengths of such an input.
pub fn lengths_of(list: &[u8]) -> Vec<usize> {
    list.chunks(2).map(|length| usize::from(u16::from_le_bytes([length[0], length[1]]))).collect()
}

impl Call {
    /// A call at level 5, where it takes one.
    pub fn new(operation: Operation, key: [u8; 16], inputs: Vec<Vec<u8>>, rooms: Vec<usize>) -> Self {
        Self { operation, level: LEVEL, key, inputs, rooms }
    }

    /// A burst that is lent so many answers and so many bytes of output.
    pub fn burst(key: [u8; 16], frames: &[u8], lengths: &[u16], answers: usize, room: usize) -> Self {
        let inputs = vec![frames.to_vec(), list_of(lengths)];
        Self::new(Operation::OpenBurst, key, inputs, vec![OPENED_RECORD * answers, room])
    }

    /// The opening of a frame that is lent a record and so many bytes of output.
    pub fn open(key: [u8; 16], frame: &[u8], room: usize) -> Self {
        Self::new(Operation::Open, key, vec![frame.to_vec()], vec![OPENED_RECORD, room])
    }

    /// The same call at another level.
    pub fn at(&self, level: impl Into<u64>) -> Self {
        Self { level: level.into(), ..self.clone() }
    }

    /// The frames of a burst whose lengths add up.
    pub fn frames(&self) -> Vec<&[u8]> {
        let mut rest = &self.inputs[0][..];
        let mut next = |length| {
            let (frame, behind) = rest.split_at(length);
            rest = behind;
            frame
        };
        lengths_of(&self.inputs[1]).into_iter().map(&mut next).collect()
    }

    /// The call as one line, for a report.
    pub fn line(&self) -> String {
        let inputs: Vec<String> = self.inputs.iter().map(|input| hex(input)).collect();
        let name = self.operation.shape().name;
        format!("{name} level {} key {} inputs {} rooms {:?}", self.level, hex(&self.key), inputs.join(" "), self.rooms)
    }
}

/// The two numbers of a key: its first eight bytes in the first, the first byte lowest.
fn key_numbers(key: &[u8; 16]) -> (u64, u64) {
    let half = |from: usize| u64::from_le_bytes(std::array::from_fn(|i| key[from + i]));
    (half(0), half(8))
}

/// Makes the call with outputs filled with `fill`, every buffer between guards of the value `guard`. Guards and inputs must
/// be unchanged afterwards.
pub fn perform(call: &Call, fill: u8, guard: u8) -> Outcome {
    let width = |i: usize| call.operation.width(i);
    let inputs: Vec<Guarded> =
        call.inputs.iter().enumerate().map(|(i, input)| Guarded::aligned(input, width(i), guard)).collect();
    let mut outputs: Vec<Guarded> = call.rooms.iter().map(|&room| Guarded::new(&vec![fill; room], guard)).collect();
    let answer = through_c(call, &inputs, &mut outputs);
    for (i, input) in inputs.iter().enumerate() {
        assert!(input.unchanged(), "input {i} or its guards changed: {}", call.line());
    }
    for (i, output) in outputs.iter().enumerate() {
        assert!(output.guards_unchanged(), "guards of output {i} changed: {}", call.line());
    }
    Outcome { answer, outputs: outputs.iter().map(|output| output.content().to_vec()).collect() }
}

/// What holds after every call, whatever it is expected to answer: bits, refusal number, and bytes left alone.
pub fn check_boundary(call: &Call, outcome: &Outcome, fill: u8) {
    let shape = call.operation.shape();
    assert_eq!(outcome.other_bits(), 0, "bits above the refusal: {}", call.line());
    let refusal = outcome.refusal();
    if refusal != 0 {
        assert!(shape.refusals.contains(&refusal), "refusal {refusal}: {}", call.line());
        assert_eq!(outcome.length(), 0, "length beside a refusal: {}", call.line());
    }
    for (extent, output) in shape.outputs.iter().zip(&outcome.outputs) {
        let written = match (refusal, *extent) {
            (0, Extent::Length) if outcome.clear() => 0,
            (0, Extent::Length) => outcome.length(),
            (0, Extent::Fixed(size) | Extent::Array(size)) => size,
            (0, Extent::Records(size) | Extent::Parts(size)) => outcome.length() * size,
            _ => 0,
        };
        assert!(written <= output.len(), "more written than lent: {}", call.line());
        assert!(output[written..].iter().all(|&byte| byte == fill), "bytes not to be touched: {}", call.line());
    }
    match call.operation {
        Operation::Open => check_opened(call, outcome),
        Operation::OpenBurst => check_parts(call, outcome, fill),
        _ => assert!(!outcome.clear(), "marked as clear: {}", call.line()),
    }
}

/// What holds of opening: a refusal is not marked as clear; else a frame is clear exactly if its security bit is off, and the
/// record has the answer's mark and length.
fn check_opened(call: &Call, outcome: &Outcome) {
    if outcome.refusal() != 0 {
        assert!(!outcome.clear(), "a refusal marked as clear: {}", call.line());
        return;
    }
    let (frame, record) = (&call.inputs[0], &outcome.outputs[0]);
    assert_eq!(outcome.clear(), frame[1] & SECURITY_BIT == 0, "the mark: {}", call.line());
    let mark = if outcome.clear() { MARK_CLEAR } else { MARK_SEALED };
    assert_eq!((record[0], record[OPENED_MARK]), (0, mark), "the record's refusal and mark: {}", call.line());
    assert_eq!(length_of(record), outcome.length(), "the record's length: {}", call.line());
}

/// What holds of each frame of a burst: beside a refusal its record is 0, else it is marked; its part is untouched behind its
/// payload, and whole if it was clear. The burst's own answer bears no mark.
fn check_parts(call: &Call, outcome: &Outcome, fill: u8) {
    assert!(!outcome.clear(), "a burst marked as clear: {}", call.line());
    for (k, (record, part)) in outcome.frames().enumerate() {
        let blank = record[1..].iter().all(|&byte| byte == 0);
        let marked = [MARK_CLEAR, MARK_SEALED].contains(&record[OPENED_MARK]);
        assert!(if record[0] == 0 { marked } else { blank }, "frame {k}: beside its number: {}", call.line());
        let n = if record[OPENED_MARK] == MARK_SEALED { length_of(record) } else { 0 };
        assert!(n <= part.len(), "frame {k}: more than its part: {}", call.line());
        assert!(part[n..].iter().all(|&byte| byte == fill), "frame {k}: bytes behind its payload: {}", call.line());
    }
}

/// Arrays go over without a length: they have exactly their size. A list goes over with the number of its places: it has no
/// byte more.
fn check_arrays(call: &Call) {
    for (extent, room) in call.operation.shape().outputs.iter().zip(&call.rooms) {
        assert!(!matches!(extent, Extent::Array(size) if size != room), "{}", call.line());
        assert_eq!(room % extent.unit(), 0, "{}", call.line());
    }
    for (i, input) in call.inputs.iter().enumerate() {
        assert_eq!(input.len() % call.operation.width(i), 0, "{}", call.line());
    }
    let sizes = match call.operation {
        Operation::EncryptCcm => vec![(0, 13)],
        Operation::DecryptCcm => vec![(0, 13), (3, MIC_PLACES)],
        Operation::EncryptBlock => vec![(0, 16)],
        _ => Vec::new(),
    };
    for (i, size) in sizes {
        assert_eq!(call.inputs[i].len(), size, "{}", call.line());
    }
}

fn through_c(call: &Call, inputs: &[Guarded], outputs: &mut [Guarded]) -> u64 {
    use Operation::*;
    let (level, (first, second)) = (call.level, key_numbers(&call.key));
    let p = |i: usize| inputs[i].pointer();
    let n = |i: usize| inputs[i].len();
    let out: Vec<*mut u8> = outputs.iter_mut().map(Guarded::pointer_mut).collect();
    let room = |i: usize| call.rooms[i];
    check_arrays(call);
    // SAFETY: each pointer is that of a live buffer of the length beside it, aligned to the width of its numbers, and no
    // two buffers overlap.
    unsafe {
        match call.operation {
            ReadHeader => sys::nwk_read_header(p(0), n(0), out[0], room(0)),
            WriteHeader => sys::nwk_write_header(p(0), n(0), out[0], room(0)),
            ReadAuxiliary => sys::nwk_read_auxiliary(p(0), n(0), out[0], room(0)),
            WriteAuxiliary => sys::nwk_write_auxiliary(p(0), n(0), out[0], room(0)),
            ReadFrame => sys::nwk_read_frame(p(0), n(0), out[0], room(0), out[1], room(1)),
            WriteFrame => sys::nwk_write_frame(p(0), n(0), p(1), n(1), out[0], room(0)),
            Seal => sys::nwk_seal(level, first, second, p(0), n(0), p(1), n(1), p(2), n(2), out[0], room(0)),
            Open => sys::nwk_open(level, first, second, p(0), n(0), out[0], room(0), out[1], room(1)),
            OpenBurst => sys::nwk_open_burst(
                level,
                first,
                second,
                p(0),
                n(0),
                p(1).cast(),
                n(1) / OpenBurst.width(1),
                out[0].cast(),
                room(0) / OPENED_RECORD,
                out[1],
                room(1),
            ),
            PayloadKind => sys::nwk_payload_kind(inputs[0].content()[0]),
            ReadCommand => sys::nwk_read_command(p(0), n(0), out[0], room(0)),
            WriteCommand => sys::nwk_write_command(p(0), n(0), out[0], room(0)),
            TimeoutSeconds => sys::nwk_timeout_seconds(inputs[0].content()[0]),
            EncryptCcm => {
                let (nonce, mic) = (p(0).cast(), out[1].cast());
                sys::nwk_encrypt_ccm(level, first, second, nonce, p(1), n(1), p(2), n(2), out[0], room(0), mic)
            }
            DecryptCcm => {
                let (nonce, mic) = (p(0).cast(), p(3).cast());
                sys::nwk_decrypt_ccm(level, first, second, nonce, p(1), n(1), p(2), n(2), mic, out[0], room(0))
            }
            SplitMic => {
                // A number has a place of its own; its bytes are compared as those of the other outputs are.
                let mut front = out[1].cast::<u64>().read_unaligned();
                let answer = sys::nwk_split_mic(level, p(0), n(0), out[0].cast(), &mut front);
                out[1].cast::<u64>().write_unaligned(front);
                answer
            }
            EncryptBlock => sys::nwk_encrypt_block(first, second, p(0).cast(), out[0].cast()),
        }
    }
}
