//! A model of documents 01 and 02 in plain Rust: each operation's refusals in order, and the bytes it writes.
//!
//! Written from the documents and from `include/nwk.h` for the records' layouts, independently of the codec.
pub mod aes;
pub mod auxiliary;
pub mod burst;
pub mod ccm;
pub mod commands;
pub mod frame;
pub mod header;
pub mod journal;
pub mod level;
pub mod opening;
pub mod senders;

use super::calls::{Call, Outcome, CLEAR_BIT};
use super::operations::{Operation, AUXILIARY_RECORD, COMMAND_RECORD, HEADER_RECORD, MIC_PLACES};

pub const MAX_FRAME: usize = 118;
pub const MAX_PAYLOAD: usize = 108;
pub const MAX_CCM: usize = 127;
/// The counter that is not sealed (document 02, request 4), as the bytes of a record.
pub const LAST_COUNTER: [u8; 4] = [0xFF; 4];

/// An accepted call: the length answered, whether the answer is marked as clear, and the first bytes of each output, where
/// none is a byte that stays.
pub struct Done {
    pub length: usize,
    pub clear: bool,
    pub written: Vec<Vec<Option<u8>>>,
}

impl Done {
    /// A call that writes all of these bytes to the front of its outputs.
    fn new(length: usize, written: Vec<Vec<u8>>) -> Self {
        let written = written.into_iter().map(|bytes| bytes.into_iter().map(Some).collect()).collect();
        Self { length, clear: false, written }
    }
}

/// A refusal is its number alone.
pub type Answer = Result<Done, u8>;

/// The first number whose condition holds.
pub fn refuse(conditions: &[(u8, bool)]) -> Result<(), u8> {
    match conditions.iter().find(|(_, holds)| *holds) {
        Some((number, _)) => Err(*number),
        None => Ok(()),
    }
}

/// What the codec must answer to a call.
pub fn run(call: &Call) -> Answer {
    let input = |i: usize| call.inputs[i].as_slice();
    let (rooms, level) = (call.rooms.as_slice(), call.level);
    match call.operation {
        Operation::ReadHeader => read_header(input(0), rooms),
        Operation::WriteHeader => write_header(input(0), rooms),
        Operation::ReadAuxiliary => read_auxiliary(input(0), rooms),
        Operation::WriteAuxiliary => write_auxiliary(input(0), rooms),
        Operation::ReadFrame => read_frame(input(0), rooms),
        Operation::WriteFrame => write_frame(input(0), input(1), rooms),
        Operation::Seal => seal(level, &call.key, input(0), input(1), input(2), rooms),
        Operation::Open => opening::open(level, &call.key, input(0), rooms),
        Operation::OpenBurst => burst::open(level, &call.key, input(0), input(1), rooms),
        Operation::PayloadKind => payload_kind(input(0)[0]),
        Operation::ReadCommand => read_command(input(0), rooms),
        Operation::WriteCommand => write_command(input(0), rooms),
        Operation::TimeoutSeconds => timeout_seconds(input(0)[0]),
        Operation::EncryptCcm => encrypt_ccm(level, &call.key, input(0), input(1), input(2), rooms),
        Operation::DecryptCcm => decrypt_ccm(level, &call.key, input(0), input(1), input(2), input(3), rooms),
        Operation::SplitMic => split_mic(level, input(0)),
        Operation::EncryptBlock => encrypt_block(&call.key, input(0)),
    }
}

/// The answer as the C functions give it, and the outputs afterwards if they were filled with `fill`.
pub fn outcome(call: &Call, fill: u8) -> Outcome {
    let mut outputs: Vec<Vec<u8>> = call.rooms.iter().map(|&room| vec![fill; room]).collect();
    match run(call) {
        Err(refusal) => Outcome { answer: u64::from(refusal) << 32, outputs },
        Ok(done) => {
            for (output, written) in outputs.iter_mut().zip(&done.written) {
                let places = output[..written.len()].iter_mut().zip(written);
                places.for_each(|(place, byte)| *place = byte.unwrap_or(*place));
            }
            Outcome { answer: done.length as u64 | u64::from(done.clear) << CLEAR_BIT, outputs }
        }
    }
}

/// An answer whose length is that of the one output.
fn given(bytes: Vec<u8>) -> Answer {
    Ok(Done::new(bytes.len(), vec![bytes]))
}

fn read_header(bytes: &[u8], rooms: &[usize]) -> Answer {
    let (header, length) = header::read(bytes)?;
    refuse(&[(18, rooms[0] < HEADER_RECORD)])?;
    Ok(Done::new(length, vec![header.record()]))
}

/// The header of a record that "the header writer" takes: it "refuses any header where one of bits 8, 10, 11, 12 disagrees with
/// its field" (document 02, request 8), "after 13". Bit 9 is not one of them.
fn header_to_write(record: &[u8]) -> Result<header::Header, u8> {
    let header = header::Header::of_record(record)?;
    refuse(&[(28, !header.agrees())])?;
    Ok(header)
}

fn write_header(record: &[u8], rooms: &[usize]) -> Answer {
    let bytes = header_to_write(record)?.bytes();
    refuse(&[(17, bytes.len() > MAX_FRAME), (18, rooms[0] < bytes.len())])?;
    given(bytes)
}

fn read_auxiliary(bytes: &[u8], rooms: &[usize]) -> Answer {
    refuse(&[(1, bytes.len() > MAX_FRAME)])?;
    let (auxiliary, length) = auxiliary::read(bytes)?;
    refuse(&[(18, rooms[0] < AUXILIARY_RECORD)])?;
    Ok(Done::new(length, vec![auxiliary::record(&Some(auxiliary))]))
}

fn write_auxiliary(record: &[u8], rooms: &[usize]) -> Answer {
    let bytes = auxiliary::of_record(record)?.ok_or(13)?.bytes();
    refuse(&[(18, rooms[0] < bytes.len())])?;
    given(bytes)
}

fn read_frame(bytes: &[u8], rooms: &[usize]) -> Answer {
    let frame = frame::read(bytes)?;
    refuse(&[(18, rooms[0] < HEADER_RECORD || rooms[1] < AUXILIARY_RECORD)])?;
    Ok(Done::new(frame.headers_length, vec![frame.header.record(), auxiliary::record(&frame.auxiliary)]))
}

fn write_frame(record: &[u8], payload: &[u8], rooms: &[usize]) -> Answer {
    let mut bytes = header_to_write(record)?.bytes();
    bytes.extend(payload);
    let too_long = payload.len() > MAX_PAYLOAD || bytes.len() > MAX_FRAME;
    refuse(&[(17, too_long), (18, rooms[0] < bytes.len())])?;
    given(bytes)
}

/// How many bytes a call that writes a header, a frame or a sealed one would write if nothing were refused; none if a record or the
/// level is, or sealing has no auxiliary header.
pub fn written_length(call: &Call) -> Option<usize> {
    let header = header::Header::of_record(&call.inputs[0]).ok()?;
    match call.operation {
        Operation::WriteFrame => Some(header.bytes().len() + call.inputs[1].len()),
        Operation::Seal => {
            let auxiliary = auxiliary::of_record(&call.inputs[1]).ok()??;
            Some(frame::sealed_length(level::of(call.level).ok()?, &header, &auxiliary, &call.inputs[2]))
        }
        _ => Some(header.bytes().len()),
    }
}

/// "28 for the header's bits, bit 9 among them when sealing, after 13 and before 14; 28 for the extended nonce bit, after 14 and
/// before 15" (document 02, request 8). 29 is before all (request 9), also before the 13 of a record.
fn seal(level: u64, key: &[u8; 16], header: &[u8], auxiliary: &[u8], payload: &[u8], rooms: &[usize]) -> Answer {
    let level = level::of(level)?;
    let header = header::Header::of_record(header)?;
    let auxiliary = auxiliary::of_record(auxiliary)?;
    refuse(&[(28, !header.agrees() || !header.bits[header::SECURITY])])?;
    let auxiliary = auxiliary.ok_or(14)?;
    refuse(&[(28, !auxiliary.agrees())])?;
    let ieee = frame::nonce_ieee(&header, &auxiliary).ok_or(15)?;
    let length = frame::sealed_length(level, &header, &auxiliary, payload);
    let too_long = payload.len() > MAX_PAYLOAD || length > MAX_FRAME;
    refuse(&[(21, auxiliary.counter == LAST_COUNTER), (17, too_long), (18, rooms[0] < length)])?;
    given(frame::seal(level, key, &header, &auxiliary, &ieee, payload))
}

/// "A plaintext is a command if the type is 1, else opaque"; the types are 0, 1 and 3.
fn payload_kind(frame_type: u8) -> Answer {
    refuse(&[(13, ![0, 1, 3].contains(&frame_type))])?;
    Ok(Done::new(usize::from(frame_type == 1), Vec::new()))
}

fn read_command(bytes: &[u8], rooms: &[usize]) -> Answer {
    refuse(&[(12, bytes.len() > MAX_PAYLOAD), (18, rooms[0] < COMMAND_RECORD)])?;
    given(commands::read(bytes))
}

fn write_command(record: &[u8], rooms: &[usize]) -> Answer {
    let bytes = commands::write(record)?;
    refuse(&[(17, bytes.len() > MAX_PAYLOAD), (18, rooms[0] < bytes.len())])?;
    given(bytes)
}

fn timeout_seconds(code: u8) -> Answer {
    let length = match code {
        0 => 10,
        1..=14 => 60 * 2usize.pow(u32::from(code)),
        _ => return Err(13),
    };
    Ok(Done::new(length, Vec::new()))
}

/// A MIC in its 16 places, of which "those past its length are given as 0".
fn placed(mut mic: Vec<u8>) -> Vec<u8> {
    mic.resize(MIC_PLACES, 0);
    mic
}

fn encrypt_ccm(level: u64, key: &[u8; 16], nonce: &[u8], auth: &[u8], payload: &[u8], rooms: &[usize]) -> Answer {
    let level = level::of(level)?;
    refuse(&[(1, auth.len() > MAX_CCM || payload.len() > MAX_CCM), (18, rooms[0] < payload.len())])?;
    let (ciphertext, mic) = ccm::encrypt(level.mic, key, nonce, auth, payload);
    Ok(Done::new(payload.len(), vec![ciphertext, placed(mic)]))
}

/// Of the MIC's 16 places those past its length are "not read".
fn decrypt_ccm(
    level: u64,
    key: &[u8; 16],
    nonce: &[u8],
    auth: &[u8],
    ciphertext: &[u8],
    mic: &[u8],
    rooms: &[usize],
) -> Answer {
    let level = level::of(level)?;
    refuse(&[(1, auth.len() > MAX_CCM || ciphertext.len() > MAX_CCM), (18, rooms[0] < ciphertext.len())])?;
    given(ccm::decrypt(key, nonce, auth, ciphertext, &mic[..level.mic]).ok_or(19)?)
}

/// `split_mic` has no upper limit, so the length of the ciphertext is a number of its own.
fn split_mic(level: u64, bytes: &[u8]) -> Answer {
    let level = level::of(level)?;
    refuse(&[(16, bytes.len() < level.mic)])?;
    let (ciphertext, mic) = bytes.split_at(bytes.len() - level.mic);
    Ok(Done::new(level.mic, vec![placed(mic.to_vec()), (ciphertext.len() as u64).to_le_bytes().to_vec()]))
}

fn encrypt_block(key: &[u8; 16], block: &[u8]) -> Answer {
    given(aes::encrypt(key, &std::array::from_fn(|i| block[i])).to_vec())
}
