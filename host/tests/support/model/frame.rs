//! Frames (document 01, "Frame"; document 02, request 9): reading, and the bytes that sealing writes and opening gives at a level.
use super::auxiliary::{self, Auxiliary};
use super::ccm;
use super::header::{self, Header, SECURITY};
use super::level::Level;
use super::{refuse, MAX_PAYLOAD};

/// "The level sent is still 0."
const SENT_LEVEL: u8 = 0;

pub struct Frame {
    pub header: Header,
    pub auxiliary: Option<Auxiliary>,
    /// How many bytes the two headers take.
    pub headers_length: usize,
}

/// Reads a frame. Refusals 1 to 12.
pub fn read(bytes: &[u8]) -> Result<Frame, u8> {
    let (header, header_length) = header::read(bytes)?;
    let rest = &bytes[header_length..];
    if !header.bits[SECURITY] {
        refuse(&[(12, rest.len() > MAX_PAYLOAD)])?;
        return Ok(Frame { header, auxiliary: None, headers_length: header_length });
    }
    let (auxiliary, auxiliary_length) = auxiliary::read(rest)?;
    Ok(Frame { header, auxiliary: Some(auxiliary), headers_length: header_length + auxiliary_length })
}

/// The IEEE of the nonce: the auxiliary one, else the header's source.
pub fn nonce_ieee(header: &Header, auxiliary: &Auxiliary) -> Option<[u8; 8]> {
    auxiliary.ieee.or(header.source_ieee)
}

/// The nonce: IEEE, counter, control with the network's level, which "takes the place of 5 in nonce and authentication".
pub fn nonce(level: Level, auxiliary: &Auxiliary, ieee: &[u8; 8]) -> Vec<u8> {
    let control = auxiliary.at_level(level.number).control();
    [&ieee[..], &auxiliary.counter, &[control]].concat()
}

/// What is authenticated: header and auxiliary header with the network's level.
pub fn authenticated(level: Level, header: &Header, auxiliary: &Auxiliary) -> Vec<u8> {
    [header.bytes(), auxiliary.at_level(level.number).bytes()].concat()
}

/// How many bytes the sealed frame has.
pub fn sealed_length(level: Level, header: &Header, auxiliary: &Auxiliary, payload: &[u8]) -> usize {
    header.bytes().len() + auxiliary.bytes().len() + payload.len() + level.mic
}

/// The sealed frame's bytes: both headers, the level sent being 0, ciphertext, MIC.
pub fn seal(
    level: Level,
    key: &[u8; 16],
    header: &Header,
    auxiliary: &Auxiliary,
    ieee: &[u8; 8],
    payload: &[u8],
) -> Vec<u8> {
    let (nonce, auth) = (nonce(level, auxiliary, ieee), authenticated(level, header, auxiliary));
    let (ciphertext, mic) = ccm::encrypt(level.mic, key, &nonce, &auth, payload);
    [header.bytes(), auxiliary.at_level(SENT_LEVEL).bytes(), ciphertext, mic].concat()
}

/// The payload of ciphertext with MIC, none where the MIC is not the one computed.
pub fn open(
    level: Level,
    key: &[u8; 16],
    header: &Header,
    auxiliary: &Auxiliary,
    ieee: &[u8; 8],
    behind: &[u8],
) -> Option<Vec<u8>> {
    let (ciphertext, mic) = behind.split_at(behind.len() - level.mic);
    ccm::decrypt(key, &nonce(level, auxiliary, ieee), &authenticated(level, header, auxiliary), ciphertext, mic)
}
