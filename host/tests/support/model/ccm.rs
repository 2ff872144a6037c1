//! CCM (SP 800-38C) with a nonce of 13 bytes and a MIC of t, over the AES of this model.
use super::aes::Cipher;

/// The bytes of the payload's length: 15 less the nonce's.
const Q: usize = 2;

/// Bytes filled with zeros up to a whole number of blocks.
fn padded(mut bytes: Vec<u8>) -> Vec<u8> {
    bytes.resize(bytes.len().next_multiple_of(16), 0);
    bytes
}

/// The first byte of B0 (A.2.1): bit 6 for authenticated data, (t - 2) / 2 in bits 3 to 5, q - 1 in bits 0 to 2.
fn flags(t: usize, auth: &[u8]) -> u8 {
    64 * u8::from(!auth.is_empty()) + 8 * ((t - 2) / 2) as u8 + (Q - 1) as u8
}

/// B0 and what follows it: authenticated data behind its length, and the payload.
fn formatted(t: usize, nonce: &[u8], auth: &[u8], payload: &[u8]) -> Vec<u8> {
    let mut blocks = vec![flags(t, auth)];
    blocks.extend(nonce);
    blocks.extend((payload.len() as u16).to_be_bytes());
    if !auth.is_empty() {
        blocks.extend(padded([&(auth.len() as u16).to_be_bytes(), auth].concat()));
    }
    blocks.extend(padded(payload.to_vec()));
    blocks
}

/// The last block of the CBC-MAC.
fn cbc_mac(cipher: &Cipher, blocks: &[u8]) -> [u8; 16] {
    blocks.chunks(16).fold([0; 16], |mac, block| cipher.encrypt(&std::array::from_fn(|i| mac[i] ^ block[i])))
}

/// The key stream block of a counter.
fn key_stream(cipher: &Cipher, nonce: &[u8], counter: u16) -> [u8; 16] {
    let block = [&[(Q - 1) as u8], nonce, &counter.to_be_bytes()].concat();
    cipher.encrypt(&std::array::from_fn(|i| block[i]))
}

/// Payload to ciphertext, or back: counters 1 onward.
fn masked(cipher: &Cipher, nonce: &[u8], bytes: &[u8]) -> Vec<u8> {
    let mut masked = bytes.to_vec();
    for (i, part) in masked.chunks_mut(16).enumerate() {
        let stream = key_stream(cipher, nonce, 1 + i as u16);
        part.iter_mut().zip(stream).for_each(|(byte, mask)| *byte ^= mask);
    }
    masked
}

/// The MIC of a payload: the CBC-MAC's first t bytes, masked by counter 0.
fn mic(t: usize, cipher: &Cipher, nonce: &[u8], auth: &[u8], payload: &[u8]) -> Vec<u8> {
    let mac = cbc_mac(cipher, &formatted(t, nonce, auth, payload));
    let stream = key_stream(cipher, nonce, 0);
    (0..t).map(|i| mac[i] ^ stream[i]).collect()
}

pub fn encrypt(t: usize, key: &[u8; 16], nonce: &[u8], auth: &[u8], payload: &[u8]) -> (Vec<u8>, Vec<u8>) {
    let cipher = Cipher::new(key);
    (masked(&cipher, nonce, payload), mic(t, &cipher, nonce, auth, payload))
}

/// The payload, none where the MIC given, all t bytes of it, is not the one computed.
pub fn decrypt(key: &[u8; 16], nonce: &[u8], auth: &[u8], ciphertext: &[u8], given: &[u8]) -> Option<Vec<u8>> {
    let cipher = Cipher::new(key);
    let payload = masked(&cipher, nonce, ciphertext);
    (mic(given.len(), &cipher, nonce, auth, &payload) == given).then_some(payload)
}
