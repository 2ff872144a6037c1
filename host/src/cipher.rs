//! CCM and one block of AES, called alone.
use crate::refusal::length;
use crate::{sys, Key, Level, Network, Refusal, MIC_PLACES};

/// Encrypts a payload to the front of the output, and gives its length and the MIC: as many bytes as the network's level has, and
/// zeros behind them. The nonce is taken as it is.
///
/// ```
/// use store_reader::{decrypt_ccm, encrypt_ccm, Key, Level, Network};
///
/// let network = Network::new(Key::new([7; 16])).with_level(Level::EncMic64);
/// let mut sealed = [0; 5];
/// let (n, mic) = encrypt_ccm(&network, &[1; 13], b"header", b"grain", &mut sealed)?;
/// assert_eq!(mic[8..], [0; 8]);
///
/// let mut opened = [0; 5];
/// assert_eq!(decrypt_ccm(&network, &[1; 13], b"header", &sealed[..n], &mic, &mut opened)?, 5);
/// assert_eq!(&opened, b"grain");
/// # Ok::<(), store_reader::Refusal>(())
/// ```
///
/// # Errors
///
/// Refusals 1, 18.
pub fn encrypt_ccm(
    network: &Network,
    nonce: &[u8; 13],
    auth: &[u8],
    payload: &[u8],
    out: &mut [u8],
) -> Result<(usize, [u8; MIC_PLACES]), Refusal> {
    let (level, first, second) = network.numbers();
    let mut mic = [0; MIC_PLACES];
    // SAFETY: each pointer goes with the length of its slice, and no two slices overlap.
    let answer = unsafe {
        sys::nwk_encrypt_ccm(
            level,
            first,
            second,
            nonce,
            auth.as_ptr(),
            auth.len(),
            payload.as_ptr(),
            payload.len(),
            out.as_mut_ptr(),
            out.len(),
            &mut mic,
        )
    };
    Ok((length(answer)?, mic))
}

/// Decrypts a ciphertext to the front of the output if its MIC is right, and gives its length. The places past the bytes that the
/// MIC has at the network's level are not read. An example stands at [`encrypt_ccm`].
///
/// # Errors
///
/// Refusals 1, 18, 19.
pub fn decrypt_ccm(
    network: &Network,
    nonce: &[u8; 13],
    auth: &[u8],
    ciphertext: &[u8],
    mic: &[u8; MIC_PLACES],
    out: &mut [u8],
) -> Result<usize, Refusal> {
    let (level, first, second) = network.numbers();
    // SAFETY: each pointer goes with the length of its slice, and no two slices overlap.
    length(unsafe {
        sys::nwk_decrypt_ccm(
            level,
            first,
            second,
            nonce,
            auth.as_ptr(),
            auth.len(),
            ciphertext.as_ptr(),
            ciphertext.len(),
            mic,
            out.as_mut_ptr(),
            out.len(),
        )
    })
}

/// The ciphertext in front of the MIC, and the MIC: the last bytes, as many as the level has, and zeros behind them.
///
/// ```
/// use store_reader::{split_mic, Level, Refusal};
///
/// let (ciphertext, mic) = split_mic(Level::EncMic32, &[1, 2, 3, 4, 5, 6])?;
/// assert_eq!((ciphertext, &mic[..4], &mic[4..]), (&[1, 2][..], &[3, 4, 5, 6][..], &[0; 12][..]));
/// assert_eq!(split_mic(Level::EncMic64, &[1, 2, 3, 4, 5, 6]), Err(Refusal::NO_MIC));
/// # Ok::<(), Refusal>(())
/// ```
///
/// # Errors
///
/// Refusal 16.
pub fn split_mic(level: Level, bytes: &[u8]) -> Result<(&[u8], [u8; MIC_PLACES]), Refusal> {
    let mut mic = [0; MIC_PLACES];
    let mut front = 0;
    // SAFETY: the pointer goes with the length of its slice, the MIC has its 16 places, and no two overlap.
    length(unsafe { sys::nwk_split_mic(level.into(), bytes.as_ptr(), bytes.len(), &mut mic, &mut front) })?;
    let front = usize::try_from(front).map_err(|_| Refusal::INTERNAL)?;
    Ok((bytes.get(..front).ok_or(Refusal::INTERNAL)?, mic))
}

/// One block of AES-128.
///
/// ```
/// use store_reader::{encrypt_block, hex, Key};
///
/// // FIPS 197, appendix C.1.
/// let key: Key = "000102030405060708090A0B0C0D0E0F".parse().unwrap();
/// let block = std::array::from_fn(|i| 0x11 * i as u8);
/// let mut expected = [0; 16];
/// hex("69C4E0D86A7B0430D8CDB78070B4C55A", &mut expected).unwrap();
/// assert_eq!(encrypt_block(&key, &block), expected);
/// ```
#[must_use]
pub fn encrypt_block(key: &Key, block: &[u8; 16]) -> [u8; 16] {
    let (first, second) = key.halves();
    let mut out = [0; 16];
    // SAFETY: both arrays have their 16 places, and they do not overlap. Nothing is refused.
    let _ = unsafe { sys::nwk_encrypt_block(first, second, block, &mut out) };
    out
}
