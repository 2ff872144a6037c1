//! Addresses and keys.
use core::cmp::Ordering;
use core::fmt;
use core::hint::black_box;
use core::str::FromStr;
use core::sync::atomic::{compiler_fence, Ordering as Fence};

/// A network address of 16 bits.
#[derive(Clone, Copy, PartialEq, Eq, PartialOrd, Ord, Hash, Default)]
pub struct Nwk(pub u16);

/// A PAN identifier of 16 bits.
#[derive(Clone, Copy, PartialEq, Eq, PartialOrd, Ord, Hash, Default)]
pub struct PanId(pub u16);

impl fmt::Display for Nwk {
    fn fmt(&self, f: &mut fmt::Formatter<'_>) -> fmt::Result {
        write_word(self.0, f)
    }
}

impl fmt::Debug for Nwk {
    fn fmt(&self, f: &mut fmt::Formatter<'_>) -> fmt::Result {
        write!(f, "Nwk({self})")
    }
}

impl fmt::Display for PanId {
    fn fmt(&self, f: &mut fmt::Formatter<'_>) -> fmt::Result {
        write_word(self.0, f)
    }
}

impl fmt::Debug for PanId {
    fn fmt(&self, f: &mut fmt::Formatter<'_>) -> fmt::Result {
        write!(f, "PanId({self})")
    }
}

/// A long address, its bytes in wire order. It is printed, parsed and ordered the other way round, as on a device's label.
///
/// ```
/// use store_reader::Eui64;
///
/// let address: Eui64 = "00:12:4B:00:1C:A1:B2:C3".parse().unwrap();
/// assert_eq!(address.0, [0xC3, 0xB2, 0xA1, 0x1C, 0x00, 0x4B, 0x12, 0x00]);
/// assert_eq!(address.to_string(), "00:12:4B:00:1C:A1:B2:C3");
/// assert_eq!(address, Eui64::from(0x0012_4B00_1CA1_B2C3));
/// assert_eq!(format!("{address:?}"), "Eui64(00:12:4B:00:1C:A1:B2:C3)");
/// assert!(address < Eui64::from(0x0012_4B00_1CA1_B2C4));
/// ```
#[derive(Clone, Copy, PartialEq, Eq, Hash, Default)]
pub struct Eui64(pub [u8; 8]);

impl fmt::Display for Eui64 {
    fn fmt(&self, f: &mut fmt::Formatter<'_>) -> fmt::Result {
        let mut text = [b':'; 23];
        for (place, byte) in text.chunks_mut(3).zip(self.0.iter().rev()) {
            place[..2].copy_from_slice(&digits(*byte));
        }
        f.write_str(core::str::from_utf8(&text).map_err(|_| fmt::Error)?)
    }
}

impl fmt::Debug for Eui64 {
    fn fmt(&self, f: &mut fmt::Formatter<'_>) -> fmt::Result {
        write!(f, "Eui64({self})")
    }
}

/// Writes a number of 16 bits as `0x1A62`.
fn write_word(number: u16, f: &mut fmt::Formatter<'_>) -> fmt::Result {
    let [[a, b], [c, d]] = number.to_be_bytes().map(digits);
    f.write_str(core::str::from_utf8(&[b'0', b'x', a, b, c, d]).map_err(|_| fmt::Error)?)
}

/// The two hexadecimal digits of a byte.
fn digits(byte: u8) -> [u8; 2] {
    [byte >> 4, byte & 0xF].map(|number| b"0123456789ABCDEF"[usize::from(number)])
}

/// By the number that the label spells, so that a sorted list reads in order.
impl Ord for Eui64 {
    fn cmp(&self, other: &Self) -> Ordering {
        u64::from(*self).cmp(&u64::from(*other))
    }
}

impl PartialOrd for Eui64 {
    fn partial_cmp(&self, other: &Self) -> Option<Ordering> {
        Some(self.cmp(other))
    }
}

/// The address whose label spells this number; its first wire byte is the lowest.
impl From<u64> for Eui64 {
    fn from(number: u64) -> Self {
        Self(number.to_le_bytes())
    }
}

impl From<Eui64> for u64 {
    fn from(address: Eui64) -> Self {
        Self::from_le_bytes(address.0)
    }
}

impl FromStr for Eui64 {
    type Err = HexError;

    fn from_str(text: &str) -> Result<Self, HexError> {
        let mut bytes: [u8; 8] = exactly(text)?;
        bytes.reverse();
        Ok(Self(bytes))
    }
}

/// A network key of 16 bytes. It is never printed, it is compared without an early exit, and it is wiped when dropped.
///
/// Wiped are the 16 bytes of the value itself. Not covered are what Rust copies when a value is moved, the two numbers that
/// a call hands to the codec, and the round keys that the codec leaves on the stack.
///
/// ```
/// use store_reader::Key;
///
/// let key: Key = "C0C1C2C3C4C5C6C7C8C9CACBCCCDCECF".parse().unwrap();
/// assert_eq!(key.bytes()[15], 0xCF);
/// assert_eq!(format!("{key:?}"), "Key(..)");
/// ```
#[derive(Clone)]
pub struct Key([u8; 16]);

impl Key {
    /// The key with these bytes.
    #[must_use]
    pub const fn new(bytes: [u8; 16]) -> Self {
        Self(bytes)
    }

    /// The key's bytes.
    #[must_use]
    pub const fn bytes(&self) -> &[u8; 16] {
        &self.0
    }

    /// The key's bytes, for a C function to fill in.
    pub(crate) fn bytes_mut(&mut self) -> &mut [u8; 16] {
        &mut self.0
    }

    /// The two numbers that the C functions take, the first byte lowest.
    pub(crate) fn halves(&self) -> (u64, u64) {
        let whole = u128::from_le_bytes(self.0);
        (whole as u64, (whole >> 64) as u64)
    }

    /// Overwrites the bytes with zeros; volatile, so that the compiler does not leave it out.
    fn wipe(&mut self) {
        for byte in &mut self.0 {
            // SAFETY: the reference is to a byte of this value.
            unsafe { core::ptr::write_volatile(byte, 0) };
        }
        compiler_fence(Fence::SeqCst);
    }
}

impl Drop for Key {
    fn drop(&mut self) {
        self.wipe();
    }
}

/// All bytes are looked at, whichever of them differ.
impl PartialEq for Key {
    fn eq(&self, other: &Self) -> bool {
        let pairs = self.0.iter().zip(&other.0);
        let differences = pairs.fold(0, |differences, (a, b)| black_box(differences | (a ^ b)));
        differences == 0
    }
}

impl Eq for Key {}

impl fmt::Debug for Key {
    fn fmt(&self, f: &mut fmt::Formatter<'_>) -> fmt::Result {
        f.write_str("Key(..)")
    }
}

impl FromStr for Key {
    type Err = HexError;

    fn from_str(text: &str) -> Result<Self, HexError> {
        exactly(text).map(Self)
    }
}

/// Why a text is not the bytes expected.
#[derive(Debug, Clone, PartialEq, Eq)]
pub enum HexError {
    /// A character that is no hexadecimal digit.
    Digit {
        /// Its column, the first being 1.
        column: usize,
        /// The character.
        character: char,
    },
    /// The number of digits is odd.
    Odd {
        /// How many digits there are.
        digits: usize,
    },
    /// Another number of bytes than expected.
    Length {
        /// How many bytes the text has.
        bytes: usize,
        /// How many there should be, or at most can be.
        expected: usize,
    },
}

impl fmt::Display for HexError {
    fn fmt(&self, f: &mut fmt::Formatter<'_>) -> fmt::Result {
        match self {
            Self::Digit { column, character } => {
                write!(f, "column {column}: {character:?} is no hexadecimal digit")
            }
            Self::Odd { digits } => write!(f, "an odd number of hexadecimal digits, {digits}"),
            Self::Length { bytes: 1, expected } => write!(f, "1 byte where {expected} are expected"),
            Self::Length { bytes, expected } => write!(f, "{bytes} bytes where {expected} are expected"),
        }
    }
}

impl core::error::Error for HexError {}

/// Puts the bytes of hexadecimal digits at the front of the output, and gives how many they are. Blanks, colons and commas
/// between digits are passed over, and so is `0x` in front of them.
///
/// ```
/// use store_reader::hex;
///
/// let mut out = [0; 118];
/// let n = hex("08 00:1e07", &mut out)?;
/// assert_eq!(out[..n], [0x08, 0x00, 0x1E, 0x07]);
/// assert_eq!(hex("0x08, 0x001E", &mut out)?, 3);
/// assert_eq!(hex("08 0", &mut out).unwrap_err().to_string(), "an odd number of hexadecimal digits, 3");
/// assert_eq!(hex("0g", &mut out).unwrap_err().to_string(), "column 2: 'g' is no hexadecimal digit");
/// # Ok::<(), store_reader::HexError>(())
/// ```
///
/// # Errors
///
/// A character that is no digit, an odd number of digits, or more bytes than the output has.
pub fn hex(text: &str, out: &mut [u8]) -> Result<usize, HexError> {
    let mut digits = 0;
    let mut characters = text.chars().enumerate().peekable();
    let mut starts = true;
    while let Some((at, character)) = characters.next() {
        if starts && character == '0' && characters.next_if(|(_, next)| matches!(next, 'x' | 'X')).is_some() {
            starts = false;
            continue;
        }
        match character.to_digit(16) {
            Some(digit) => {
                if let Some(byte) = out.get_mut(digits / 2) {
                    *byte = if digits % 2 == 0 { (digit as u8) << 4 } else { *byte | digit as u8 };
                }
                digits += 1;
                starts = false;
            }
            None if character.is_whitespace() || matches!(character, ':' | ',') => starts = true,
            None => return Err(HexError::Digit { column: at + 1, character }),
        }
    }
    match digits / 2 {
        _ if digits % 2 == 1 => Err(HexError::Odd { digits }),
        bytes if bytes > out.len() => Err(HexError::Length { bytes, expected: out.len() }),
        bytes => Ok(bytes),
    }
}

/// As many bytes as the type has.
fn exactly<const N: usize>(text: &str) -> Result<[u8; N], HexError> {
    let mut bytes = [0; N];
    match hex(text, &mut bytes)? {
        n if n == N => Ok(bytes),
        n => Err(HexError::Length { bytes: n, expected: N }),
    }
}
