//! A network's settings: its key and its security level.
use crate::{Key, Refusal};
use core::fmt;
use core::str::FromStr;

/// How many places a MIC has that is handed to or given by [`encrypt_ccm`](crate::encrypt_ccm), [`decrypt_ccm`](crate::decrypt_ccm)
/// and [`split_mic`](crate::split_mic), whatever the level. Those past its length are given as 0 and not read.
pub const MIC_PLACES: usize = 16;

/// The security level of a network, which fixes the length of the MIC. It is authenticated and never sent: a frame says level 0,
/// and who opens it at another level than it was sealed at is refused by 19, or by 16 where it is too short.
///
/// ```
/// use store_reader::{Level, Refusal};
///
/// assert_eq!(Level::from_number(6), Ok(Level::EncMic64));
/// assert_eq!(Level::from_number(4), Err(Refusal::LEVEL));
/// assert_eq!("7".parse(), Ok(Level::EncMic128));
/// assert_eq!(Level::ALL.map(Level::mic_length), [4, 8, 16]);
/// ```
#[derive(Debug, Clone, Copy, PartialEq, Eq, PartialOrd, Ord, Hash, Default)]
pub enum Level {
    /// Level 5, a MIC of 4 bytes: the level of most networks.
    #[default]
    EncMic32 = 5,
    /// Level 6, a MIC of 8 bytes.
    EncMic64 = 6,
    /// Level 7, a MIC of 16 bytes.
    EncMic128 = 7,
}

impl Level {
    /// Every level, the lowest first.
    pub const ALL: [Self; 3] = [Self::EncMic32, Self::EncMic64, Self::EncMic128];

    /// The level with this number.
    ///
    /// # Errors
    ///
    /// Refusal 29, as of a C function that is handed the number.
    pub fn from_number(number: u64) -> Result<Self, Refusal> {
        Self::ALL.into_iter().find(|level| u64::from(level.number()) == number).ok_or(Refusal::LEVEL)
    }

    /// The number: 5, 6 or 7.
    #[must_use]
    pub const fn number(self) -> u8 {
        self as u8
    }

    /// How many bytes the MIC has: 4, 8 or 16.
    #[must_use]
    pub const fn mic_length(self) -> usize {
        match self {
            Self::EncMic32 => 4,
            Self::EncMic64 => 8,
            Self::EncMic128 => 16,
        }
    }
}

/// The number.
impl fmt::Display for Level {
    fn fmt(&self, f: &mut fmt::Formatter<'_>) -> fmt::Result {
        self.number().fmt(f)
    }
}

/// The level whose number is written so: one digit.
impl FromStr for Level {
    type Err = Refusal;

    fn from_str(text: &str) -> Result<Self, Refusal> {
        match text.as_bytes() {
            [digit @ b'5'..=b'7'] => Self::from_number(u64::from(digit - b'0')),
            _ => Err(Refusal::LEVEL),
        }
    }
}

/// What a network's frames are sealed and opened with: its key and its level, together, so that no frame is sealed at one level and
/// opened at another.
///
/// ```
/// use store_reader::{Key, Level, Network};
///
/// let key: Key = "C0C1C2C3C4C5C6C7C8C9CACBCCCDCECF".parse().unwrap();
/// assert_eq!(Network::new(key.clone()).level, Level::EncMic32);
/// assert_eq!(Network::new(key.clone()).with_level(Level::EncMic64), Network { key, level: Level::EncMic64 });
/// ```
#[derive(Debug, Clone, PartialEq, Eq)]
pub struct Network {
    /// The network key.
    pub key: Key,
    /// The security level.
    pub level: Level,
}

impl Network {
    /// A network with this key at level 5, as most are.
    #[must_use]
    pub const fn new(key: Key) -> Self {
        Self { key, level: Level::EncMic32 }
    }

    /// The network at this level.
    #[must_use]
    pub fn with_level(mut self, level: Level) -> Self {
        self.level = level;
        self
    }

    /// The three numbers that the C functions take: the level, and the two of the key.
    pub(crate) fn numbers(&self) -> (u64, u64, u64) {
        let (first, second) = self.key.halves();
        (self.level.into(), first, second)
    }
}

/// The number that the C functions take.
impl From<Level> for u64 {
    fn from(level: Level) -> Self {
        Self::from(level.number())
    }
}
