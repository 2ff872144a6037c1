//! Why something was refused: a number of the list, and its condition in words.
use core::error::Error;
use core::fmt;

/// The list's names, numbers and conditions, each said once; number 1 first.
macro_rules! refusals {
    ($($name:ident = $number:literal, $condition:literal;)+) => {
        impl Refusal {
            $(
                #[doc = concat!(stringify!($number), ": ", $condition, ".")]
                pub const $name: Self = Self($number);
            )+
        }

        /// Each refusal with its name in the list.
        const LIST: &[(Refusal, &str, &str)] = &[$((Refusal::$name, stringify!($name), $condition)),+];
    };
}

refusals! {
    TOO_LONG = 1, "a frame, or the bytes given to read a header or an auxiliary header, are more than 118; or authenticated data or a payload handed to CCM alone is more than 127";
    SHORT_HEADER = 2, "a header has fewer than 8 bytes";
    FRAME_TYPE = 3, "the frame type is 2";
    DISCOVERY = 4, "discovery is 3";
    DESTINATION_IEEE = 5, "fewer than 8 bytes remain for a destination IEEE";
    SOURCE_IEEE = 6, "fewer than 8 bytes remain for a source IEEE";
    MULTICAST = 7, "no byte remains for multicast control";
    SOURCE_ROUTE = 8, "a source route has fewer than 2 + 2n bytes for its n relays, or fewer than 2";
    SHORT_AUXILIARY = 9, "an auxiliary header has fewer than 6 bytes";
    SHORT_EXTENDED = 10, "an auxiliary header with extended nonce has 6 to 12 bytes";
    NO_KEY_SEQUENCE = 11, "an auxiliary header with extended nonce has exactly 13 bytes";
    PAYLOAD = 12, "an unsecured payload, or a command to read, has more than 108 bytes";
    FIELD = 13, "a field to write exceeds its bits or has an undeclared code, or a list exceeds its places";
    NO_AUXILIARY = 14, "sealing has no auxiliary header";
    NO_IEEE = 15, "sealing or opening has neither an auxiliary nor a header source IEEE";
    NO_MIC = 16, "ciphertext with MIC has fewer bytes than the tag";
    LENGTH = 17, "the bytes to write exceed 118 for a header or frame, or 108 for a payload, alone or in a frame";
    NO_ROOM = 18, "the lent output is shorter than what is to be written";
    WRONG_MIC = 19, "the MIC is not the one computed";
    BURST = 20, "a burst has more than 16 lengths, they do not add up to the bytes lent, the output is shorter than 108 times their number, or the list for the answers is shorter than their number";
    LAST_COUNTER = 21, "the counter to be sealed is FFFFFFFF";
    KEY_SEQUENCE = 22, "the key sequence number is not the active one";
    FRAME_COUNTER = 23, "the frame counter is FFFFFFFF or not above the sender's stored one";
    NO_PLACE = 24, "the sender is new and no place is free, or a journal names more senders than 64 or than the list has places";
    JOURNAL_KIND = 25, "a record of a journal, or the one to be written, has a kind that is not 1 to 3";
    COUNTERS_USED_UP = 26, "the last counter is FFFFFFFE or above";
    NO_CEILING = 27, "no complete ceiling record of the journal covers the next counter";
    PRESENCE_BITS = 28, "one of bits 8, 10, 11 and 12 of frame control disagrees with its field, or in sealing bit 9 is off or the extended nonce bit disagrees with the auxiliary IEEE";
    LEVEL = 29, "the network's level is not 5, 6 or 7";
}

/// A refusal. Nothing that was lent to the operation has changed.
///
/// ```
/// use store_reader::{read, Refusal};
///
/// let refusal = read(&[0x08, 0x00, 0x00]).unwrap_err();
/// assert_eq!(refusal.number(), 2);
/// assert_eq!(refusal.to_string(), "refused by 2: a header has fewer than 8 bytes");
/// assert_eq!(Refusal::all().count(), 29);
///
/// let why = match refusal {
///     Refusal::WRONG_MIC => "damaged, or another key",
///     Refusal::TOO_LONG | Refusal::SHORT_HEADER => "no NWK frame",
///     _ => "another reason",
/// };
/// assert_eq!(why, "no NWK frame");
/// ```
#[derive(Clone, Copy, PartialEq, Eq, PartialOrd, Ord, Hash)]
pub struct Refusal(u8);

impl Refusal {
    /// Not an answer of the codec and not in the list: the codec filled in a code or a mark that this crate does not know, so
    /// the archive is not the one that the crate was written for. The number is 255.
    pub const INTERNAL: Self = Self(u8::MAX);

    /// The refusal with this number, if the list has it.
    #[must_use]
    pub fn from_number(number: u8) -> Option<Self> {
        Self::all().find(|refusal| refusal.0 == number)
    }

    /// Every refusal of the list, in order.
    pub fn all() -> impl Iterator<Item = Self> {
        LIST.iter().map(|(refusal, _, _)| *refusal)
    }

    /// The number in the list.
    #[must_use]
    pub const fn number(self) -> u8 {
        self.0
    }

    /// The name of the constant, as in `Refusal::WRONG_MIC`.
    #[must_use]
    pub fn name(self) -> &'static str {
        self.listed().map_or("INTERNAL", |(name, _)| name)
    }

    /// The condition that was met, in words.
    #[must_use]
    pub fn condition(self) -> &'static str {
        self.listed().map_or("the codec answered what this crate does not know", |(_, condition)| condition)
    }

    fn listed(self) -> Option<(&'static str, &'static str)> {
        LIST.iter().find(|(refusal, _, _)| *refusal == self).map(|(_, name, condition)| (*name, *condition))
    }
}

impl fmt::Display for Refusal {
    fn fmt(&self, f: &mut fmt::Formatter<'_>) -> fmt::Result {
        match *self {
            Self::INTERNAL => write!(f, "internal error: {}", self.condition()),
            _ => write!(f, "refused by {}: {}", self.0, self.condition()),
        }
    }
}

/// The name and the number, as in `WRONG_MIC(19)`.
impl fmt::Debug for Refusal {
    fn fmt(&self, f: &mut fmt::Formatter<'_>) -> fmt::Result {
        write!(f, "{}({})", self.name(), self.0)
    }
}

impl Error for Refusal {}

/// The length in a C function's answer, or its refusal.
pub(crate) fn length(answer: u64) -> Result<usize, Refusal> {
    let low = answer.to_le_bytes();
    accepted(low[4])?;
    Ok(u32::from_le_bytes([low[0], low[1], low[2], low[3]]) as usize)
}

/// Whether an answer of opening has the mark of a clear frame: bit 40.
pub(crate) fn is_clear(answer: u64) -> bool {
    answer >> 40 & 1 == 1
}

/// Whether an answer of noting has the mark of a known sender, or one of recovery that of a key number: bit 41.
pub(crate) fn is_known(answer: u64) -> bool {
    answer >> 41 & 1 == 1
}

/// The key number in an answer of recovery: bits 48 to 55.
pub(crate) fn key_number(answer: u64) -> u8 {
    answer.to_le_bytes()[6]
}

/// The refusal with a number that the codec gave; 0 is none.
pub(crate) fn accepted(number: u8) -> Result<(), Refusal> {
    match number {
        0 => Ok(()),
        _ => Err(Refusal(number)),
    }
}
