//! The level of a network (Zigbee 4.5.1.1.1, the security levels with encryption and a MIC; document 02, request 9).

/// A level, and how many bytes its MIC has.
#[derive(Clone, Copy, PartialEq, Eq, Debug)]
pub struct Level {
    pub number: u8,
    pub mic: usize,
}

/// "The network's level, 5, 6 or 7, with a tag of 4, 8 or 16 bytes": ENC-MIC-32, ENC-MIC-64 and ENC-MIC-128.
pub const LEVELS: [Level; 3] = [Level { number: 5, mic: 4 }, Level { number: 6, mic: 8 }, Level { number: 7, mic: 16 }];

/// The level that is compared with the Rust.
pub const FIVE: Level = LEVELS[0];

/// "29 .. if the level is another."
pub fn of(number: u64) -> Result<Level, u8> {
    LEVELS.into_iter().find(|level| u64::from(level.number) == number).ok_or(29)
}
