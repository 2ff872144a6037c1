//! Numbers and bytes of a capture.
use std::io::{self, Read};

/// No radio frame is nearly as long; a record that claims more is none.
pub const LONGEST_RECORD: usize = 65_535;

/// In which order a capture has the bytes of a number.
#[derive(Debug, Clone, Copy, PartialEq)]
pub enum Order {
    Little,
    Big,
}

/// The number of up to eight bytes.
pub fn long(bytes: &[u8], order: Order) -> u64 {
    let shifted = |number: u64, byte: &u8| number << 8 | u64::from(*byte);
    match order {
        Order::Little => bytes.iter().rev().fold(0, shifted),
        Order::Big => bytes.iter().fold(0, shifted),
    }
}

/// The number of up to four bytes.
pub fn number(bytes: &[u8], order: Order) -> u32 {
    long(bytes, order) as u32
}

/// Takes the next bytes into a buffer, and gives how many they are: fewer than it holds at the input's end.
pub fn take_into(input: &mut impl Read, buffer: &mut [u8]) -> Result<usize, String> {
    let mut filled = 0;
    while filled < buffer.len() {
        match input.read(&mut buffer[filled..]).map_err(|e| e.to_string())? {
            0 => break,
            n => filled += n,
        }
    }
    Ok(filled)
}

/// The next n bytes, fewer at the input's end.
pub fn take(input: &mut impl Read, n: usize) -> Result<Vec<u8>, String> {
    let mut bytes = vec![0; n];
    let filled = take_into(input, &mut bytes)?;
    bytes.truncate(filled);
    Ok(bytes)
}

/// Passes over the next n bytes; false if the input ends before.
pub fn skip(input: &mut impl Read, n: u64) -> Result<bool, String> {
    let skipped = io::copy(&mut input.by_ref().take(n), &mut io::sink()).map_err(|e| e.to_string())?;
    Ok(skipped == n)
}
