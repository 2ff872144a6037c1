//! The network keys that frames are tried with.
use std::fs::File;
use std::io::Read;
use store_reader::{
    open, read, Eui64, Level, Network, NwkAuxHeader, NwkHeader, Opened, OpenedFrame, Refusal, MAX_PAYLOAD,
};

/// A key with the network's level, and the key sequence number that it goes with if one was given.
#[derive(Debug, Clone, PartialEq)]
pub struct NumberedKey {
    pub network: Network,
    pub sequence: Option<u8>,
}

impl NumberedKey {
    /// A key, or a key sequence number, a colon and a key, at a level. The key itself is not repeated in a message.
    pub fn parse(text: &str, level: Level) -> Result<Self, String> {
        let new = |key, sequence| Ok(Self { network: Network { key, level }, sequence });
        let whole = match text.parse() {
            Ok(key) => return new(key, None),
            Err(e) => Err(e.to_string()),
        };
        let Some((number, rest)) = text.split_once(':') else {
            return whole;
        };
        match (number.trim().parse(), rest.parse()) {
            (Ok(number), Ok(key)) => new(key, Some(number)),
            (Ok(_), Err(e)) => Err(format!("behind the key sequence number: {e}")),
            _ => whole,
        }
    }
}

/// The most bytes of a file of keys, far more than any has: a file without end is not read whole.
const LONGEST_FILE: u64 = 1 << 20;

/// The keys of a file: one a line, comments behind `#`.
pub fn of_file(path: &str, level: Level) -> Result<Vec<NumberedKey>, String> {
    let mut text = String::new();
    let read = File::open(path).and_then(|file| file.take(LONGEST_FILE + 1).read_to_string(&mut text));
    match read.map_err(|e| format!("{path}: {e}"))? as u64 {
        0..=LONGEST_FILE => {}
        _ => return Err(format!("{path}: more than {LONGEST_FILE} bytes are no file of keys")),
    }
    // Some programs put a byte order mark in front of a text.
    let text = text.strip_prefix('\u{FEFF}').unwrap_or(&text);
    let mut keys = Vec::new();
    for (number, line) in (1..).zip(text.lines()) {
        let line = line.split('#').next().unwrap_or("").trim();
        if !line.is_empty() {
            keys.push(NumberedKey::parse(line, level).map_err(|e| format!("{path}, line {number}: {e}"))?);
        }
    }
    match keys.is_empty() {
        true => Err(format!("{path}: the file has no key")),
        false => Ok(keys),
    }
}

/// A frame that was accepted.
pub enum Accepted {
    /// It was sealed, and this key opened it: its place among the keys, counted from 1.
    Sealed { header: NwkHeader, auxiliary: NwkAuxHeader, nonce_ieee: Eui64, payload: Vec<u8>, key: usize },
    /// It was clear, and no key was used.
    Clear { header: NwkHeader, payload: Vec<u8> },
}

impl Accepted {
    /// What opening gave under the key at a place.
    fn new(opened: Opened<'_>, place: usize) -> Self {
        match opened {
            Opened::Sealed(frame) => {
                let OpenedFrame { header, auxiliary, nonce_ieee, payload } = frame;
                Self::Sealed { header, auxiliary, nonce_ieee, payload: payload.to_vec(), key: place + 1 }
            }
            Opened::Clear(frame) => Self::Clear { header: frame.header, payload: frame.payload.to_vec() },
        }
    }
}

/// Opens a frame with the first key that does: those with the frame's key sequence number are tried first, then those
/// without a number, then the others. A clear frame is accepted whatever the key.
pub fn open_with(keys: &[NumberedKey], frame: &[u8]) -> Result<Accepted, Refusal> {
    let mut out = [0; MAX_PAYLOAD];
    for place in in_order(keys, frame) {
        match open(&keys[place].network, frame, &mut out) {
            Ok(opened) => return Ok(Accepted::new(opened, place)),
            Err(Refusal::WRONG_MIC) => {}
            // No other refusal depends on the key.
            Err(refusal) => return Err(refusal),
        }
    }
    Err(Refusal::WRONG_MIC)
}

/// Another level at which one of the keys opens a frame.
pub fn other_level(keys: &[NumberedKey], frame: &[u8]) -> Option<Level> {
    let opens = |level: &Level| {
        let at_level =
            |key: &NumberedKey| NumberedKey { network: key.network.clone().with_level(*level), ..key.clone() };
        open_with(&keys.iter().map(at_level).collect::<Vec<_>>(), frame).is_ok()
    };
    Level::ALL.into_iter().filter(|level| keys.iter().all(|key| key.network.level != *level)).find(opens)
}

fn in_order(keys: &[NumberedKey], frame: &[u8]) -> Vec<usize> {
    let mut places: Vec<usize> = (0..keys.len()).collect();
    if places.len() > 1 {
        let sequence =
            read(frame).ok().and_then(|frame| frame.auxiliary).map(|auxiliary| auxiliary.key_sequence_number);
        places.sort_by_key(|place| match keys[*place].sequence {
            number if number.is_some() && number == sequence => 0,
            None => 1,
            Some(_) => 2,
        });
    }
    places
}

#[cfg(test)]
mod tests {
    use super::*;

    const KEY: &str = "C0C1C2C3C4C5C6C7C8C9CACBCCCDCECF";

    #[test]
    fn keys_with_and_without_a_number() {
        let network = Network::new(KEY.parse().unwrap()).with_level(Level::EncMic64);
        let with = |sequence| Ok(NumberedKey { network: network.clone(), sequence });
        let parse = |text: &str| NumberedKey::parse(text, Level::EncMic64);
        assert_eq!(parse(KEY), with(None));
        assert_eq!(parse(&format!("0:{KEY}")), with(Some(0)));
        assert_eq!(parse(&format!("10: {KEY}")), with(Some(10)));
        let spaced = "C0:C1:C2:C3:C4:C5:C6:C7:C8:C9:CA:CB:CC:CD:CE:CF";
        assert_eq!(parse(spaced), with(None));
        assert_eq!(parse(&format!("255:{spaced}")), with(Some(255)));
        assert_eq!(parse(&format!("256:{KEY}")).unwrap_err(), "an odd number of hexadecimal digits, 35");
        let short = parse("1:C0C1").unwrap_err();
        assert_eq!(short, "behind the key sequence number: 2 bytes where 16 are expected");
    }
}
