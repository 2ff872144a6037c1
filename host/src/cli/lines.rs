//! Frames in hexadecimal digits, one a line or in the lines of a dump.
use super::bytes::LONGEST_RECORD;
use super::interrupt::is_interrupted;
use std::io::{self, BufRead};
use store_reader::hex;

/// The most bytes of a line. A frame takes some hundred; of a longer line nothing is kept.
const LONGEST_LINE: usize = 65_535;

/// A line's number and text, none if it is too long.
type Line = (u64, Option<String>);

/// The lines of an input.
#[derive(Default)]
pub struct Lines {
    count: u64,
    /// A line that was looked at and is still to be taken.
    next: Option<Line>,
    /// The first line with an offset in front.
    pub first_offset: Option<u64>,
    /// The last frame came in a dump.
    pub in_dump: bool,
    /// The next dump is of something else than a frame.
    no_frame: bool,
}

/// What some programs put in front of a text in UTF-8.
const BYTE_ORDER_MARK: &[u8] = b"\xEF\xBB\xBF";

/// The bytes of a line, or why they cannot be read.
pub type Bytes = Result<Vec<u8>, String>;

impl Lines {
    /// The next frame and the number of its line, none at the input's end.
    pub fn next(&mut self, input: &mut impl BufRead) -> io::Result<Option<(u64, Bytes)>> {
        while let Some((number, line)) = self.line(input)? {
            let Some(line) = line else {
                return Ok(Some((number, Err(format!("the line has more than {LONGEST_LINE} bytes")))));
            };
            let text = content(&line);
            self.in_dump = false;
            match (text, dump_line(text)) {
                ("", _) => {}
                ("-", _) => return Ok(Some((number, Ok(Vec::new())))),
                (_, Some((0, bytes))) => {
                    let dump = self.dump(number, bytes, input)?;
                    self.in_dump = true;
                    if !std::mem::take(&mut self.no_frame) {
                        return Ok(Some(dump));
                    }
                }
                _ if is_title(text) => self.no_frame = !text.starts_with("Frame ("),
                _ => return Ok(Some((number, digits(&line)))),
            }
        }
        Ok(None)
    }

    /// The number of the line that is read next.
    pub fn number(&self) -> u64 {
        self.count + 1
    }

    /// The rest of a dump: the lines whose offset is the number of bytes so far. Some programs end with that offset alone.
    fn dump(&mut self, number: u64, mut bytes: Vec<u8>, input: &mut impl BufRead) -> io::Result<(u64, Bytes)> {
        self.first_offset.get_or_insert(number);
        let mut length = bytes.len();
        while let Some((next, line)) = self.line(input)? {
            let text = line.as_deref().map_or("", content);
            if offset(text) == Some(length) {
                break;
            }
            match dump_line(text) {
                Some((offset, more)) if offset == length && offset > 0 => {
                    length += more.len();
                    bytes.extend(more.iter().filter(|_| length <= LONGEST_RECORD));
                }
                Some((offset, _)) if offset > 0 => {
                    let why = format!("offset {offset:04X} where {length:04X} is expected");
                    return Ok((next, Err(why)));
                }
                _ => {
                    self.next = Some((next, line));
                    break;
                }
            }
        }
        match length > LONGEST_RECORD {
            true => Ok((number, Err(format!("a dump of {length} bytes is no frame")))),
            false => Ok((number, Ok(bytes))),
        }
    }

    fn line(&mut self, input: &mut impl BufRead) -> io::Result<Option<Line>> {
        if let Some(line) = self.next.take() {
            return Ok(Some(line));
        }
        let mut bytes = Vec::new();
        if part(input, &mut bytes)? == 0 {
            return Ok(None);
        }
        if is_interrupted() && !bytes.ends_with(b"\n") {
            return Ok(None);
        }
        self.count += 1;
        if bytes.len() <= LONGEST_LINE || bytes.ends_with(b"\n") {
            if self.count == 1 && bytes.starts_with(BYTE_ORDER_MARK) {
                bytes.drain(..BYTE_ORDER_MARK.len());
            }
            return Ok(Some((self.count, Some(String::from_utf8_lossy(&bytes).into_owned()))));
        }
        while !bytes.ends_with(b"\n") {
            bytes.clear();
            if part(input, &mut bytes)? == 0 {
                break;
            }
        }
        Ok(Some((self.count, None)))
    }
}

/// Reads up to a line's end, or one byte more than a line may have.
fn part(input: &mut impl BufRead, bytes: &mut Vec<u8>) -> io::Result<usize> {
    io::Read::take(input, LONGEST_LINE as u64 + 1).read_until(b'\n', bytes)
}

/// What tshark puts above the dumps of a frame and of what it made of it, where there are several: `Frame (53 bytes):`.
fn is_title(text: &str) -> bool {
    text.ends_with(" bytes):") || text.ends_with(" byte):")
}

/// A line without its comment and the blanks around it.
fn content(line: &str) -> &str {
    line.split('#').next().unwrap_or("").trim()
}

fn digits(line: &str) -> Bytes {
    let text = line.split('#').next().unwrap_or("").trim_end();
    let mut bytes = vec![0; text.len() / 2 + 1];
    let n = hex(text, &mut bytes).map_err(|e| e.to_string())?;
    bytes.truncate(n);
    Ok(bytes)
}

/// A line as tshark, hexdump, od and xxd print it: an offset, up to 16 bytes, and perhaps the same as characters. Those stand
/// behind three blanks or a bar; for xxd, which has a colon behind the offset and may join two bytes, behind two blanks.
fn dump_line(text: &str) -> Option<(usize, Vec<u8>)> {
    let (first, behind) = text.split_once(char::is_whitespace)?;
    let behind = behind.trim_start();
    let (number, shown, joined) = match first.strip_suffix(':') {
        Some(number) => (number, behind.split("  ").next(), true),
        None => (first, behind.split("   ").next().and_then(|shown| shown.split('|').next()), false),
    };
    let offset = offset(number)?;
    let mut bytes = Vec::new();
    for word in shown.unwrap_or("").split_whitespace() {
        match word.len() {
            _ if word.starts_with('+') => return None,
            2 => bytes.push(u8::from_str_radix(word, 16).ok()?),
            4 if joined => bytes.extend(u16::from_str_radix(word, 16).ok()?.to_be_bytes()),
            _ => return None,
        }
    }
    (1..=16).contains(&bytes.len()).then_some((offset, bytes))
}

/// An offset: four to eight digits and nothing else.
fn offset(text: &str) -> Option<usize> {
    let digits = (4..=8).contains(&text.len()) && text.chars().all(|digit| digit.is_ascii_hexdigit());
    usize::from_str_radix(text, 16).ok().filter(|_| digits)
}

#[cfg(test)]
mod tests {
    use super::*;

    #[test]
    fn lines_of_a_dump() {
        assert_eq!(dump_line("0000  08 00 1E"), Some((0, vec![0x08, 0x00, 0x1E])));
        assert_eq!(dump_line("00000010: 08 00"), Some((16, vec![0x08, 0x00])));
        assert_eq!(dump_line("00000000: 0800 1e  ..."), Some((0, vec![0x08, 0x00, 0x1E])));
        assert_eq!(dump_line("0000  61 88 ab   a.."), Some((0, vec![0x61, 0x88, 0xAB])));
        assert_eq!(dump_line("00000000  61 88  |a.|"), Some((0, vec![0x61, 0x88])));
        assert_eq!(dump_line("0800 0000 3412 1E07"), None);
        assert_eq!(dump_line("08 00 00 00"), None);
        assert_eq!(dump_line("080000003412"), None);
        assert_eq!(dump_line("0000  08 +0"), None);
    }

    /// Of a line without end nothing is kept, and the next one is read; one byte less is a line.
    #[test]
    fn a_line_has_an_end() {
        for (blanks, expected) in [(65_533, Ok(vec![8])), (65_534, Err("the line has more than 65535 bytes".into()))] {
            let text = format!("{}08\n09\n", " ".repeat(blanks));
            let mut input = text.as_bytes();
            let mut lines = Lines::default();
            assert_eq!(lines.next(&mut input).unwrap(), Some((1, expected)));
            assert_eq!(lines.next(&mut input).unwrap(), Some((2, Ok(vec![9]))));
            assert_eq!(lines.next(&mut input).unwrap(), None);
        }
    }

    /// A dump that goes on for ever is not kept either.
    #[test]
    fn a_dump_has_an_end() {
        let bytes = "00 ".repeat(16);
        let dump: String = (0..5000).map(|line| format!("{:08x}  {bytes}\n", line * 16)).collect();
        let text = dump + "09\n";
        let mut input = text.as_bytes();
        let mut lines = Lines::default();
        assert_eq!(lines.next(&mut input).unwrap(), Some((1, Err("a dump of 80000 bytes is no frame".to_string()))));
        assert_eq!(lines.next(&mut input).unwrap(), Some((5001, Ok(vec![9]))));
    }

    #[test]
    fn frames_and_dumps_one_behind_the_other() {
        let text = "08 00\n0000  01 02 03\n0003  04\n\n0000  05\n0007  06\n0x09,0x0A\n";
        let mut input = text.as_bytes();
        let mut lines = Lines::default();
        let mut found = Vec::new();
        while let Some(next) = lines.next(&mut input).unwrap() {
            found.push(next);
        }
        let wrong = Err("offset 0007 where 0001 is expected".to_string());
        let expected = [(1, Ok(vec![8, 0])), (2, Ok(vec![1, 2, 3, 4])), (6, wrong), (7, Ok(vec![9, 10]))];
        assert_eq!(found, expected);
        assert_eq!(lines.first_offset, Some(2));
    }

    /// tshark, given the key, has a dump of the frame and one of its payload; a byte order mark is no digit.
    #[test]
    fn titles_and_byte_order_marks() {
        let text = "\u{FEFF}08\nFrame (2 bytes):\n0000  01 02\nDecrypted ZigBee Payload (1 byte):\n0000  03\n\n\
                    Frame (1 bytes):\n0000  04\n";
        let (mut input, mut lines) = (text.as_bytes(), Lines::default());
        let mut found = Vec::new();
        while let Some((_, bytes)) = lines.next(&mut input).unwrap() {
            found.push((bytes.unwrap(), lines.in_dump));
        }
        assert_eq!(found, [(vec![8], false), (vec![1, 2], true), (vec![4], true)]);
    }
}
