//! The bytes of an input: how many were taken, and where the record begins that is being read.
use super::interrupt::is_interrupted;
use std::cell::Cell;
use std::io::{self, BufRead, BufReader, Chain, Cursor, ErrorKind, Read};
use std::rc::Rc;

/// How many bytes were read, of how many where that is known.
#[derive(Clone, Default)]
pub struct Extent {
    pub read: Rc<Cell<u64>>,
    pub total: Option<u64>,
}

/// Counts what is read, and ends where the user wants the run to end.
struct Counted {
    input: Box<dyn Read>,
    read: Rc<Cell<u64>>,
}

impl Read for Counted {
    fn read(&mut self, buffer: &mut [u8]) -> io::Result<usize> {
        loop {
            if is_interrupted() {
                return Ok(0);
            }
            match self.input.read(buffer) {
                Err(e) if e.kind() == ErrorKind::Interrupted => {}
                Err(e) => return Err(e),
                Ok(n) => {
                    self.read.set(self.read.get() + n as u64);
                    return Ok(n);
                }
            }
        }
    }
}

/// An input behind the bytes of its front that were looked at.
pub struct Input {
    bytes: Chain<Cursor<Vec<u8>>, BufReader<Counted>>,
    extent: Extent,
    taken: u64,
    /// Where the record begins that is being read.
    start: u64,
}

impl Input {
    pub fn new(input: Box<dyn Read>, total: Option<u64>) -> Self {
        let extent = Extent { read: Rc::default(), total };
        let counted = Counted { input, read: Rc::clone(&extent.read) };
        Self { bytes: Cursor::new(Vec::new()).chain(BufReader::new(counted)), extent, taken: 0, start: 0 }
    }

    pub fn extent(&self) -> Extent {
        self.extent.clone()
    }

    /// Whether there is no byte at all.
    pub fn is_empty(&self) -> bool {
        self.extent.read.get() == 0
    }

    /// Puts the bytes that were looked at back to the front.
    pub fn put_back(&mut self, front: Vec<u8>) {
        self.taken -= front.len() as u64;
        let (_, behind) = std::mem::replace(&mut self.bytes, empty()).into_inner();
        self.bytes = Cursor::new(front).chain(behind);
    }

    /// The bytes that are there without waiting.
    pub fn at_hand(&self) -> &[u8] {
        self.bytes.get_ref().1.buffer()
    }

    /// A record begins here.
    pub fn begin(&mut self) {
        self.start = self.taken;
    }

    /// How many bytes there are from the beginning of the record to the end of the input.
    pub fn rest(&mut self) -> u64 {
        if let Some(total) = self.extent.total {
            return total.saturating_sub(self.start);
        }
        let start = self.start;
        // An input that cannot be read to its end has the bytes that could be.
        let _ = io::copy(self, &mut io::sink());
        self.taken - start
    }
}

fn empty() -> Chain<Cursor<Vec<u8>>, BufReader<Counted>> {
    let nothing = Counted { input: Box::new(io::empty()), read: Rc::default() };
    Cursor::new(Vec::new()).chain(BufReader::with_capacity(0, nothing))
}

impl Read for Input {
    fn read(&mut self, buffer: &mut [u8]) -> io::Result<usize> {
        let n = self.bytes.read(buffer)?;
        self.taken += n as u64;
        Ok(n)
    }
}

impl BufRead for Input {
    fn fill_buf(&mut self) -> io::Result<&[u8]> {
        self.bytes.fill_buf()
    }

    fn consume(&mut self, n: usize) {
        self.taken += n as u64;
        self.bytes.consume(n);
    }
}
