//! Calls over a list of neighbours through the C boundary: the list and the output stand between guard bytes.
use super::guarded::Guarded;
use super::hex::hex;
use super::model::link_status::run;
use store_reader::sys;

/// A neighbour, in the 4 bytes that it has in a command record.
#[derive(Clone, Copy, PartialEq, Eq, Debug)]
pub struct Neighbour {
    pub address: u16,
    pub incoming: u8,
    pub outgoing: u8,
}

/// The bytes of a neighbour.
pub const NEIGHBOUR: usize = 4;

impl Neighbour {
    fn bytes(self) -> [u8; NEIGHBOUR] {
        let [low, high] = self.address.to_le_bytes();
        [low, high, self.incoming, self.outgoing]
    }
}

/// The slice of a list.
pub fn slice_of(list: &[Neighbour]) -> Vec<u8> {
    list.iter().flat_map(|neighbour| neighbour.bytes()).collect()
}

/// The whole neighbours of a slice.
pub fn list_of(slice: &[u8]) -> Vec<Neighbour> {
    let neighbour = |bytes: &[u8]| Neighbour {
        address: u16::from_le_bytes([bytes[0], bytes[1]]),
        incoming: bytes[2],
        outgoing: bytes[3],
    };
    slice.chunks_exact(NEIGHBOUR).map(neighbour).collect()
}

/// What is asked of a list.
#[derive(Clone, Copy, PartialEq, Eq, Debug)]
pub enum Request {
    /// How many pages it has.
    Count { page_size: u64 },
    /// One of them, in an output of so many bytes.
    Write { page_size: u64, page: u64, room: usize },
}

impl Request {
    /// The C function.
    pub fn name(&self) -> &'static str {
        match self {
            Self::Count { .. } => "nwk_link_status_pages",
            Self::Write { .. } => "nwk_write_link_status_page",
        }
    }

    /// The numbers that it can answer, in their order, which `link_status.rs` compares with the comments of `include/nwk.h`.
    pub fn refusals(&self) -> &'static [u8] {
        match self {
            Self::Count { .. } => &[13, 30, 31],
            Self::Write { .. } => &[13, 30, 31, 32, 18],
        }
    }

    pub fn page_size(&self) -> u64 {
        match *self {
            Self::Count { page_size } | Self::Write { page_size, .. } => page_size,
        }
    }

    fn room(&self) -> usize {
        match *self {
            Self::Count { .. } => 0,
            Self::Write { room, .. } => room,
        }
    }
}

/// What a call answered, and the bytes that it wrote.
#[derive(Clone, PartialEq, Eq, Debug)]
pub struct Done {
    pub answer: u64,
    pub written: Vec<u8>,
}

impl Done {
    pub fn refusal(&self) -> u8 {
        (self.answer >> 32) as u8
    }

    /// The length, or the number of pages.
    pub fn low(&self) -> u32 {
        self.answer as u32
    }
}

/// Makes a call with buffers between guards of the value `guard`. Afterwards the guards, the list and the output behind the bytes written
/// are unchanged, a refusal is one of the function's with nothing beside it, and the bits above the refusal are 0.
pub fn perform(request: &Request, slice: &[u8], guard: u8) -> Done {
    let fill = !guard;
    let given = Guarded::new(slice, guard);
    let mut out = Guarded::new(&vec![fill; request.room()], guard);
    let answer = through_c(request, &given, &mut out);
    let said = || line(request, slice);
    assert!(given.unchanged(), "the list or its guards changed: {}", said());
    assert!(out.guards_unchanged(), "guards changed: {}", said());
    let length = if matches!(request, Request::Write { .. }) { answer as u32 as usize } else { 0 };
    let (front, rest) = out.content().split_at_checked(length).unwrap_or_else(|| panic!("the length: {}", said()));
    assert!(rest.iter().all(|byte| *byte == fill), "the output's rest: {}", said());
    let done = Done { answer, written: front.to_vec() };
    assert_eq!(answer >> 40, 0, "bits above the refusal: {}", said());
    if done.refusal() != 0 {
        assert!(request.refusals().contains(&done.refusal()), "refusal {}: {}", done.refusal(), said());
        assert_eq!(done.low(), 0, "beside refusal {}: {}", done.refusal(), said());
    }
    done
}

/// Makes a call, and compares answer and output with the model.
pub fn compare(request: &Request, slice: &[u8], guard: u8) -> Done {
    let done = perform(request, slice, guard);
    let (answer, written) = run(request, slice);
    let said = || line(request, slice);
    assert!(done.answer == answer, "answered {:X}, expected {answer:X}: {}", done.answer, said());
    assert!(done.written == written, "wrote {:02X?}, expected {written:02X?}: {}", done.written, said());
    done
}

fn through_c(request: &Request, list: &Guarded, out: &mut Guarded) -> u64 {
    let (neighbours, length) = (list.pointer(), list.len());
    // SAFETY: each pointer is that of a live buffer of its length, and the two do not overlap.
    unsafe {
        match *request {
            Request::Count { page_size } => sys::nwk_link_status_pages(neighbours, length, page_size),
            Request::Write { page_size, page, room } => {
                sys::nwk_write_link_status_page(neighbours, length, page_size, page, out.pointer_mut(), room)
            }
        }
    }
}

/// The call as one line, for a report.
fn line(request: &Request, slice: &[u8]) -> String {
    format!("{request:X?} over {} bytes {}", slice.len(), hex(slice))
}
