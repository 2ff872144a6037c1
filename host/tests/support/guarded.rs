//! A buffer inside a larger allocation: guard bytes before and behind it show a write out of bounds.

/// Guard bytes before the content, at least; up to 7 more so that every alignment is met.
const GUARD: usize = 24;

pub struct Guarded {
    before: Vec<u8>,
    now: Vec<u8>,
    start: usize,
    len: usize,
}

impl Guarded {
    /// Puts `content` between guard bytes of the value `guard`, which also chooses the alignment.
    pub fn new(content: &[u8], guard: u8) -> Self {
        Self::aligned(content, 1, guard)
    }

    /// The same at an address that is a multiple of `width`.
    pub fn aligned(content: &[u8], width: usize, guard: u8) -> Self {
        let least = GUARD + usize::from(guard % 8);
        let mut now = vec![guard; least + width + content.len() + GUARD];
        let start = least + now[least..].as_ptr().align_offset(width);
        now[start..start + content.len()].copy_from_slice(content);
        Self { before: now.clone(), now, start, len: content.len() }
    }

    pub fn len(&self) -> usize {
        self.len
    }

    pub fn pointer(&self) -> *const u8 {
        self.now[self.start..].as_ptr()
    }

    pub fn pointer_mut(&mut self) -> *mut u8 {
        self.now[self.start..].as_mut_ptr()
    }

    pub fn content(&self) -> &[u8] {
        &self.now[self.start..self.start + self.len]
    }

    /// Neither guard has changed.
    pub fn guards_unchanged(&self) -> bool {
        let end = self.start + self.len;
        self.now[..self.start] == self.before[..self.start] && self.now[end..] == self.before[end..]
    }

    /// Neither guard nor content has changed.
    pub fn unchanged(&self) -> bool {
        self.now == self.before
    }
}
