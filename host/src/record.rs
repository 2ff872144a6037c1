//! Records of the C functions, taken and put field by field from the front.
use crate::{Eui64, List, Nwk, Refusal};

/// A record read from its front; behind its end every byte is 0.
pub(crate) struct Taker<'a> {
    bytes: &'a [u8],
    at: usize,
}

impl<'a> Taker<'a> {
    pub fn new(bytes: &'a [u8], at: usize) -> Self {
        Self { bytes, at }
    }

    pub fn byte(&mut self) -> u8 {
        let byte = self.bytes.get(self.at).copied().unwrap_or(0);
        self.at += 1;
        byte
    }

    pub fn bit(&mut self) -> bool {
        self.byte() == 1
    }

    pub fn word(&mut self) -> u16 {
        u16::from_le_bytes([self.byte(), self.byte()])
    }

    pub fn long(&mut self) -> u32 {
        u32::from_le_bytes([self.byte(), self.byte(), self.byte(), self.byte()])
    }

    pub fn address(&mut self) -> Nwk {
        Nwk(self.word())
    }

    pub fn eui64(&mut self) -> Eui64 {
        Eui64(core::array::from_fn(|_| self.byte()))
    }

    /// A field behind its presence byte.
    pub fn optional<T>(&mut self, take: impl Fn(&mut Self) -> T) -> Option<T> {
        let present = self.bit();
        let field = take(self);
        present.then_some(field)
    }

    /// A code of one byte. The codec gives declared ones only.
    pub fn code<T>(&mut self, from_code: impl Fn(u8) -> Option<T>) -> Result<T, Refusal> {
        from_code(self.byte()).ok_or(Refusal::INTERNAL)
    }

    /// A list behind its count.
    pub fn list<T: Copy + Default, const PLACES: usize>(
        &mut self,
        take: impl Fn(&mut Self) -> T,
    ) -> Result<List<T, PLACES>, Refusal> {
        let count = self.byte();
        self.entries(count, take)
    }

    /// So many entries. The codec gives no more than the list has places for.
    pub fn entries<T: Copy + Default, const PLACES: usize>(
        &mut self,
        count: u8,
        take: impl Fn(&mut Self) -> T,
    ) -> Result<List<T, PLACES>, Refusal> {
        let mut list = List::new();
        for _ in 0..count {
            list.push(take(self)).map_err(|_| Refusal::INTERNAL)?;
        }
        Ok(list)
    }
}

/// A record filled from its front; what is put behind its end is dropped.
pub(crate) struct Putter<'a> {
    bytes: &'a mut [u8],
    at: usize,
}

impl<'a> Putter<'a> {
    pub fn new(bytes: &'a mut [u8], at: usize) -> Self {
        Self { bytes, at }
    }

    pub fn byte(&mut self, byte: u8) {
        if let Some(place) = self.bytes.get_mut(self.at) {
            *place = byte;
        }
        self.at += 1;
    }

    pub fn bit(&mut self, bit: bool) {
        self.byte(u8::from(bit));
    }

    pub fn bytes(&mut self, bytes: &[u8]) {
        for byte in bytes {
            self.byte(*byte);
        }
    }

    pub fn address(&mut self, address: Nwk) {
        self.bytes(&address.0.to_le_bytes());
    }

    /// A field of some bytes behind its presence byte.
    pub fn optional<const N: usize>(&mut self, field: Option<[u8; N]>) {
        self.bit(field.is_some());
        self.bytes(&field.unwrap_or([0; N]));
    }

    /// A list's count. No list has places for more than 108 entries.
    pub fn count<T>(&mut self, list: &[T]) {
        self.byte(u8::try_from(list.len()).unwrap_or(u8::MAX));
    }

    /// A list's count and its entries.
    pub fn list<T>(&mut self, list: &[T], put: impl Fn(&mut Self, &T)) {
        self.count(list);
        for entry in list {
            put(self, entry);
        }
    }
}
