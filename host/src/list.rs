//! A list that is held in place, since the library allocates nothing.
use core::fmt;
use core::hash::{Hash, Hasher};
use core::ops::{Deref, DerefMut};

/// A list of at most `PLACES` entries, which is what the codec's record has places for. It is used as the slice of its
/// entries.
///
/// ```
/// use store_reader::{Full, List, Nwk};
///
/// let mut relays: List<Nwk, 2> = List::new();
/// relays.push(Nwk(0x1234))?;
/// relays.push(Nwk(0x5678))?;
/// assert_eq!(relays[..], [Nwk(0x1234), Nwk(0x5678)]);
/// assert_eq!(relays.push(Nwk(0x9ABC)), Err(Full { places: 2 }));
/// assert_eq!(List::<u8, 3>::try_from(&[1, 2, 3, 4][..]), Err(Full { places: 3 }));
/// # Ok::<(), Full>(())
/// ```
#[derive(Clone, Copy)]
pub struct List<T, const PLACES: usize> {
    entries: [T; PLACES],
    count: usize,
}

/// A list has no place for another entry. Written, a list of more entries would be refused by 13.
#[derive(Debug, Clone, Copy, PartialEq, Eq)]
pub struct Full {
    /// How many entries the list has places for.
    pub places: usize,
}

impl fmt::Display for Full {
    fn fmt(&self, f: &mut fmt::Formatter<'_>) -> fmt::Result {
        write!(f, "the list has {} places and no more", self.places)
    }
}

impl core::error::Error for Full {}

impl<T: Copy + Default, const PLACES: usize> List<T, PLACES> {
    /// The empty list.
    #[must_use]
    pub fn new() -> Self {
        Self { entries: [T::default(); PLACES], count: 0 }
    }

    /// Puts an entry behind the others.
    ///
    /// # Errors
    ///
    /// [`Full`] where every place is taken; the list is then as it was.
    pub fn push(&mut self, entry: T) -> Result<(), Full> {
        let place = self.entries.get_mut(self.count).ok_or(Full { places: PLACES })?;
        *place = entry;
        self.count += 1;
        Ok(())
    }
}

impl<T: Copy + Default, const PLACES: usize> Default for List<T, PLACES> {
    fn default() -> Self {
        Self::new()
    }
}

impl<T, const PLACES: usize> Deref for List<T, PLACES> {
    type Target = [T];

    fn deref(&self) -> &[T] {
        self.entries.get(..self.count).unwrap_or(&[])
    }
}

impl<T, const PLACES: usize> DerefMut for List<T, PLACES> {
    fn deref_mut(&mut self) -> &mut [T] {
        self.entries.get_mut(..self.count).unwrap_or(&mut [])
    }
}

impl<T: Copy + Default, const PLACES: usize> TryFrom<&[T]> for List<T, PLACES> {
    type Error = Full;

    fn try_from(entries: &[T]) -> Result<Self, Full> {
        let mut list = Self::new();
        entries.iter().try_for_each(|entry| list.push(*entry))?;
        Ok(list)
    }
}

impl<'a, T, const PLACES: usize> IntoIterator for &'a List<T, PLACES> {
    type Item = &'a T;
    type IntoIter = core::slice::Iter<'a, T>;

    fn into_iter(self) -> Self::IntoIter {
        self.iter()
    }
}

impl<T: PartialEq, const PLACES: usize> PartialEq for List<T, PLACES> {
    fn eq(&self, other: &Self) -> bool {
        self[..] == other[..]
    }
}

impl<T: Eq, const PLACES: usize> Eq for List<T, PLACES> {}

impl<T: Hash, const PLACES: usize> Hash for List<T, PLACES> {
    fn hash<H: Hasher>(&self, state: &mut H) {
        self[..].hash(state);
    }
}

impl<T: fmt::Debug, const PLACES: usize> fmt::Debug for List<T, PLACES> {
    fn fmt(&self, f: &mut fmt::Formatter<'_>) -> fmt::Result {
        self[..].fmt(f)
    }
}
