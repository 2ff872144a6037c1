//! The frame counters of those whose frames arrive, so that none is taken twice.
use crate::refusal::{is_known, length};
use crate::{sys, Eui64, Key, Refusal, MAX_SENDERS};
use core::fmt;

/// A place of a list of senders: free, or a sender with the counter that was noted last for it.
#[derive(Clone, Copy, Default)]
#[repr(C)]
pub struct SenderRecord {
    /// The long address as a number, its first wire byte lowest.
    address: u64,
    counter: u32,
    /// 0 where the place is free, whatever is left in it.
    used: u8,
}

impl SenderRecord {
    /// A free place.
    pub const FREE: Self = Self { address: 0, counter: 0, used: 0 };

    /// The place of a sender with this counter.
    #[must_use]
    pub fn new(sender: Eui64, counter: u32) -> Self {
        Self { address: sender.into(), counter, used: 1 }
    }

    /// The sender and its counter; none where the place is free.
    #[must_use]
    pub fn noted(&self) -> Option<(Eui64, u32)> {
        (self.used != 0).then_some((Eui64::from(self.address), self.counter))
    }
}

/// The sender and its counter, or that the place is free.
impl fmt::Debug for SenderRecord {
    fn fmt(&self, f: &mut fmt::Formatter<'_>) -> fmt::Result {
        match self.noted() {
            Some((sender, counter)) => f.debug_tuple("SenderRecord").field(&sender).field(&counter).finish(),
            None => f.write_str("SenderRecord(free)"),
        }
    }
}

/// What the places say: the same sender with the same counter, or both are free.
impl PartialEq for SenderRecord {
    fn eq(&self, other: &Self) -> bool {
        self.noted() == other.noted()
    }
}

impl Eq for SenderRecord {}

/// The senders whose frames were taken, each with its last counter: what a receiver asks before it takes a frame, and what it
/// notes when it has opened one.
///
/// [`Senders::new`] has places for [`MAX_SENDERS`], 1,024 bytes in all. [`Senders::lent`] uses a list that is kept elsewhere, as
/// long as it may be, of which only the first [`MAX_SENDERS`] places count. Where a list names a sender twice the first place
/// counts.
///
/// Note a counter only of a frame that was opened: one that anyone may have claimed would shut the sender out.
///
/// ```
/// use store_reader::{
///     open, seal, Eui64, Key, Network, Nwk, NwkAuxHeader, NwkFrameType, NwkHeader, OpenedFrame, Refusal, Senders,
///     MAX_FRAME, MAX_PAYLOAD,
/// };
///
/// /// The counter that the sender had before, or why the frame is not taken. Key sequence number 0 is the active one.
/// fn take(senders: &mut Senders, key: &Key, frame: &OpenedFrame<'_>) -> Result<Option<u32>, Refusal> {
///     let (sender, auxiliary) = (frame.nonce_ieee, &frame.auxiliary);
///     senders.inbound_network_key(key, 0, sender, auxiliary.key_sequence_number, auxiliary.frame_counter)?;
///     senders.note_inbound_frame_counter(sender, auxiliary.frame_counter)
/// }
///
/// let network = Network::new("C0C1C2C3C4C5C6C7C8C9CACBCCCDCECF".parse().unwrap());
/// let probe: Eui64 = "00:12:4B:00:1C:A1:B2:C3".parse().unwrap();
/// let header = NwkHeader::new(NwkFrameType::Data, Nwk(0x7A10), Nwk(0x0000)).secured();
/// let mut frame = [0; MAX_FRAME];
/// let n = seal(&network, &header, Some(&NwkAuxHeader::new(74565, probe)), b"21.5 C", &mut frame)?;
///
/// let mut out = [0; MAX_PAYLOAD];
/// let opened = open(&network, &frame[..n], &mut out)?.sealed().expect("a sealed frame");
/// let mut senders = Senders::new();
/// assert_eq!(take(&mut senders, &network.key, &opened), Ok(None));
///
/// // The same frame again is a replay. It opens, and is refused by 23.
/// assert_eq!(take(&mut senders, &network.key, &opened), Err(Refusal::FRAME_COUNTER));
///
/// // Under the next counter another frame is taken. A probe that was forgotten is new again.
/// let n = seal(&network, &header, Some(&NwkAuxHeader::new(74566, probe)), b"21.7 C", &mut frame)?;
/// let mut out = [0; MAX_PAYLOAD];
/// let next = open(&network, &frame[..n], &mut out)?.sealed().expect("a sealed frame");
/// assert_eq!(take(&mut senders, &network.key, &next), Ok(Some(74565)));
/// senders.forget(probe);
/// assert_eq!(take(&mut senders, &network.key, &next), Ok(None));
/// # Ok::<(), Refusal>(())
/// ```
#[derive(Debug, Clone)]
pub struct Senders<Places = [SenderRecord; MAX_SENDERS]> {
    places: Places,
}

impl Senders {
    /// A list of [`MAX_SENDERS`] free places, which is kept in the value itself.
    #[must_use]
    pub const fn new() -> Self {
        Self { places: [SenderRecord::FREE; MAX_SENDERS] }
    }
}

impl Default for Senders {
    fn default() -> Self {
        Self::new()
    }
}

impl<'a> Senders<&'a mut [SenderRecord]> {
    /// The senders of a lent list.
    ///
    /// ```
    /// use store_reader::{Eui64, Refusal, SenderRecord, Senders};
    ///
    /// let (probe, router) = (Eui64::from(1), Eui64::from(2));
    /// let mut list = [SenderRecord::FREE; 1];
    /// let mut senders = Senders::lent(&mut list);
    /// assert_eq!(senders.note_inbound_frame_counter(probe, 7), Ok(None));
    /// assert_eq!(senders.note_inbound_frame_counter(probe, 3), Ok(Some(7)));
    /// assert_eq!(senders.note_inbound_frame_counter(router, 1), Err(Refusal::NO_PLACE));
    /// assert_eq!(list, [SenderRecord::new(probe, 3)]);
    /// ```
    #[must_use]
    pub fn lent(places: &'a mut [SenderRecord]) -> Self {
        Self { places }
    }
}

impl<Places: AsRef<[SenderRecord]>> Senders<Places> {
    /// Every place of the list, also those past the first [`MAX_SENDERS`].
    #[must_use]
    pub fn records(&self) -> &[SenderRecord] {
        self.places.as_ref()
    }
}

impl<Places: AsMut<[SenderRecord]>> Senders<Places> {
    /// The key of a frame that arrived, which is the active one. Asking leaves the list as it was.
    ///
    /// The counter of an unknown sender is not compared.
    ///
    /// # Errors
    ///
    /// Refusal 22 if the key sequence number is not the active one, then 23 if the counter is [`u32::MAX`] or not above the one
    /// that is stored for the sender.
    pub fn inbound_network_key(
        &mut self,
        key: &Key,
        active_key_sequence_number: u8,
        sender: Eui64,
        key_sequence_number: u8,
        frame_counter: u32,
    ) -> Result<Key, Refusal> {
        let (first, second) = key.halves();
        let places = self.places.as_mut();
        let mut given = Key::new([0; 16]);
        // SAFETY: the pointer goes with the number of its places, a place has the layout of a sender record, the key has its 16
        // places, and they do not overlap.
        let answer = unsafe {
            sys::nwk_inbound_network_key(
                first,
                second,
                active_key_sequence_number,
                places.as_mut_ptr(),
                places.len(),
                sender.into(),
                key_sequence_number,
                frame_counter,
                given.bytes_mut(),
            )
        };
        match length(answer)? {
            16 => Ok(given),
            _ => Err(Refusal::INTERNAL),
        }
    }

    /// Notes the counter of a frame that was opened, and gives the sender's earlier one, or none if the sender is new. It then
    /// has the first free place. A lower counter takes the place of the earlier one too, and after [`u32::MAX`] every frame of
    /// the sender is refused by 23.
    ///
    /// # Errors
    ///
    /// Refusal 24 if the sender is new and no place is free.
    pub fn note_inbound_frame_counter(&mut self, sender: Eui64, frame_counter: u32) -> Result<Option<u32>, Refusal> {
        let places = self.places.as_mut();
        // SAFETY: the pointer goes with the number of its places, and a place has the layout of a sender record.
        let answer = unsafe {
            sys::nwk_note_inbound_frame_counter(places.as_mut_ptr(), places.len(), sender.into(), frame_counter)
        };
        // A counter has the 32 bits of a length.
        let earlier = length(answer)? as u32;
        Ok(is_known(answer).then_some(earlier))
    }

    /// Forgets a sender: every place that names it becomes free, for the next new one. Nothing changes if it is unknown.
    pub fn forget(&mut self, sender: Eui64) {
        let places = self.places.as_mut();
        // SAFETY: the pointer goes with the number of its places, and a place has the layout of a sender record. Nothing is
        // refused.
        let _ = unsafe { sys::nwk_forget_sender(places.as_mut_ptr(), places.len(), sender.into()) };
    }
}

impl<Places: AsMut<[SenderRecord]>> Senders<Places> {
    /// Every place, for a call that fills the list anew.
    pub(crate) fn places(&mut self) -> &mut [SenderRecord] {
        self.places.as_mut()
    }
}

/// The layout that `include/nwk.h` gives a sender record.
const _: () = assert!(
    size_of::<SenderRecord>() == 16
        && align_of::<SenderRecord>() == 8
        && core::mem::offset_of!(SenderRecord, counter) == 8
        && core::mem::offset_of!(SenderRecord, used) == 12
);
