//! What a receiver would not take though a key opens it: frames that came before, that are out of order, under another key
//! sequence number, or from more senders than it has places for.
use store_reader::{Eui64, Key, NwkAuxHeader, Refusal, Senders};

/// The refusals of opened frames.
const REFUSALS: [Refusal; 3] = [Refusal::KEY_SEQUENCE, Refusal::FRAME_COUNTER, Refusal::NO_PLACE];

/// Whether a frame that was refused so had been opened before.
pub fn was_opened(refusal: Refusal) -> bool {
    REFUSALS.contains(&refusal)
}

/// The active key sequence number, and the counters of the senders met so far.
pub struct Replays {
    active: u8,
    senders: Senders,
}

impl Replays {
    pub fn new(active: u8) -> Self {
        Self { active, senders: Senders::new() }
    }

    /// Asks for the key of an opened frame and notes its counter.
    pub fn take(&mut self, key: &Key, sender: Eui64, auxiliary: &NwkAuxHeader) -> Result<(), Refusal> {
        let counter = auxiliary.frame_counter;
        self.senders.inbound_network_key(key, self.active, sender, auxiliary.key_sequence_number, counter)?;
        self.senders.note_inbound_frame_counter(sender, counter)?;
        Ok(())
    }
}
