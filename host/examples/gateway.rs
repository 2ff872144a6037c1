//! The gateway's loop: the frames that the radio hands over at once are opened in one call, each sealed one is asked for by its
//! sender's last counter and noted, and what does not pass is counted by its number. What was noted goes into a journal at once, and
//! the frames are handed on when it is on disk: a cut in between loses them and lets none pass twice. Clear frames, which nothing
//! authenticates, go another way. After a power cut the journal still knows which frames were taken. Last a probe is replaced.
//!
//!   cargo run --release --example gateway
use std::collections::BTreeMap;
use std::path::Path;
use store_reader::{
    hex, open_burst, ClearFrame, Eui64, JournalError, JournalFile, Key, Network, NwkCommand, NwkPayload, Opened,
    OpenedFrame, OpenedRecord, Refusal, SenderRecord, Senders, MAX_BURST, MAX_BURST_OUTPUT, MAX_FRAME,
};

/// The number of the network key in use.
const ACTIVE_KEY_SEQUENCE_NUMBER: u8 = 0;

/// What the radio handed over: records 2, 3, 8, 3 again, 10 and 16 of `samples/store.pcap`, without their MAC headers.
const HEARD: [&str; 6] = [
    "0902FCFF00001E1528626001000100A11C004B1200006097DE8F51EB4C425C218EC0",
    "08020000107A1E072845230100C3B2A11C004B1200004A795E1A8A4667BBD5BA56CF422AFA679EC3DFE1",
    "08020000107A1E082846230100C3B2A11C004B120000E58EB3C5CEE3F5D7353DBD6B6D9D76DED5ECA18C",
    "08020000107A1E072845230100C3B2A11C004B1200004A795E1A8A4667BBD5BA56CF422AFA679EC3DFE1",
    "08000000449C1E02000102040401010218020A000029C607",
    "08020000107A1E0D284B230100C3B2A11C004B12000089413A1AB7E349F695D6D89B0AC7A3850567311A",
];

/// Outgoing counters are reserved so many at a time.
const STEP: u32 = 1000;

/// Each sender's last counter, in memory and on disk, why frames did not pass, and how many were clear.
struct Gateway {
    senders: Senders,
    journal: JournalFile,
    refused: BTreeMap<Refusal, u64>,
    clear: u64,
}

impl Gateway {
    /// Begins the journal, once in the gateway's life: a new one hands out counters from 1.
    fn install(journal: &Path) -> Result<(), JournalError> {
        JournalFile::create(journal, STEP, &mut Senders::new()).map(drop)
    }

    /// Starts with what the journal says.
    fn start(journal: &Path) -> Result<Self, JournalError> {
        let mut senders = Senders::new();
        let journal = JournalFile::open(journal, STEP, &mut senders)?;
        Ok(Self { senders, journal, refused: BTreeMap::new(), clear: 0 })
    }

    /// Takes a burst from the radio: its frames end to end, and their lengths. What was noted of all of them is on disk before any is
    /// handed on.
    fn receive(&mut self, network: &Network, frames: &[u8], lengths: &[u16]) -> Result<(), JournalError> {
        let mut answers = [OpenedRecord::new(); MAX_BURST];
        let mut out = [0; MAX_BURST_OUTPUT];
        let mut taken = Vec::new();
        for answer in open_burst(network, frames, lengths, &mut answers, &mut out)? {
            match answer.and_then(|opened| self.take(&network.key, opened)) {
                Ok(frame) => taken.extend(frame),
                Err(refusal) => self.refuse(refusal)?,
            }
        }
        let notes = taken.iter().map(|frame| (frame.nonce_ieee, frame.auxiliary.frame_counter));
        self.journal.note_senders(&notes.collect::<Vec<_>>())?;
        Ok(taken.iter().try_for_each(deliver)?)
    }

    /// Asks whether a sealed frame's key is the active one and its counter above its sender's last one, whose place it then takes. A
    /// clear frame has no counter: it is shown, and none is taken.
    fn take<'a>(&mut self, key: &Key, opened: Opened<'a>) -> Result<Option<OpenedFrame<'a>>, Refusal> {
        let frame = match opened {
            Opened::Sealed(frame) => frame,
            Opened::Clear(frame) => {
                self.clear += 1;
                return show_to_staff(&frame).map(|()| None);
            }
        };
        let (sender, counter) = (frame.nonce_ieee, frame.auxiliary.frame_counter);
        let number = frame.auxiliary.key_sequence_number;
        self.senders.inbound_network_key(key, ACTIVE_KEY_SEQUENCE_NUMBER, sender, number, counter)?;
        self.senders.note_inbound_frame_counter(sender, counter)?;
        Ok(Some(frame))
    }

    /// Forgets a probe that is gone for good, so that another can have its place, the journal's first: what it sent before would be
    /// taken once more.
    fn replace(&mut self, probe: Eui64) -> Result<(), JournalError> {
        self.journal.forget(probe)?;
        self.senders.forget(probe);
        let left = self.senders.records().iter().filter_map(SenderRecord::noted).count();
        println!("{probe} is replaced: {left} of 64 places taken");
        Ok(())
    }

    /// Counts a frame that does not pass.
    fn refuse(&mut self, refusal: Refusal) -> Result<(), Refusal> {
        *self.refused.entry(refusal).or_default() += 1;
        match refusal {
            // The archive is not the one of this crate: nothing it says can be used.
            Refusal::INTERNAL => return Err(refusal),
            Refusal::WRONG_MIC => println!("damaged, or under another network's key"),
            Refusal::FRAME_COUNTER => println!("heard before"),
            other => println!("{other}"),
        }
        Ok(())
    }

    /// Says what was counted, and which counter the next frame is sent with.
    fn report(&mut self) -> Result<(), JournalError> {
        for (refusal, count) in &self.refused {
            println!("{count} {refusal}");
        }
        println!("{} clear; the next outgoing counter is {}", self.clear, self.journal.next_counter()?);
        Ok(())
    }
}

/// Hands an authenticated payload on: a command is read, the rest goes to the layer above.
fn deliver(frame: &OpenedFrame<'_>) -> Result<(), Refusal> {
    let source = frame.header.source;
    match frame.header.frame_control.frame_type.payload()? {
        NwkPayload::Command => println!("{source}: {:?}", NwkCommand::read(frame.payload)?.command_id()),
        NwkPayload::Opaque => println!("{source}: {} bytes for the layer above", frame.payload.len()),
    }
    Ok(())
}

/// Shows a clear frame to the commissioning staff, and hands nothing on: anyone may have sent it.
fn show_to_staff(frame: &ClearFrame<'_>) -> Result<(), Refusal> {
    let source = frame.header.source;
    match frame.header.frame_control.frame_type.payload()? {
        NwkPayload::Command => println!("clear, from {source}: {:?}", NwkCommand::read(frame.payload)?.command_id()),
        NwkPayload::Opaque => {
            println!("clear, from {source}: {} bytes of a probe that has yet to join", frame.payload.len())
        }
    }
    Ok(())
}

fn main() -> Result<(), Box<dyn std::error::Error>> {
    // At level 5, as most networks are; `with_level` is for others.
    let network = Network::new("C0C1C2C3C4C5C6C7C8C9CACBCCCDCECF".parse()?);
    let (mut frames, mut lengths, mut end) = ([0; HEARD.len() * MAX_FRAME], [0; HEARD.len()], 0);
    for (text, length) in HEARD.iter().zip(&mut lengths) {
        let n = hex(text, &mut frames[end..])?;
        *length = u16::try_from(n)?;
        end += n;
    }
    let journal = std::env::temp_dir().join(format!("gateway-{}.journal", std::process::id()));
    Gateway::install(&journal)?;
    for start in ["the first start", "after a power cut, the same frames again"] {
        println!("{start}");
        let mut gateway = Gateway::start(&journal)?;
        gateway.receive(&network, &frames[..end], &lengths)?;
        gateway.report()?;
    }
    Gateway::start(&journal)?.replace("00:12:4B:00:1C:A1:B2:C3".parse()?)?;
    std::fs::remove_file(&journal)?;
    Ok(())
}
