//! What devices send and a sniffer hears: captures whose truth is known.
use super::command::KEY;
use super::random::Random;
use store_reader::{seal, Eui64, Network, Nwk, NwkAuxHeader, NwkFrameType, NwkHeader, MAX_FRAME};

const PAN: u16 = 0x1A62;

/// What became of a frame on its way to the sniffer.
#[derive(Clone, Copy, PartialEq, Eq, Debug)]
pub enum Fate {
    Lost,
    Damaged,
    Heard,
}

/// A frame that a device sealed and sent.
#[derive(Clone, Copy, Debug)]
pub struct Sent {
    pub counter: u32,
    /// Its sequence number, where the device made it too.
    pub sequence: Option<u8>,
    pub time: u64,
    pub fate: Fate,
    /// How often the device had restarted before.
    pub restarts: usize,
}

/// A device: its counter is reserved ahead, as a gateway's journal does it.
#[derive(Clone, Debug)]
pub struct Device {
    pub address: u64,
    pub short: u16,
    pub counter: u32,
    ceiling: u32,
    reserve: u32,
    sequence: u8,
    pub restarts: usize,
    pub sent: Vec<Sent>,
    /// What became of the frames that it made, whoever sent them to the sniffer.
    pub made: Vec<Fate>,
}

impl Device {
    pub fn new(number: u16, counter: u32, reserve: u32) -> Self {
        Self {
            address: 0x0012_4B00_0000_0000 + u64::from(number),
            short: number,
            counter,
            ceiling: counter + reserve,
            reserve,
            sequence: number as u8,
            restarts: 0,
            sent: Vec::new(),
            made: Vec::new(),
        }
    }

    /// The power was gone: the counter goes on behind what was reserved, and the sequence number anywhere.
    pub fn restart(&mut self, random: &mut Random) {
        (self.counter, self.ceiling) = (self.ceiling, self.ceiling + self.reserve);
        self.sequence = random.byte();
        self.restarts += 1;
    }

    /// The device forgot its counter.
    pub fn reset(&mut self, random: &mut Random) {
        (self.counter, self.ceiling) = (0, self.reserve);
        self.sequence = random.byte();
        self.restarts += 1;
    }

    fn next_counter(&mut self) -> u32 {
        self.counter += 1;
        if self.counter > self.ceiling {
            self.ceiling += self.reserve;
        }
        self.counter
    }

    /// The frames between the first and the last one that was heard, both included.
    pub fn stretch(&self) -> &[Sent] {
        let heard = |sent: &Sent| sent.fate == Fate::Heard;
        match (self.sent.iter().position(heard), self.sent.iter().rposition(heard)) {
            (Some(first), Some(last)) => &self.sent[first..=last],
            _ => &[],
        }
    }

    pub fn count(&self, fate: Fate) -> u64 {
        self.stretch().iter().filter(|sent| sent.fate == fate).count() as u64
    }

    /// How many frames were sent in its stretch and not received whole.
    pub fn lost(&self) -> u64 {
        self.count(Fate::Lost) + self.count(Fate::Damaged)
    }

    /// The same for the frames that it made, within those of which one was heard.
    pub fn made_and_lost(&self) -> u64 {
        let heard = |fate: &Fate| *fate == Fate::Heard;
        match (self.made.iter().position(heard), self.made.iter().rposition(heard)) {
            (Some(first), Some(last)) => self.made[first..=last].iter().filter(|fate| !heard(fate)).count() as u64,
            _ => 0,
        }
    }

    /// Counters that were passed over by a restart behind which the sequence number went on by chance, as if nothing had been: no
    /// rule can tell them from lost ones.
    pub fn hidden(&self) -> u64 {
        let mut hidden = 0;
        let mut last: Option<(Sent, u64)> = None;
        for sent in self.stretch().iter().filter(|sent| sent.fate == Fate::Heard) {
            if let (Some(sequence), Some((before, passed_on))) = (sent.sequence, last) {
                let missing = u64::from(sent.counter.saturating_sub(before.counter + 1)) - passed_on;
                let went_on = sequence.wrapping_sub(before.sequence.expect("its own")) == (missing + 1) as u8;
                hidden += if went_on && sent.restarts > before.restarts { missing } else { 0 };
            }
            match sent.sequence {
                Some(_) => last = Some((*sent, 0)),
                None => last.iter_mut().for_each(|(_, passed_on)| *passed_on += 1),
            }
        }
        hidden
    }
}

/// The air around a sniffer, and what it has heard.
pub struct Air {
    pub random: Random,
    /// Seconds since 1970.
    pub now: u64,
    records: Vec<(u64, Vec<u8>)>,
    network: Network,
}

impl Air {
    pub fn new(seed: u64, now: u64) -> Self {
        Self { random: Random::new(seed), now, records: Vec::new(), network: Network::new(KEY.parse().expect("a key")) }
    }

    /// A device sends a frame of its own.
    pub fn send(&mut self, device: &mut Device, fate: Fate) {
        let sequence = self.made(device, fate);
        self.sealed(device, device.short, Some(sequence), sequence, fate);
    }

    /// A frame of a device that only a router hears, which passes it on.
    pub fn send_through(&mut self, router: &mut Device, device: &mut Device, fate: Fate) {
        let sequence = self.made(device, fate);
        self.sealed(router, device.short, None, sequence, fate);
    }

    /// A frame that a device made and that no router passed on.
    pub fn lose_before(&mut self, device: &mut Device) {
        self.made(device, Fate::Lost);
    }

    fn made(&mut self, device: &mut Device, fate: Fate) -> u8 {
        device.sequence = device.sequence.wrapping_add(1);
        device.made.push(fate);
        device.sequence
    }

    fn sealed(&mut self, sealer: &mut Device, source: u16, own: Option<u8>, sequence: u8, fate: Fate) {
        let counter = sealer.next_counter();
        sealer.sent.push(Sent { counter, sequence: own, time: self.now, fate, restarts: sealer.restarts });
        if fate == Fate::Lost {
            return;
        }
        let mut header = NwkHeader::new(NwkFrameType::Data, Nwk(source), Nwk(0)).secured();
        header.sequence_number = sequence;
        let auxiliary = NwkAuxHeader::new(counter, Eui64::from(sealer.address));
        let mut frame = [0; MAX_FRAME];
        let n = seal(&self.network, &header, Some(&auxiliary), b"21.5 C", &mut frame).expect("a sealed frame");
        let mut mac = mac(sealer.short, counter as u8, &frame[..n]);
        if fate == Fate::Damaged {
            // A bit of the payload or the MIC, and not of the frame check sequence.
            let at = mac.len() - 3 - self.random.below(10);
            mac[at] ^= 1 << self.random.below(8);
        }
        self.records.push((self.now, mac));
    }

    /// The last record once more: its acknowledgement was lost.
    pub fn repeat(&mut self) {
        let last = self.records.last().expect("a record").1.clone();
        self.records.push((self.now, last));
    }

    /// The last two records change places, as two sniffers' clocks have it, if they came within a minute.
    pub fn exchange(&mut self) {
        if let [.., one, other] = &mut self.records[..] {
            if other.0 <= one.0 + 60 {
                std::mem::swap(&mut one.1, &mut other.1);
            }
        }
    }

    /// Somebody sends again one of the records so far.
    pub fn replay(&mut self) {
        let at = self.random.below(self.records.len());
        let record = self.records[at].1.clone();
        self.records.push((self.now, record));
    }

    /// The capture of all that was heard: pcap with frame check sequences.
    pub fn capture(&self) -> Vec<u8> {
        self.part(0, self.records.len())
    }

    pub fn records(&self) -> usize {
        self.records.len()
    }

    /// The capture of some of the records.
    pub fn part(&self, from: usize, to: usize) -> Vec<u8> {
        let mut capture = [0xA1B2_C3D4u32, 0x0004_0002, 0, 0, 65_535, 195].map(u32::to_le_bytes).concat();
        for (time, record) in &self.records[from..to] {
            let length = record.len() as u32;
            capture.extend([*time as u32, 0, length, length].map(u32::to_le_bytes).concat());
            capture.extend(record);
        }
        capture
    }
}

/// A MAC data frame with short addresses to the coordinator, and its FCS: CRC-16 of IEEE 802.15.4.
fn mac(source: u16, sequence: u8, nwk: &[u8]) -> Vec<u8> {
    let mut frame = vec![0x41, 0x88, sequence];
    frame.extend([PAN, 0, source].map(u16::to_le_bytes).concat());
    frame.extend(nwk);
    let crc = frame.iter().fold(0u16, |crc, byte| {
        (0..8).fold(crc ^ u16::from(*byte), |crc, _| if crc & 1 == 1 { crc >> 1 ^ 0x8408 } else { crc >> 1 })
    });
    frame.extend(crc.to_le_bytes());
    frame
}
