//! Lists of senders and what is asked of them: senders that a list names once, twice, only past its 64th place or only in what is
//! left in a free place, and counters beside the stored ones.
use crate::support::model::senders::COUNTED;
use crate::support::random::Random;
use crate::support::senders::{Record, Request};

/// The addresses of a sequence of calls: the lowest and the highest, some that differ in one bit, and others.
pub fn addresses(random: &mut Random) -> Vec<u64> {
    let near = random.number();
    let mut addresses = vec![0, u64::MAX, near];
    addresses.extend((0..4).map(|_| near ^ 1 << random.below(64)));
    addresses.extend((0..random.below(90)).map(|_| random.number()));
    addresses
}

/// A list of so many places. Some lists are full, some nearly, some hold many free places, and some name a few senders only.
pub fn list(places: usize, addresses: &[u64], random: &mut Random) -> Vec<Record> {
    let used = random.pick(&[100, 100, 97, 60, 20, 0]);
    let few = if random.bit() { random.between(1, addresses.len().min(6)) } else { addresses.len() };
    let mut list: Vec<Record> =
        (0..places).map(|_| record(random.percent(used), random.pick(&addresses[..few]), random)).collect();
    if random.bit() {
        name_behind(&mut list, addresses, random);
    }
    list
}

fn record(used: bool, address: u64, random: &mut Random) -> Record {
    match used {
        true => Record { used: if random.bit() { 1 } else { random.byte().max(1) }, address, counter: any(random) },
        // Zeros, or what is left of a sender.
        false if random.bit() => Record { used: 0, address: 0, counter: 0 },
        false => Record { used: 0, address, counter: any(random) },
    }
}

/// Lets places past the 64th name senders that no counted place does, or be free where no counted place is.
fn name_behind(list: &mut [Record], addresses: &[u64], random: &mut Random) {
    for place in COUNTED..list.len() {
        list[place] = record(random.percent(70), random.pick(addresses), random);
        let (counted, behind) = list.split_at_mut(COUNTED);
        let again = counted.iter().any(|record| record.address == behind[place - COUNTED].address);
        if again && random.percent(80) {
            behind[place - COUNTED].address = random.pick(addresses) ^ 1 << random.below(64);
        }
    }
}

/// A counter: the ends, small ones, and any.
fn any(random: &mut Random) -> u32 {
    match random.below(8) {
        0 => 0,
        1 => 1,
        2 => u32::MAX,
        3 => u32::MAX - 1,
        _ => random.number() as u32,
    }
}

/// A call over a list, about one of its senders or, more rarely, about another.
pub fn request(list: &[Record], addresses: &[u64], random: &mut Random) -> Request {
    let sender = match list.len() {
        n if n > COUNTED && random.percent(20) => list[random.between(COUNTED, n - 1)].address,
        n if n > 0 && random.percent(60) => list[random.below(n)].address,
        _ if random.percent(20) => random.number(),
        _ => random.pick(addresses),
    };
    let counter = beside(list, sender, random);
    match random.below(10) {
        0..=4 => {
            let active = random.byte();
            let number = if random.percent(80) { active } else { active ^ 1 << random.below(8) };
            Request::Ask { key: random.array(), active, sender, number, counter }
        }
        5..=8 => Request::Note { sender, counter },
        _ => Request::Forget { sender },
    }
}

/// A counter beside one that the list has with this sender's address, whether it counts or not; or any.
fn beside(list: &[Record], sender: u64, random: &mut Random) -> u32 {
    let stored: Vec<u32> = list.iter().filter(|record| record.address == sender).map(|record| record.counter).collect();
    if stored.is_empty() || random.percent(15) {
        return any(random);
    }
    let one = random.pick(&stored);
    match random.below(8) {
        0 | 1 => one,
        2 | 3 => one.wrapping_add(1),
        4 => one.wrapping_sub(1),
        5 => one ^ 1 << random.below(32),
        6 => u32::MAX,
        _ => any(random),
    }
}
