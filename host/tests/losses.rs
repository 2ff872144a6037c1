//! Losses by sender, beside captures whose truth is known: exact where the command claims it, and never on the wrong side of a bound.
#[allow(dead_code)]
mod support;

use std::collections::BTreeMap;
use std::fs;
use support::air::{Air, Device, Fate};
use support::command::{run, scratch, tool, KEY};
use support::random::Random;

/// 2026-11-18, 20:00 UTC.
const EVENING: u64 = 1_795_032_000;
const DAY: u64 = 86_400;

/// A row of `--csv`: its cells by the heads of their columns.
type Cells = BTreeMap<String, String>;

/// The rows that a run prints with these options.
fn rows(options: &[&str], capture: &[u8]) -> Vec<Cells> {
    let ran = run(&[&["open", "--key", KEY, "--csv"], options].concat(), capture);
    assert_eq!((ran.err.as_str(), ran.status), ("", 0), "{options:?}");
    let mut lines = ran.out.lines().map(|line| line.split(',').map(str::to_string).collect::<Vec<_>>());
    let heads = lines.next().expect("heads");
    lines.map(|cells| heads.iter().cloned().zip(cells).collect()).collect()
}

fn row<'a>(rows: &'a [Cells], device: &Device) -> &'a Cells {
    let address = device.address.to_be_bytes().map(|byte| format!("{byte:02X}")).join(":");
    rows.iter().find(|row| row["ieee"] == address).unwrap_or_else(|| panic!("no row of {address}"))
}

fn number(row: &Cells, head: &str) -> u64 {
    row[head].parse().unwrap_or_else(|_| panic!("{head} is {:?}", row[head]))
}

/// How many were lost, at least and, where that is known, at most.
fn lost(row: &Cells) -> (u64, Option<u64>) {
    (number(row, "lost_at_least"), row["lost_at_most"].parse().ok())
}

/// A channel that loses frames at random and in bursts up to a length, and damages some.
struct Channel {
    random: Random,
    burst: usize,
    longest: usize,
    damages: usize,
}

impl Channel {
    fn new(seed: u64, longest: usize, damages: usize) -> Self {
        Self { random: Random::new(seed), burst: 0, longest, damages }
    }

    fn fate(&mut self) -> Fate {
        if self.burst == 0 && self.random.below(200) == 0 {
            self.burst = self.random.between(2, self.longest);
        }
        if self.burst > 0 {
            self.burst -= 1;
            return Fate::Lost;
        }
        match self.random.below(100) {
            0..=7 => Fate::Lost,
            n if n < 8 + self.damages => Fate::Damaged,
            _ => Fate::Heard,
        }
    }
}

/// Probes that report every few minutes for three days, heard directly, some frames twice.
fn probes(seed: u64, air: &mut Air, disturb: impl Fn(&mut Device, &mut Random)) -> Vec<Device> {
    let mut random = Random::new(seed);
    let mut devices: Vec<Device> =
        (1..=5).map(|n| Device::new(n, random.below(90_000) as u32, random.between(20, 4_000) as u32)).collect();
    let mut channels: Vec<Channel> = (0..5).map(|n| Channel::new(seed + n, 60, 3)).collect();
    while air.now < EVENING + 3 * DAY {
        for (device, channel) in devices.iter_mut().zip(&mut channels) {
            air.now += random.between(20, 60) as u64;
            disturb(device, &mut random);
            let fate = channel.fate();
            air.send(device, fate);
            if fate != Fate::Lost && random.percent(3) {
                air.repeat();
            }
        }
    }
    devices
}

fn undisturbed(_: &mut Device, _: &mut Random) {}

/// Without a restart every figure of a probe is exact, and the refused frames are told by their frame check sequence.
#[test]
fn losses_at_random_and_in_bursts_are_exact() {
    for seed in 0..4 {
        let mut air = Air::new(seed, EVENING);
        let devices = probes(seed, &mut air, undisturbed);
        let capture = air.capture();
        let rows = rows(&["--by-sender"], &capture);
        for device in &devices {
            let row = row(&rows, device);
            assert_eq!(lost(row), (device.lost(), Some(device.lost())), "seed {seed}: {row:?}");
            assert_eq!(number(row, "received"), device.count(Fate::Heard));
            assert_eq!(number(row, "gaps"), device.lost());
            assert_eq!(number(row, "gaps_refused"), device.count(Fate::Damaged));
            assert_eq!(number(row, "sequence_numbers_never_heard"), device.count(Fate::Lost));
            assert_eq!(["jumps", "counters_passed_over", "starts_anew"].map(|head| number(row, head)), [0; 3]);
            let rate = device.lost() as f64 / device.stretch().len() as f64;
            assert_eq!(
                (&row["loss_rate_at_least"], &row["loss_rate_at_most"]),
                (&format!("{rate:.4}"), &format!("{rate:.4}"))
            );
            assert_eq!(number(row, "refused_by_19"), number(row, "refused_by_19_wrong_fcs"));
            assert!(device.lost() > 40 && number(row, "not_above") > 5, "{row:?}");
        }
    }
}

/// Two sniffers' captures merged: most frames come twice, and some in another order. What is received is exact, and what is lost too
/// unless a late frame takes away what would confirm a gap.
#[test]
fn merged_captures() {
    let mut exact = 0;
    for seed in 300..310 {
        let mut air = Air::new(seed, EVENING);
        let mut device = Device::new(1, 700, 1_000);
        let mut channel = Channel::new(seed, 30, 0);
        for at in 0..1_000 {
            air.now += 60;
            let fate = if at % 999 == 0 { Fate::Heard } else { channel.fate() };
            air.send(&mut device, fate);
            if fate == Fate::Heard && air.random.percent(80) {
                air.repeat();
            }
            if at > 10 && air.random.percent(5) {
                air.exchange();
            }
        }
        let rows = rows(&["--by-sender"], &air.capture());
        let row = row(&rows, &device);
        let (low, high) = lost(row);
        assert_eq!(
            (number(row, "received"), number(row, "starts_anew")),
            (device.count(Fate::Heard), 0),
            "seed {seed}"
        );
        assert!(low <= device.lost() && high == Some(device.lost()), "seed {seed}: {low}, {high:?}, {}", device.lost());
        exact += u64::from(low == device.lost());
    }
    assert!(exact > 0, "{exact} exact");
}

/// A gap across midnight is told once, on the day of the frame behind it: the days add up to the whole.
#[test]
fn days_are_exact_and_add_up() {
    for seed in 10..13 {
        let mut air = Air::new(seed, EVENING);
        let devices = probes(seed, &mut air, undisturbed);
        let capture = air.capture();
        let days = rows(&["--by-sender", "--by", "day"], &capture);
        for device in &devices {
            let mut truth: BTreeMap<u64, u64> = BTreeMap::new();
            let mut missing = 0;
            for sent in device.stretch() {
                match sent.fate {
                    Fate::Heard => *truth.entry(sent.time / DAY).or_default() += std::mem::take(&mut missing),
                    _ => missing += 1,
                }
            }
            assert!(truth.len() >= 3, "{truth:?}");
            for (day, lost) in truth {
                let date = format!("2026-11-{}", day - EVENING / DAY + 18);
                let of_day: Vec<Cells> = days.iter().filter(|row| row["day"] == date).cloned().collect();
                let row = row(&of_day, device);
                assert_eq!((number(row, "lost_at_least"), number(row, "lost_at_most")), (lost, lost), "{date}");
            }
        }
    }
}

/// The columns that add up, whatever the rows are told by.
const SUMS: [&str; 13] = [
    "opened",
    "clear",
    "refused",
    "refused_by_19",
    "refused_by_19_wrong_fcs",
    "sequence_numbers_never_heard",
    "received",
    "gaps",
    "gaps_refused",
    "jumps",
    "counters_passed_over",
    "starts_anew",
    "not_above",
];

fn sums(rows: &[Cells]) -> Vec<u64> {
    SUMS.iter().map(|head| rows.iter().filter_map(|row| row[*head].parse::<u64>().ok()).sum()).collect()
}

/// Probes with restarts, resets and replays, and with routers: days and hours, in UTC and in local time, add up to the whole.
#[test]
fn parts_add_up_to_the_whole() {
    let mut air = Air::new(20, EVENING);
    probes(20, &mut air, |device, random| match random.below(400) {
        0 => device.restart(random),
        1 => device.reset(random),
        _ => {}
    });
    (0..40).for_each(|_| air.replay());
    let capture = air.capture();
    let whole = sums(&rows(&["--by-sender"], &capture));
    assert!(whole.iter().enumerate().all(|(at, sum)| *sum > 0 || SUMS[at] == "clear"), "{whole:?}");
    for options in [
        &["--by-sender", "--by", "day"][..],
        &["--by", "day"],
        &["--by-sender", "--by=hour"],
        &["--by=hour", "--local"],
    ] {
        assert_eq!(sums(&rows(options, &capture)), whole, "{options:?}");
    }
}

/// A restart passes over counters that were reserved: at least and at most hold, but for a restart behind which the sequence number
/// went on by chance.
#[test]
fn restarts_are_not_told_as_losses() {
    let (mut restarts, mut hidden, mut exact) = (0, 0, 0);
    for seed in 30..42 {
        let mut air = Air::new(seed, EVENING);
        let devices = probes(seed, &mut air, |device, random| {
            if random.below(300) == 0 {
                device.restart(random);
            }
        });
        let rows = rows(&["--by-sender"], &air.capture());
        for device in &devices {
            let row = row(&rows, device);
            let (low, high) = lost(row);
            assert!(low <= device.lost() + device.hidden(), "seed {seed}: {row:?}, lost {}", device.lost());
            assert!(device.lost() <= high.expect("no start anew"), "seed {seed}: {row:?}, lost {}", device.lost());
            let span = device.stretch().last().expect("a frame").counter - device.stretch()[0].counter + 1;
            let told = ["received", "gaps", "counters_passed_over"].map(|head| number(row, head));
            assert_eq!(told.iter().sum::<u64>(), u64::from(span));
            assert!(number(row, "jumps") <= device.restarts as u64, "{row:?}");
            restarts += device.restarts;
            hidden += u64::from(device.hidden() > 0);
            exact += u64::from(low == device.lost());
        }
    }
    // By chance the sequence number goes on behind one restart in 256.
    assert!(restarts > 200 && hidden * 50 < restarts as u64, "{hidden} of {restarts} restarts are hidden");
    assert!(exact > 10, "{exact} exact");
}

/// Three frames, a power cut that leaves 997 reserved counters, and so on: nothing was lost.
#[test]
fn reserved_counters_are_passed_over() {
    let mut air = Air::new(50, EVENING);
    let mut device = Device::new(1, 0, 1_000);
    for _ in 0..3 {
        (0..3).for_each(|_| air.send(&mut device, Fate::Heard));
        device.restart(&mut air.random);
    }
    let capture = air.capture();
    let table = run(&["open", "--key", KEY, "--by-sender", "--summary-only"], &capture).out;
    let told = table.lines().find(|line| line.contains("1 to 2003")).expect("a row of counters");
    let cells: Vec<&str> = told.split("  ").map(str::trim).filter(|cell| !cell.is_empty()).collect();
    let jumps = "2 restarts or more, 1994 counters passed over";
    let expected =
        ["00:12:4B:00:00:00:00:01", "0", "1 to 2003", "9", "0", "0", jumps, "0", "0", "at most 1994", "at most 99.6 %"];
    assert_eq!(cells, expected);
    // The limit is the user's: above it a rise is a jump, at it a gap.
    for (limit, jumps) in [("997", 2), ("998", 0)] {
        let rows = rows(&["--by-sender", "--jump", limit], &capture);
        assert_eq!(number(row(&rows, &device), "jumps"), jumps, "--jump {limit}");
    }
}

/// A counter that starts again is told and not counted: what is lost is at least what was lost before.
#[test]
fn resets_are_told_and_not_counted() {
    for seed in 60..66 {
        let mut air = Air::new(seed, EVENING);
        let mut device = Device::new(1, 90_000, 1_000);
        let mut channel = Channel::new(seed, 50, 3);
        for life in 0..3 {
            let frames = air.random.between(50, 400);
            air.send(&mut device, Fate::Heard);
            for _ in 0..frames {
                air.now += 60;
                air.send(&mut device, channel.fate());
            }
            if life == 0 {
                let before = device.lost();
                device.reset(&mut air.random);
                let at_first = lost(row(&rows(&["--by-sender"], &air.capture()), &device));
                assert_eq!(at_first, (before, Some(before)));
            } else {
                device.reset(&mut air.random);
            }
        }
        let rows = rows(&["--by-sender"], &air.capture());
        let row = row(&rows, &device);
        let (low, high) = lost(row);
        assert!(low <= device.lost() && high.is_none(), "seed {seed}: {row:?}, lost {}", device.lost());
        assert_eq!(number(row, "starts_anew"), 2, "{row:?}");
        assert!(number(row, "first_counter") > 90_000 && number(row, "gaps") < 400, "{row:?}");
    }
}

/// Replays never widen a range: the figures are those of the capture without them, and the same with `--replay`.
#[test]
fn replays_change_no_figure() {
    let told = ["first_counter", "highest_counter", "received", "gaps", "gaps_refused", "jumps", "lost_at_least"];
    for seed in 70..74 {
        let replayed = |replays: bool| {
            let mut air = Air::new(seed, EVENING);
            let mut device = Device::new(1, 5_000, 1_000);
            let mut channel = Channel::new(seed, 100, 0);
            air.send(&mut device, Fate::Heard);
            for at in 0..2_000 {
                air.now += 60;
                if replays && at % 97 == 96 {
                    air.replay();
                }
                air.send(&mut device, if at == 1_999 { Fate::Heard } else { channel.fate() });
            }
            (air.capture(), device)
        };
        let (capture, device) = replayed(true);
        let with = rows(&["--by-sender", "--replay"], &capture);
        let without = rows(&["--by-sender"], &capture);
        let (plain, _) = replayed(false);
        let plain = rows(&["--by-sender"], &plain);
        for head in told.iter().chain(&["lost_at_most", "starts_anew", "not_above"]) {
            assert_eq!(row(&with, &device)[*head], row(&without, &device)[*head], "{head}");
        }
        for head in told {
            assert_eq!(row(&without, &device)[head], row(&plain, &device)[head], "{head}");
        }
        assert_eq!(number(row(&with, &device), "refused_by_23"), number(row(&without, &device), "not_above"));
        assert!(number(row(&without, &device), "not_above") >= 20);
        let (low, high) = lost(row(&without, &device));
        assert!(low == device.lost() && high.is_none_or(|high| high == low), "{low}, {high:?}, {}", device.lost());
    }
}

/// Restarts, resets, replays, frames twice, damage and bursts together: whatever is told, it is on the right side of the truth.
#[test]
fn bounds_hold_whatever_happens() {
    let (mut exact, mut bounded) = (0, 0);
    for seed in 200..230 {
        let mut air = Air::new(seed, EVENING);
        let mut random = Random::new(seed);
        let mut device = Device::new(1, random.below(2_000) as u32, random.between(20, 2_000) as u32);
        let mut channel = Channel::new(seed, 300, 3);
        air.send(&mut device, Fate::Heard);
        for _ in 0..random.between(100, 1_500) {
            air.now += 60;
            let mut fate = channel.fate();
            match random.below(1_000) {
                0 | 1 => device.restart(&mut random),
                // Of a reset the first frame is heard: one of which nothing is heard below cannot be told.
                2 => {
                    device.reset(&mut random);
                    fate = Fate::Heard;
                }
                3..=9 => air.replay(),
                10..=40 => air.repeat(),
                41..=60 => air.exchange(),
                _ => {}
            }
            air.send(&mut device, fate);
        }
        let rows = rows(&["--by-sender"], &air.capture());
        let (low, high) = lost(row(&rows, &device));
        let truth = device.lost();
        assert!(low <= truth + device.hidden(), "seed {seed}: {low}, {high:?}, {truth}");
        assert!(high.is_none_or(|high| truth <= high), "seed {seed}: {low}, {high:?}, {truth}");
        exact += usize::from(high == Some(low));
        bounded += usize::from(high.is_some());
    }
    assert!(bounded > exact && exact > 0 && bounded < 30, "{exact} exact, {bounded} bounded");
}

/// The same of a router, most of whose frames are those of a probe behind it.
#[test]
fn bounds_hold_for_routers() {
    for seed in 400..420 {
        let mut air = Air::new(seed, EVENING);
        let mut random = Random::new(seed);
        let mut router = Device::new(9, random.below(2_000) as u32, random.between(20, 2_000) as u32);
        let mut deep = Device::new(11, 1, 1_000);
        let mut channel = Channel::new(seed, 200, 3);
        air.send(&mut router, Fate::Heard);
        for _ in 0..random.between(100, 1_500) {
            air.now += 15;
            let mut fate = channel.fate();
            match random.below(1_000) {
                0 | 1 => router.restart(&mut random),
                2 => {
                    router.reset(&mut random);
                    fate = Fate::Heard;
                }
                3..=9 => air.replay(),
                10..=40 => air.repeat(),
                41..=60 => air.exchange(),
                _ => {}
            }
            match random.percent(30) {
                true => air.send(&mut router, fate),
                false => air.send_through(&mut router, &mut deep, fate),
            }
        }
        let rows = rows(&["--by-sender"], &air.capture());
        let (low, high) = lost(row(&rows, &router));
        let truth = router.lost();
        assert!(low <= truth + router.hidden(), "seed {seed}: {low}, {high:?}, {truth}");
        assert!(high.is_none_or(|high| truth <= high), "seed {seed}: {low}, {high:?}, {truth}");
    }
}

/// One replay of an old frame: the counter goes on afterwards, so nothing is in doubt.
#[test]
fn one_old_replay() {
    let mut air = Air::new(80, EVENING);
    let mut device = Device::new(1, 10, 10_000);
    air.send(&mut device, Fate::Heard);
    device.counter = 4_999;
    air.send(&mut device, Fate::Heard);
    let first = air.part(0, 1);
    air.send(&mut device, Fate::Heard);
    let capture = [air.capture(), first[24..].to_vec()].concat();
    let rows_of = |capture: &[u8]| rows(&["--by-sender", "--jump=10000"], capture);
    let before = rows_of(&air.capture());
    let after = rows_of(&capture);
    for head in ["first_counter", "highest_counter", "received", "gaps", "jumps"] {
        assert_eq!(row(&before, &device)[head], row(&after, &device)[head], "{head}");
    }
    assert_eq!(number(row(&after, &device), "not_above"), 1);
}

/// A router makes frames and passes on those of two probes, which are heard through it alone. Its counters are all frames that it
/// sends; the probes have sequence numbers only, and these are exact.
#[test]
fn routers_and_the_probes_behind_them() {
    for seed in 90..96 {
        let mut air = Air::new(seed, EVENING);
        let mut random = Random::new(seed);
        let mut router = Device::new(9, 7_000, random.between(50, 2_000) as u32);
        let mut deep = [Device::new(11, 1, 1_000), Device::new(12, 1, 1_000)];
        let mut channel = Channel::new(seed, 40, 0);
        for _ in 0..3_000 {
            air.now += 15;
            match random.below(20) {
                0 => air.lose_before(&mut deep[0]),
                1..=5 => air.send(&mut router, channel.fate()),
                n => air.send_through(&mut router, &mut deep[n % 2], channel.fate()),
            }
            if random.below(700) == 0 {
                router.restart(&mut random);
            }
        }
        let rows = rows(&["--by-sender"], &air.capture());
        let row_of_router = row(&rows, &router);
        let (low, high) = lost(row_of_router);
        assert!(low <= router.lost() + router.hidden(), "seed {seed}: {row_of_router:?}, lost {}", router.lost());
        assert!(router.lost() <= high.expect("no start anew"), "seed {seed}: {row_of_router:?}");
        for probe in &deep {
            let short = format!("0x{:04X}", probe.short);
            let row = rows.iter().find(|row| row["short"] == short).expect("a row of the probe");
            assert_eq!(number(row, "sequence_numbers_never_heard"), probe.made_and_lost(), "seed {seed}");
            assert_eq!((row["received"].as_str(), row["key_numbers"].as_str()), ("", ""));
        }
    }
}

/// Local time by a zone with daylight saving time: the hour that the clock shows twice is two, and the day is one.
#[test]
fn local_days_and_hours() {
    // 2026-10-24T21:30 in UTC; the clock goes back at 01:00 of the next day.
    let mut air = Air::new(110, 1_792_877_400);
    let mut device = Device::new(1, 0, 1_000);
    for _ in 0..6 {
        air.send(&mut device, Fate::Heard);
        air.now += 3_600;
    }
    let path = scratch("clock.pcap");
    fs::write(&path, air.capture()).expect("a capture");
    let command = env!("CARGO_BIN_EXE_store-reader");
    let told = |options: &[&str]| -> Vec<String> {
        let name = path.to_str().expect("UTF-8");
        let open = ["TZ=CET-1CEST,M3.5.0,M10.5.0/3", command, "open", "--key", KEY, "--csv", name];
        let ran = tool("env", &[&open, options].concat()).expect("env");
        let out = String::from_utf8(ran.stdout).expect("UTF-8");
        out.lines().skip(1).map(|row| row.split(',').take(2).collect::<Vec<_>>().join(" ")).collect()
    };
    assert_eq!(told(&["--by=day"]), ["2026-10-24 3", "2026-10-25 3"]);
    assert_eq!(told(&["--by=day", "--local"]), ["2026-10-24 1", "2026-10-25 5"]);
    let hours =
        ["24T23:00+02:00", "25T00:00+02:00", "25T01:00+02:00", "25T02:00+02:00", "25T02:00+01:00", "25T03:00+01:00"];
    assert_eq!(told(&["--by=hour", "--local"]), hours.map(|hour| format!("2026-10-{hour} 1")));
    assert_eq!(
        told(&["--by=hour"])[3..],
        ["25T00:00Z", "25T01:00Z", "25T02:00Z"].map(|hour| format!("2026-10-{hour} 1"))
    );
    let frames = told(&["--frames", "--local"]);
    assert_eq!(frames.len(), 6);
    let line = tool("env", &["TZ=IST-5:30", command, "open", "--key", KEY, "--local", path.to_str().expect("UTF-8")]);
    let line = String::from_utf8(line.expect("env").stdout).expect("UTF-8");
    assert!(line.starts_with("   1  2026-10-25T03:00:00.000000+05:30  "), "{line}");
}

/// A capture in several files is told as one: a sender's counters go on from file to file.
#[test]
fn counters_go_on_from_file_to_file() {
    let mut air = Air::new(100, EVENING);
    let devices = probes(100, &mut air, undisturbed);
    let n = air.records();
    let whole = run(&["open", "--key", KEY, "--by-sender", "--summary-only"], &air.capture()).out;
    let files: Vec<String> = [(0, n / 3), (n / 3, n / 2), (n / 2, n)]
        .into_iter()
        .enumerate()
        .map(|(at, (from, to))| {
            let path = scratch(&format!("part-{at}.pcap"));
            fs::write(&path, air.part(from, to)).expect("a capture");
            path.to_str().expect("UTF-8").to_string()
        })
        .collect();
    let mut arguments = vec!["open", "--key", KEY, "--by-sender", "--summary-only"];
    arguments.extend(files.iter().map(String::as_str));
    let ran = run(&arguments, b"");
    assert_eq!((ran.out, ran.err.as_str(), ran.status), (whole, "", 0));
    assert!(devices.iter().all(|device| device.lost() > 0));
    // In another order the counters fall, and that is said; without figures the order does not matter.
    let order = [&files[1], &files[0]].map(String::as_str);
    let ran = run(&[&["open", "--key", KEY, "--by", "day", "--csv"][..], &order].concat(), b"");
    let told = "begins before what was read has ended; counters are followed in the order given";
    assert_eq!((ran.err, ran.status), (format!("store-reader: {}: {told}\n", files[0]), 0));
    let ran = run(&[&["open", "--key", KEY, "--csv"][..], &order].concat(), b"");
    assert_eq!((ran.err.as_str(), ran.status), ("", 0));
}
