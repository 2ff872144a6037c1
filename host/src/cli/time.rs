//! The time of a record, as finely as its capture has it.
use super::zone::Zone;
use std::cmp::Ordering;
use std::fmt;

/// A time in UTC: seconds since 1970, and a fraction of so many decimal digits; with the offset of the local time that it is shown in.
#[derive(Debug, Clone, Copy)]
pub struct Time {
    seconds: i64,
    fraction: u64,
    digits: u32,
    offset: Option<i32>,
}

/// The most digits of a fraction that fit its number.
const MOST_DIGITS: u32 = 18;

pub const SECONDS_A_DAY: i64 = 86_400;

/// How a capture counts: units of a second, a power of ten or of two.
#[derive(Debug, Clone, Copy, PartialEq)]
pub enum Resolution {
    Decimal(u32),
    Binary(u32),
}

impl Resolution {
    pub const MICROSECONDS: Self = Self::Decimal(6);
    pub const NANOSECONDS: Self = Self::Decimal(9);

    /// The resolution of pcapng's `if_tsresol`; none for one too fine to be told.
    pub fn of_option(option: u8) -> Option<Self> {
        let power = u32::from(option & 0x7F);
        match option >> 7 {
            0 if power <= MOST_DIGITS => Some(Self::Decimal(power)),
            1 if power <= 63 => Some(Self::Binary(power)),
            _ => None,
        }
    }

    /// The time after so many units, in a zone that is so many seconds off.
    pub fn time(self, units: u64, offset: i64) -> Time {
        let (seconds, fraction, digits) = match self {
            Self::Decimal(digits) => {
                let second = 10u64.pow(digits);
                (units / second, units % second, digits)
            }
            Self::Binary(power) => {
                let digits = power.min(MOST_DIGITS);
                let rest = u128::from(units & ((1 << power) - 1));
                (units >> power, ((rest * 10u128.pow(digits)) >> power) as u64, digits)
            }
        };
        let seconds = i64::try_from(seconds).unwrap_or(i64::MAX).saturating_add(offset);
        Time { seconds, fraction, digits, offset: None }
    }
}

impl Time {
    /// The time of a pcap record: seconds, and a fraction in the capture's units.
    pub fn of_parts(seconds: u32, fraction: u32, resolution: Resolution) -> Self {
        match resolution {
            Resolution::Decimal(digits) => {
                resolution.time(u64::from(seconds) * 10u64.pow(digits) + u64::from(fraction), 0)
            }
            Resolution::Binary(_) => Self { seconds: seconds.into(), fraction: 0, digits: 0, offset: None },
        }
    }

    /// The same time, shown in a zone.
    pub fn in_zone(self, zone: &mut Zone) -> Self {
        Self { offset: Some(zone.offset(self.seconds)), ..self }
    }

    /// The seconds since 1970 that the clock shows, and how far it is ahead of UTC where it shows local time.
    pub fn clock(self) -> (i64, Option<i32>) {
        (self.seconds.saturating_add(self.offset.unwrap_or(0).into()), self.offset)
    }

    /// The fraction in the finest unit of all.
    fn finest(&self) -> u64 {
        self.fraction * 10u64.pow(MOST_DIGITS - self.digits)
    }
}

impl PartialEq for Time {
    fn eq(&self, other: &Self) -> bool {
        self.cmp(other) == Ordering::Equal
    }
}

impl Eq for Time {}

impl PartialOrd for Time {
    fn partial_cmp(&self, other: &Self) -> Option<Ordering> {
        Some(self.cmp(other))
    }
}

impl Ord for Time {
    fn cmp(&self, other: &Self) -> Ordering {
        self.seconds.cmp(&other.seconds).then_with(|| self.finest().cmp(&other.finest()))
    }
}

/// ISO 8601, in UTC or in local time with its offset.
impl fmt::Display for Time {
    fn fmt(&self, f: &mut fmt::Formatter<'_>) -> fmt::Result {
        let (clock, ahead) = self.clock();
        let (year, month, day) = date(clock.div_euclid(SECONDS_A_DAY));
        let second = clock.rem_euclid(SECONDS_A_DAY);
        let (hours, minutes, seconds) = (second / 3600, second / 60 % 60, second % 60);
        let mut text = *b"-00-00T00:00:00";
        for (place, number) in text.chunks_mut(3).zip([month, day, hours, minutes, seconds]) {
            place[1] += (number / 10) as u8;
            place[2] += (number % 10) as u8;
        }
        write!(f, "{year:04}{}", std::str::from_utf8(&text).map_err(|_| fmt::Error)?)?;
        if self.digits > 0 {
            write!(f, ".{:0width$}", self.fraction, width = self.digits as usize)?;
        }
        match ahead {
            None => f.write_str("Z"),
            Some(ahead) => f.write_str(&offset(ahead)),
        }
    }
}

/// An offset from UTC as ISO 8601 has it, in hours and minutes.
pub fn offset(seconds: i32) -> String {
    let (sign, minutes) = (if seconds < 0 { '-' } else { '+' }, seconds.unsigned_abs() / 60);
    format!("{sign}{:02}:{:02}", minutes / 60, minutes % 60)
}

/// Year, month and day of a day counted from 1970, in the Gregorian calendar. Years are counted from March, so that the
/// day of a leap year is the last; 400 years have 146,097 days.
pub fn date(day: i64) -> (i64, i64, i64) {
    let day = day.saturating_add(719_468);
    let (era, day) = (day.div_euclid(146_097), day.rem_euclid(146_097));
    let year = (day - day / 1_460 + day / 36_524 - day / 146_096) / 365;
    let day = day - (365 * year + year / 4 - year / 100);
    let month = (5 * day + 2) / 153;
    let year = era * 400 + year + i64::from(month >= 10);
    (year, if month < 10 { month + 3 } else { month - 9 }, day - (153 * month + 2) / 5 + 1)
}

#[cfg(test)]
mod tests {
    use super::*;

    /// The expected texts are those of `date -u -d @SECONDS --iso-8601=ns`.
    #[test]
    fn times_in_iso_8601() {
        for (seconds, text) in [
            (0, "1970-01-01T00:00:00.000000Z"),
            (951_782_400, "2000-02-29T00:00:00.000000Z"),
            (1_795_000_000, "2026-11-18T11:06:40.000000Z"),
            (4_294_967_295, "2106-02-07T06:28:15.000000Z"),
        ] {
            assert_eq!(Time::of_parts(seconds, 0, Resolution::MICROSECONDS).to_string(), text);
        }
        assert_eq!(Resolution::Decimal(0).time(1, -2).to_string(), "1969-12-31T23:59:59Z");
        assert_eq!(Resolution::Decimal(0).time(253_402_300_800, 0).to_string(), "10000-01-01T00:00:00Z");
        let fine = Time::of_parts(1_795_000_000, 7, Resolution::NANOSECONDS);
        assert_eq!(fine.to_string(), "2026-11-18T11:06:40.000000007Z");
        let ahead = |offset| Time { offset: Some(offset), ..fine }.to_string();
        assert_eq!(ahead(19_800), "2026-11-18T16:36:40.000000007+05:30");
        assert_eq!(ahead(-43_200), "2026-11-17T23:06:40.000000007-12:00");
    }

    #[test]
    fn resolutions_of_pcapng() {
        assert_eq!(Resolution::of_option(6), Some(Resolution::MICROSECONDS));
        assert_eq!(Resolution::of_option(0x80 | 10), Some(Resolution::Binary(10)));
        assert_eq!(Resolution::of_option(19), None);
        // 512 units of 2^-10 seconds are half a second; so many binary digits take as many decimal ones.
        let half = Resolution::Binary(10).time(1024 + 512, 0);
        assert_eq!(half.to_string(), "1970-01-01T00:00:01.5000000000Z");
        assert_eq!(half, Resolution::Decimal(1).time(15, 0));
        assert!(half < Resolution::Decimal(9).time(1_500_000_001, 0));
    }
}
