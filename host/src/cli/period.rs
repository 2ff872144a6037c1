//! Days and hours, for figures over time.
use super::time::{date, Time, SECONDS_A_DAY};

const SECONDS_AN_HOUR: i64 = 3_600;

/// By what time figures are told.
#[derive(Debug, Clone, Copy, PartialEq)]
pub enum By {
    Day,
    Hour,
}

/// When a day or an hour begins. A day has the clock's date alone, and so no offset, because daylight saving time may change it
/// within the day. An hour has one: an hour that the clock shows twice is two.
#[derive(Debug, Clone, Copy, PartialEq, Eq, PartialOrd, Ord)]
pub struct Start {
    seconds: i64,
    offset: i32,
}

/// The day or hour of a frame; none where figures are not told by time, or the frame has none.
pub type Period = Option<Start>;

impl By {
    /// The day or hour of a time, by the clock that the time is shown in.
    pub fn period(self, time: Option<Time>) -> Period {
        let (seconds, offset) = time?.clock();
        let begin = |length: i64| seconds.div_euclid(length) * length;
        Some(match self {
            Self::Day => Start { seconds: begin(SECONDS_A_DAY), offset: 0 },
            Self::Hour => {
                Start { seconds: begin(SECONDS_AN_HOUR) - i64::from(offset.unwrap_or(0)), offset: offset.unwrap_or(0) }
            }
        })
    }

    /// What such a period is called.
    pub fn name(self) -> &'static str {
        match self {
            Self::Day => "day",
            Self::Hour => "hour",
        }
    }

    /// A period as it is printed: a date, and for an hour also the hour and, in local time, its offset.
    pub fn show(self, period: Period, local: bool) -> String {
        let Some(start) = period else {
            return "no time".to_string();
        };
        let seconds = start.seconds + i64::from(start.offset);
        let (year, month, day) = date(seconds.div_euclid(SECONDS_A_DAY));
        let hour = seconds.rem_euclid(SECONDS_A_DAY) / SECONDS_AN_HOUR;
        match (self, local) {
            (Self::Day, _) => format!("{year:04}-{month:02}-{day:02}"),
            (Self::Hour, false) => format!("{year:04}-{month:02}-{day:02}T{hour:02}:00Z"),
            (Self::Hour, true) => {
                format!("{year:04}-{month:02}-{day:02}T{hour:02}:00{}", super::time::offset(start.offset))
            }
        }
    }
}
