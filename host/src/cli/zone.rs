//! The system's zone: how far local time is from UTC.
use std::ffi::{c_char, c_int, c_long};

/// C's `struct tm` on Linux. Of its fields only the offset is wanted.
#[repr(C)]
struct Tm {
    fields: [c_int; 9],
    offset: c_long,
    name: *const c_char,
}

extern "C" {
    fn tzset();
    fn localtime_r(time: *const i64, to: *mut Tm) -> *mut Tm;
}

/// Offsets change at whole quarters of an hour.
const QUARTER: i64 = 900;

/// The system's zone, and the offset that was asked for last.
#[derive(Debug, Default)]
pub struct Zone {
    last: Option<(i64, i32)>,
}

impl Zone {
    /// The zone that `TZ` names, else that of the system, else UTC.
    pub fn of_system() -> Self {
        // SAFETY: no other thread reads or changes the environment.
        unsafe { tzset() };
        Self::default()
    }

    /// How many seconds local time is ahead of UTC at a time.
    pub fn offset(&mut self, seconds: i64) -> i32 {
        let quarter = seconds.div_euclid(QUARTER);
        match self.last {
            Some((known, offset)) if known == quarter => offset,
            _ => {
                let offset = asked(seconds);
                self.last = Some((quarter, offset));
                offset
            }
        }
    }
}

fn asked(seconds: i64) -> i32 {
    let mut local = Tm { fields: [0; 9], offset: 0, name: std::ptr::null() };
    // SAFETY: both pointers are those of live values; the answer is NULL where the year does not fit.
    let answer = unsafe { localtime_r(&seconds, &mut local) };
    if answer.is_null() {
        return 0;
    }
    local.offset as i32
}
