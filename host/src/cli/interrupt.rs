//! Ctrl-C: the run ends, and what it met so far is told.
use std::ffi::c_int;
use std::sync::atomic::{AtomicBool, Ordering};

const SIGINT: c_int = 2;

/// The handlers that end the process, as it is without one, and that ignore the signal, as shells have it for what runs behind them.
const SIG_DFL: usize = 0;
const SIG_IGN: usize = 1;

/// The exit status of a run that was ended so: 128 and the signal's number.
pub const STATUS: u8 = 130;

static INTERRUPTED: AtomicBool = AtomicBool::new(false);

extern "C" {
    fn signal(number: c_int, handler: usize) -> usize;
    fn siginterrupt(number: c_int, flag: c_int) -> c_int;
}

/// Notes the signal. A second one ends the process at once.
extern "C" fn note(_: c_int) {
    INTERRUPTED.store(true, Ordering::Relaxed);
    // SAFETY: signal may be called by a handler.
    unsafe { signal(SIGINT, SIG_DFL) };
}

/// Has Ctrl-C end the reading of an input instead of the process, unless it is ignored. A read that waits is ended too.
pub fn watch() {
    let handler: extern "C" fn(c_int) = note;
    // SAFETY: the handler stores a flag and calls nothing that a handler may not.
    unsafe {
        if signal(SIGINT, handler as usize) == SIG_IGN {
            signal(SIGINT, SIG_IGN);
        }
        siginterrupt(SIGINT, 1);
    }
}

pub fn is_interrupted() -> bool {
    INTERRUPTED.load(Ordering::Relaxed)
}
