//! The calls of the system that a journal's file rests on, each of which a test may look at, make, leave out or let fail. They go through
//! functions of the test's program, which the linker takes before those of the C library. A test that watches calls has this file as a
//! module of its own.
use std::cell::RefCell;
use std::ffi::{CStr, OsStr};
use std::os::unix::ffi::OsStrExt;
use std::path::Path;

/// An error of the disk, `EIO`.
pub const BROKEN: i32 = 5;

/// What a call is to do.
pub enum Call<'a> {
    /// Opens a file, or makes one that is not there.
    Open {
        path: &'a Path,
        makes: bool,
    },
    Write {
        file: i32,
        bytes: &'a [u8],
        offset: usize,
    },
    Flush {
        file: i32,
    },
    Rename {
        from: &'a Path,
        to: &'a Path,
    },
    Remove {
        path: &'a Path,
    },
    /// Locks a file, or changes its permissions or its owner.
    Other,
}

/// What is asked of each call of its thread: its name, what it is to do, and a function that makes it. What it gives is the call's
/// answer.
type Watcher = Box<dyn FnMut(&'static str, &Call<'_>, &mut dyn FnMut() -> i64) -> i64>;

thread_local! {
    static WATCHER: RefCell<Option<Watcher>> = const { RefCell::new(None) };
}

/// Runs something while calls are watched. Those that the watcher makes itself are not.
pub fn watched<T>(
    watcher: impl FnMut(&'static str, &Call<'_>, &mut dyn FnMut() -> i64) -> i64 + 'static,
    run: impl FnOnce() -> T,
) -> T {
    WATCHER.set(Some(Box::new(watcher)));
    let given = run();
    WATCHER.set(None);
    given
}

/// The answer of a call that fails with this error.
pub fn fail(error: i32) -> i64 {
    // SAFETY: the place is this thread's own.
    unsafe { *__errno_location() = error };
    -1
}

fn asked(name: &'static str, call: &Call<'_>, make: &mut dyn FnMut() -> i64) -> i64 {
    let Some(mut watcher) = WATCHER.try_with(RefCell::take).ok().flatten() else {
        return make();
    };
    let answer = watcher(name, call, make);
    WATCHER.set(Some(watcher));
    answer
}

extern "C" {
    fn syscall(number: i64, ...) -> i64;
    fn __errno_location() -> *mut i32;
}

/// `O_CREAT`.
const MAKES: i32 = 0o100;

/// SAFETY: the caller hands over a path that ends with 0.
unsafe fn path<'a>(text: *const i8) -> &'a Path {
    Path::new(OsStr::from_bytes(CStr::from_ptr(text).to_bytes()))
}

macro_rules! calls {
    ($($name:ident, $number:literal: ($($argument:ident $type:ty),+) $call:expr;)+) => {
        $(#[no_mangle]
        unsafe extern "C" fn $name($($argument: $type),+) -> i64 {
            asked(stringify!($name), &$call, &mut || syscall($number, $($argument),+))
        })+
    };
}

// By their numbers on x86-64 Linux.
calls! {
    open64, 2: (name *const i8, flags i32, mode u32) Call::Open { path: path(name), makes: flags & MAKES != 0 };
    pwrite64, 18: (file i32, from *const u8, length usize, offset i64)
        Call::Write { file, bytes: std::slice::from_raw_parts(from, length), offset: offset as usize };
    flock, 73: (file i32, operation i32) Call::Other;
    fsync, 74: (file i32) Call::Flush { file };
    fdatasync, 75: (file i32) Call::Flush { file };
    rename, 82: (from *const i8, to *const i8) Call::Rename { from: path(from), to: path(to) };
    unlink, 87: (name *const i8) Call::Remove { path: path(name) };
    fchmod, 91: (file i32, mode u32) Call::Other;
    fchown, 93: (file i32, owner u32, group u32) Call::Other;
}
