//! A line on a terminal while an input takes long; it is gone at the end.
use super::input::Extent;
use std::io::{self, IsTerminal, Write};
use std::time::{Duration, Instant};

/// When the line comes first, and how often it changes.
const FIRST: Duration = Duration::from_secs(1);
const EVERY: Duration = Duration::from_millis(250);

/// Back to the line's front, and delete to its end.
const CLEAR: &str = "\r\x1b[K";

pub struct Progress {
    extent: Extent,
    /// When the line is due; none if there is no terminal to show it on.
    due: Option<Instant>,
    shown: bool,
}

impl Progress {
    /// Shown if standard error is a terminal, and standard output is not where lines come anyway.
    pub fn new(extent: Extent, lines_come: bool) -> Self {
        let terminal = io::stderr().is_terminal() && !(lines_come && io::stdout().is_terminal());
        Self { extent, due: terminal.then(|| Instant::now() + FIRST), shown: false }
    }

    /// Shows how far the input is read, if it is time to; only then are the inputs counted.
    pub fn step(&mut self, inputs: impl Fn() -> u64) {
        let Some(due) = self.due else {
            return;
        };
        let now = Instant::now();
        if now < due {
            return;
        }
        let _ = write!(io::stderr(), "{CLEAR}{}", text(self.extent.read.get(), self.extent.total, inputs()));
        self.due = Some(now + EVERY);
        self.shown = true;
    }

    /// Takes the line away, so that something else can be written.
    pub fn clear(&mut self) {
        if self.shown {
            let _ = write!(io::stderr(), "{CLEAR}");
            self.shown = false;
        }
    }
}

fn text(read: u64, total: Option<u64>, inputs: u64) -> String {
    let of = total.map_or(String::new(), |total| format!(" of {total}"));
    format!("{read}{of} bytes, {inputs} records")
}

#[cfg(test)]
mod tests {
    use super::*;

    #[test]
    fn of_a_file_the_whole_is_known() {
        assert_eq!(text(65_536, Some(1_000_000), 1_200), "65536 of 1000000 bytes, 1200 records");
        assert_eq!(text(65_536, None, 1_200), "65536 bytes, 1200 records");
    }
}
