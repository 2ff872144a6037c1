//! `store-reader`: shows what is in a capture of NWK frames, why a frame was refused, and what is in a journal.
mod cli {
    pub mod answer;
    pub mod arguments;
    pub mod bytes;
    pub mod csv;
    pub mod csv_table;
    pub mod describe;
    pub mod frames;
    pub mod help;
    pub mod input;
    pub mod interrupt;
    pub mod journal;
    pub mod keys;
    pub mod lines;
    pub mod link;
    pub mod losses;
    pub mod mac;
    pub mod nearest;
    pub mod pcap;
    pub mod pcapng;
    pub mod period;
    pub mod progress;
    pub mod protocol;
    pub mod refusals;
    pub mod replay;
    pub mod rows;
    pub mod run;
    pub mod seal;
    pub mod senders;
    pub mod sequences;
    pub mod show;
    pub mod source;
    pub mod summary;
    pub mod text_table;
    pub mod time;
    pub mod value;
    pub mod zone;
}

use cli::arguments::{parse, Arguments, Parsed};
use cli::help::help;
use cli::run::{Failure, USAGE};
use cli::show::complain;
use std::io::{self, BufWriter, ErrorKind, IsTerminal, Write};
use std::process::ExitCode;

fn main() -> ExitCode {
    let ended = match arguments().and_then(|given| parse(given.into_iter())) {
        Ok(Parsed::Run(arguments)) => run(&arguments),
        Ok(Parsed::Help(command)) => print(&help(command)),
        Ok(Parsed::Version) => print(concat!("store-reader ", env!("CARGO_PKG_VERSION"), "\n")),
        Err(why) => Err(Failure::Input(format!("{why}\nstore-reader --help says more"))),
    };
    ended.map_or_else(failed, ExitCode::from)
}

/// Runs a command. What it prints comes line by line on a terminal, else through a buffer.
fn run(arguments: &Arguments) -> Result<u8, Failure> {
    let mut stdout = io::stdout().lock();
    if stdout.is_terminal() {
        return cli::run::run(arguments, wants_colour(), &mut stdout);
    }
    let mut buffered = BufWriter::new(stdout);
    let status = cli::run::run(arguments, false, &mut buffered)?;
    buffered.flush()?;
    Ok(status)
}

/// Whether a terminal is to be coloured: unless `NO_COLOR` is set to something, or the terminal knows no colours.
fn wants_colour() -> bool {
    let is_set = |name: &str| std::env::var_os(name).is_some_and(|value| !value.is_empty());
    !is_set("NO_COLOR") && std::env::var_os("TERM").is_some_and(|term| term != "dumb")
}

/// The arguments behind the program's name.
fn arguments() -> Result<Vec<String>, String> {
    let given = std::env::args_os().skip(1).map(|argument| argument.into_string());
    given.collect::<Result<_, _>>().map_err(|argument| format!("{argument:?} is not written in UTF-8"))
}

fn print(text: &str) -> Result<u8, Failure> {
    io::stdout().write_all(text.as_bytes())?;
    Ok(0)
}

/// A reader that has gone away is no error to report.
fn failed(failure: Failure) -> ExitCode {
    match failure {
        Failure::Output(e) if e.kind() == ErrorKind::BrokenPipe => ExitCode::SUCCESS,
        Failure::Output(e) => {
            complain(&format!("standard output: {e}"));
            ExitCode::from(USAGE)
        }
        Failure::Input(why) => {
            complain(&why);
            ExitCode::from(USAGE)
        }
    }
}
