//! The command for people: checks, lists, makes, flies and draws plans. The proved archives do the work; what stands here reads files and
//! words, prints and draws.

mod arguments;
mod commands;
mod distance;
mod fixes;
mod flight;
mod help;
mod input;
mod layout;
mod names;
mod output;
mod picture;
mod place;
mod plan;
mod simulation;
mod stop;
mod strips;
mod text;

use std::env;
use std::ffi::OsString;
use std::io::{self, BufWriter, ErrorKind, Write};
use std::process::ExitCode;
use stop::{Status, Stop};

/// The exit status of usage and file trouble.
const TROUBLE: u8 = 2;

/// One line on standard error.
fn tell(what: &str) -> ExitCode {
    // Where standard error is closed there is nobody to tell.
    let _ = writeln!(io::stderr(), "{what}");
    ExitCode::from(TROUBLE)
}

/// Runs the command and empties the buffer. A reader of standard output that leaves early has had what it wanted.
fn finish(words: &[OsString], out: &mut impl Write) -> Result<Status, Stop> {
    let status = match commands::run(words, out) {
        Err(Stop::Output(error)) if error.kind() == ErrorKind::BrokenPipe => Status::Done,
        ended => ended?,
    };
    match out.flush() {
        Err(error) if error.kind() != ErrorKind::BrokenPipe => Err(Stop::Output(error)),
        _ => Ok(status),
    }
}

fn main() -> ExitCode {
    let words: Vec<OsString> = env::args_os().skip(1).collect();
    let mut out = BufWriter::new(io::stdout().lock());
    match finish(&words, &mut out) {
        Ok(status) => ExitCode::from(status as u8),
        Err(Stop::Trouble(what)) => tell(&what),
        Err(Stop::Output(error)) => tell(&stop::line("standard output", &error)),
    }
}
