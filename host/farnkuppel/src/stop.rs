//! How a command ends.

use std::io;

/// The exit statuses of a command that answered.
#[derive(Clone, Copy, Debug, PartialEq)]
pub enum Status {
    Done = 0,
    Refused = 1,
}

/// Why a command gave no answer.
#[derive(Debug)]
pub enum Stop {
    /// The line that says what is wrong.
    Trouble(String),
    /// Standard output took no more.
    Output(io::Error),
}

/// Errors of files are never turned into a stop by themselves: each names its file (`of_file`).
impl From<io::Error> for Stop {
    fn from(error: io::Error) -> Stop {
        Stop::Output(error)
    }
}

pub type Answered = Result<Status, Stop>;

/// Trouble with a line of its own.
pub fn trouble(what: &str) -> Stop {
    Stop::Trouble(format!("farnkuppel: {what}"))
}

/// The line of an error, without the system's number for it.
pub fn line(name: &str, error: &io::Error) -> String {
    let whole = error.to_string();
    let reason = whole.split(" (os error").next().unwrap_or(&whole);
    format!("farnkuppel: {name}: {reason}")
}

/// Trouble with a file, by its name as it is shown.
pub fn of_file(name: &str, error: &io::Error) -> Stop {
    Stop::Trouble(line(name, error))
}
