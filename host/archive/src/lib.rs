//! The proved archives for Rust: the numbers of include/farnkuppel.h, and its functions over slices. What each function does with its slices,
//! and what it answers, is said in that header. It depends on nothing.

pub mod calls;

/// What stands in the header: a number is in `number` as calls take and answer it, and in `size` as slices are measured by it.
mod header {
    include!(concat!(env!("OUT_DIR"), "/header.rs"));
}
pub use header::{number, size, RELEASE};

/// A state's words.
pub type State = [i32; size::STATE_WORDS];

/// The words of a fix's answer, and the numbers of its command.
pub type Answer = [u32; size::ANSWER_WORDS];
pub type Command = [f32; size::COMMAND_NUMBERS];

/// Where the north, east and down of a line's start and direction stand in a command, and of a circle's centre.
pub const LINE_START: [usize; 3] = [size::LINE_START_NORTH, size::LINE_START_EAST, size::LINE_START_DOWN];
pub const LINE_DIRECTION: [usize; 3] =
    [size::LINE_DIRECTION_NORTH, size::LINE_DIRECTION_EAST, size::LINE_DIRECTION_DOWN];
pub const CIRCLE_CENTRE: [usize; 3] = [size::CIRCLE_CENTRE_NORTH, size::CIRCLE_CENTRE_EAST, size::CIRCLE_CENTRE_DOWN];

/// A refusal in words. A number that the header lacks cannot come from archives of its interface.
pub fn refusal_words(number: u32) -> &'static str {
    let row = header::REFUSALS.iter().find(|(of, _)| *of == number);
    row.map_or("unknown refusal", |(_, words)| words)
}
