//! The calls of the C interface, and what they are measured by.

pub use archive::calls::*;
pub use archive::number::{INTERFACE, REFUSED_MISFIT as MISFIT};
pub use archive::size::{
    ANSWER_WORDS, CHECK_WORDS, COMMAND_NUMBERS, DISTANCES_WORDS, DISTANCE_WORDS, LOAD_WORDS, NOTES_WORDS, NOTE_BYTES,
    NOTE_WORDS, STRIPS_WORDS, STRIP_WORDS, TABLE_ENTRIES, WRITE_WORDS,
};
