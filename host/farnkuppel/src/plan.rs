//! A plan as the library has loaded it, and the refusal of one that it has not.

use crate::layout;
use archive::number::{ACCEPTED, MODE_DUBINS, MODE_FILLETS};
use archive::size::{
    LOAD_PLACE, LOAD_WORDS, NOTES_COUNT, NOTES_WORDS, NOTE_BYTES, NOTE_LENGTH, NOTE_WORDS, STATE_COUNT, STATE_COURSES,
    STATE_DOWNS, STATE_EASTS, STATE_MODE, STATE_NORTHS, STATE_RADIUS, STATE_SERIAL, STATE_WORDS, WRITE_LENGTH,
    WRITE_PLACE, WRITE_WORDS, WRITTEN_BYTES,
};
use archive::{calls, refusal_words, State};
use std::fmt::{self, Display};

/// A refusal's number and place.
#[derive(Clone, Copy, Debug, PartialEq)]
pub struct Refusal {
    pub number: u32,
    pub place: u32,
}

impl Display for Refusal {
    fn fmt(&self, f: &mut fmt::Formatter) -> fmt::Result {
        write!(f, "refused {} at {}: {}", self.number, self.place, refusal_words(self.number))
    }
}

#[derive(Clone, Copy, Debug, PartialEq)]
pub enum Mode {
    Lines,
    Fillets,
    Dubins,
}

impl Mode {
    pub const ALL: [Mode; 3] = [Mode::Lines, Mode::Fillets, Mode::Dubins];

    pub fn name(self) -> &'static str {
        match self {
            Mode::Lines => "lines",
            Mode::Fillets => "fillets",
            Mode::Dubins => "dubins",
        }
    }
}

/// A point: decimetres, and its course where the plan has courses.
pub struct Point {
    pub north: i32,
    pub east: i32,
    pub down: i32,
    pub course: Option<i32>,
}

/// A plan: the version of its file, and the state at its start.
pub struct Plan {
    pub version: u16,
    pub state: State,
}

impl Plan {
    pub fn load(file: &[u8], reader: u32) -> Result<Plan, Refusal> {
        let mut state = [0; STATE_WORDS];
        let mut answer = [0; LOAD_WORDS];
        match calls::load(file, reader, &mut state, &mut answer) {
            ACCEPTED => Ok(Plan { version: layout::version(file), state }),
            number => Err(Refusal { number, place: answer[LOAD_PLACE] }),
        }
    }

    /// The bytes of a file of a version.
    pub fn write(&self, version: u32) -> Result<Vec<u8>, Refusal> {
        let mut file = vec![0; WRITTEN_BYTES];
        let mut answer = [0; WRITE_WORDS];
        match calls::write(&self.state, version, &mut file, &mut answer) {
            ACCEPTED => {
                file.truncate(answer[WRITE_LENGTH] as usize);
                Ok(file)
            }
            number => Err(Refusal { number, place: answer[WRITE_PLACE] }),
        }
    }

    pub fn serial(&self) -> u32 {
        self.state[STATE_SERIAL] as u32
    }

    pub fn mode(&self) -> Mode {
        match self.state[STATE_MODE] as u32 {
            MODE_FILLETS => Mode::Fillets,
            MODE_DUBINS => Mode::Dubins,
            _ => Mode::Lines,
        }
    }

    /// In decimetres, where the plan has one.
    pub fn radius(&self) -> Option<i32> {
        Some(self.state[STATE_RADIUS]).filter(|radius| *radius != 0)
    }

    pub fn points(&self) -> Vec<Point> {
        let point = |i: usize| Point {
            north: self.state[STATE_NORTHS + i],
            east: self.state[STATE_EASTS + i],
            down: self.state[STATE_DOWNS + i],
            course: Some(self.state[STATE_COURSES + i]).filter(|_| self.mode() == Mode::Dubins),
        };
        (0..self.state[STATE_COUNT] as usize).map(point).collect()
    }
}

/// A note of a file, by its number from 1.
fn note(file: &[u8], number: u32) -> Vec<u8> {
    let mut bytes = vec![0; NOTE_BYTES];
    let mut answer = [0; NOTE_WORDS];
    calls::note(file, number, &mut bytes, &mut answer);
    bytes.truncate(answer[NOTE_LENGTH] as usize);
    bytes
}

/// The notes of a file, in their order.
pub fn notes(file: &[u8]) -> Vec<Vec<u8>> {
    let mut answer = [0; NOTES_WORDS];
    calls::notes(file, &mut answer);
    (1..=answer[NOTES_COUNT]).map(|number| note(file, number)).collect()
}
