//! A state and an answer as the words of the C interface.

use archive::size::COMMAND_NUMBERS;
use archive::{number, size};
use archive::{Answer as AnswerWords, Command as CommandNumbers, CIRCLE_CENTRE, LINE_DIRECTION, LINE_START};
use reference::distance::{distance, distances};
use reference::strips::{self, Fault, Row};
use reference::{Answer, Command, Mode, Refusal, State};
use std::fmt::UpperHex;

pub use archive::size::{
    DISTANCE_LEFT, STATE_COUNT as COUNT, STATE_COURSES as COURSES, STATE_DOWNS as DOWNS, STATE_EASTS as EASTS,
    STATE_FINISHED as FINISHED, STATE_INDEX as INDEX, STATE_MODE as MODE, STATE_NORTHS as NORTHS, STATE_PHASE as PHASE,
    STATE_RADIUS as RADIUS, STATE_SERIAL as SERIAL, STATE_WORDS,
};

pub type Words = archive::State;

/// The words of a question for a table of distances, and for the distance at a state.
pub type DistancesWords = [u32; size::DISTANCES_WORDS];
pub type DistanceWords = [u32; size::DISTANCE_WORDS];

/// The words of a check for strips, and of a strip.
pub type StripsWords = [u32; size::STRIPS_WORDS];
pub type StripWords = [u32; size::STRIP_WORDS];

fn mode_word(mode: Mode) -> u32 {
    match mode {
        Mode::Lines => number::MODE_LINES,
        Mode::Fillets => number::MODE_FILLETS,
        Mode::Dubins => number::MODE_DUBINS,
    }
}

/// Puts numbers into the words from a place on.
fn put(words: &mut Words, from: usize, numbers: impl Iterator<Item = i32>) {
    for (word, number) in words[from..].iter_mut().zip(numbers) {
        *word = number;
    }
}

pub fn of_state(state: &State) -> Words {
    let mut words = [0; STATE_WORDS];
    for (place, number) in [
        (SERIAL, state.serial),
        (MODE, mode_word(state.mode)),
        (RADIUS, state.radius),
        (COUNT, state.count),
        (INDEX, state.index),
        (PHASE, state.phase),
        (FINISHED, u32::from(state.finished)),
    ] {
        words[place] = number as i32;
    }
    put(&mut words, NORTHS, state.points.iter().map(|point| point[0]));
    put(&mut words, EASTS, state.points.iter().map(|point| point[1]));
    put(&mut words, DOWNS, state.points.iter().map(|point| point[2]));
    put(&mut words, COURSES, state.courses.iter().map(|course| *course as i32));
    words
}

fn take_points(words: &Words, state: &mut State) {
    let (norths, easts, downs) = (&words[NORTHS..], &words[EASTS..], &words[DOWNS..]);
    for (point, ((north, east), down)) in state.points.iter_mut().zip(norths.iter().zip(easts).zip(downs)) {
        *point = [*north, *east, *down];
    }
}

fn take_courses(words: &Words, state: &mut State) {
    for (course, word) in state.courses.iter_mut().zip(&words[COURSES..]) {
        *course = *word as u32;
    }
}

/// The state that words hold, or none where the mode, the radius, the phase or the finished word is no such thing.
pub fn to_state(words: &Words) -> Option<State> {
    let mode = match words[MODE] as u32 {
        number::MODE_LINES => Mode::Lines,
        number::MODE_FILLETS => Mode::Fillets,
        number::MODE_DUBINS => Mode::Dubins,
        _ => return None,
    };
    let radius = u16::try_from(words[RADIUS]).ok()?;
    let phase = u8::try_from(words[PHASE]).ok()?;
    if !(0..=1).contains(&words[FINISHED]) {
        return None;
    }
    let mut state = State { serial: words[SERIAL] as u32, mode, count: words[COUNT] as u32, ..State::EMPTY };
    (state.radius, state.index, state.phase) = (u32::from(radius), words[INDEX] as u32, u32::from(phase));
    state.finished = words[FINISHED] == 1;
    take_points(words, &mut state);
    take_courses(words, &mut state);
    Some(state)
}

fn place(command: &mut CommandNumbers, places: [usize; 3], numbers: [f32; 3]) {
    for (place, number) in places.into_iter().zip(numbers) {
        command[place] = number;
    }
}

/// A command's numbers, 0 where it has none.
fn numbers_of(command: &Command) -> CommandNumbers {
    let mut numbers = [0.0; COMMAND_NUMBERS];
    match *command {
        Command::None => {}
        Command::Line { start, direction } => {
            place(&mut numbers, LINE_START, start);
            place(&mut numbers, LINE_DIRECTION, direction);
        }
        Command::Circle { centre, radius, .. } => {
            place(&mut numbers, CIRCLE_CENTRE, centre);
            numbers[size::CIRCLE_RADIUS] = radius;
        }
    }
    numbers
}

pub fn of_answer(answer: &Answer) -> (AnswerWords, CommandNumbers) {
    let (refusal, place) = answer.refusal.map_or((number::ACCEPTED, 0), |r| (r.number, r.place));
    let (kind, sense) = match answer.command {
        Command::None => (number::COMMAND_NONE, number::SENSE_NONE),
        Command::Line { .. } => (number::COMMAND_LINE, number::SENSE_NONE),
        Command::Circle { sense, .. } => (number::COMMAND_CIRCLE, sense as u32),
    };
    let mut words = progress_words(answer.index, answer.phase, u32::from(answer.finished));
    for (place, word) in [
        (size::ANSWER_REFUSAL, refusal),
        (size::ANSWER_PLACE, place),
        (size::ANSWER_KIND, kind),
        (size::ANSWER_SENSE, sense),
        (size::ANSWER_HEADING, answer.heading),
    ] {
        words[place] = word;
    }
    (words, numbers_of(&answer.command))
}

/// An answer's words with an index, a phase and finished, and 0 elsewhere.
fn progress_words(index: u32, phase: u32, finished: u32) -> AnswerWords {
    let mut words = [0; size::ANSWER_WORDS];
    words[size::ANSWER_INDEX] = index;
    words[size::ANSWER_PHASE] = phase;
    words[size::ANSWER_FINISHED] = finished;
    words
}

/// The answer to a fix on words that hold no state: refused, with the progress words as they were given.
pub fn of_no_state(words: &Words) -> (AnswerWords, CommandNumbers) {
    let [index, phase, finished] = [INDEX, PHASE, FINISHED].map(|place| words[place] as u32);
    let mut answer = progress_words(index, phase, finished);
    answer[size::ANSWER_REFUSAL] = number::REFUSED_NO_STATE;
    (answer, [0.0; COMMAND_NUMBERS])
}

const NO_REFUSAL: Refusal = Refusal { number: number::ACCEPTED, place: 0 };
const NO_STATE: Refusal = Refusal { number: number::REFUSED_NO_STATE, place: 0 };

/// A table of distances: that it is made, or why not.
pub fn of_distances(made: &Result<(), Refusal>) -> DistancesWords {
    let refusal = made.err().unwrap_or(NO_REFUSAL);
    let mut words = [0; size::DISTANCES_WORDS];
    words[size::DISTANCES_REFUSAL] = refusal.number;
    words[size::DISTANCES_PLACE] = refusal.place;
    words
}

/// Makes the table of distances of the state that words hold.
pub fn distances_of(words: &Words, table: &mut [u32]) -> DistancesWords {
    of_distances(&to_state(words).map_or(Err(NO_STATE), |state| distances(&state, table)))
}

/// The distance at a state, 0 where it is refused.
pub fn of_distance(left: &Result<u32, Refusal>) -> DistanceWords {
    let refusal = left.err().unwrap_or(NO_REFUSAL);
    let mut words = [0; size::DISTANCE_WORDS];
    words[size::DISTANCE_REFUSAL] = refusal.number;
    words[size::DISTANCE_PLACE] = refusal.place;
    words[size::DISTANCE_LEFT] = left.unwrap_or(0);
    words
}

/// The distance at the state that words hold.
pub fn distance_of(words: &Words) -> DistanceWords {
    of_distance(&to_state(words).map_or(Err(NO_STATE), |state| distance(&state)))
}

/// A check for strips: how many there are, or what is at fault.
pub fn of_check(checked: &Result<u32, Fault>) -> StripsWords {
    let accepted = Fault { refusal: NO_REFUSAL, rule: 0 };
    let fault = checked.err().unwrap_or(accepted);
    let mut words = [0; size::STRIPS_WORDS];
    words[size::STRIPS_REFUSAL] = fault.refusal.number;
    words[size::STRIPS_PLACE] = fault.refusal.place;
    words[size::STRIPS_RULE] = fault.rule;
    words[size::STRIPS_COUNT] = checked.unwrap_or(0);
    words
}

/// The check for strips of the state that words hold.
pub fn strips_of(words: &Words) -> StripsWords {
    let no_state = Fault { refusal: NO_STATE, rule: 0 };
    of_check(&to_state(words).map_or(Err(no_state), |state| strips::check(&state)))
}

/// A strip's row, 0 where there is none.
fn of_row(row: Option<Row>) -> StripWords {
    let mut words = [0; size::STRIP_WORDS];
    if let Some(row) = row {
        words[size::STRIP_NUMBER] = row.number;
        words[size::STRIP_COURSE] = row.course;
        words[size::STRIP_LENGTH] = row.length;
    }
    words
}

/// The strip with a number of those that words hold.
pub fn strip_of(words: &Words, number: u32) -> StripWords {
    of_row(to_state(words).and_then(|state| strips::row(&state, number)))
}

pub fn hex_of_words<T: UpperHex>(words: &[T]) -> String {
    words.iter().map(|word| format!("{word:08X}")).collect()
}

pub fn hex_of_bytes(bytes: &[u8]) -> String {
    bytes.iter().map(|byte| format!("{byte:02X}")).collect()
}
