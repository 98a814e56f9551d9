//! Each call made twice, by the reference and by the compiled manager, and every word compared.

use crate::distance_counts::Distances;
use crate::notes::Notes;
use crate::strips::Strips;
use crate::turns::Turns;
use compiled::calls::{
    self, ANSWER_WORDS, CHECK_WORDS, COMMAND_NUMBERS, LOAD_WORDS, MISFIT, NOTES_WORDS, STRIPS_WORDS, STRIP_WORDS,
    WRITE_WORDS,
};
use compiled::words::{self, hex_of_bytes, hex_of_words, Words, SERIAL, STATE_WORDS};
use reference::{load, write, State};

/// What lent memory holds before a call, so that a word too few or too many shows.
pub const PATTERN: u32 = 0xA5A5_A5A5;
pub const STATE_PATTERN: i32 = PATTERN as i32;
pub const BYTE_PATTERN: u8 = 0x5A;
/// So much more is lent than needed, and must stay as it was.
pub const SPARE: usize = 3;

/// What the runs counted.
#[derive(Default)]
pub struct Tally {
    pub loads: u64,
    pub fixes: u64,
    pub writes: u64,
    pub disagreements: u64,
    pub load_refusals: [u64; 18],
    pub turns: Turns,
    pub fix_refusals: [u64; 18],
    pub write_refusals: [u64; 18],
    /// Sound fixes by mode and phase, then those that changed the place.
    pub phases: [[u64; 6]; 3],
    pub steps: u64,
    /// Sound fixes at the last index by mode, and those that finished a flight.
    pub last_legs: [u64; 3],
    pub ends: [u64; 3],
    pub notes: Notes,
    pub strips: Strips,
    pub distances: Distances,
}

/// Seed and number of the case at hand.
#[derive(Clone, Copy)]
pub struct Case {
    pub part: &'static str,
    pub seed: u64,
    pub number: u64,
}

impl Tally {
    pub fn disagree(&mut self, case: Case, what: String) {
        self.disagreements += 1;
        println!("disagree {} seed {} number {} {}", case.part, case.seed, case.number, what);
    }

    pub fn compare_load(&mut self, case: Case, file: &[u8], reader: u32) {
        let expected = load(file, reader);
        let (number, place) = expected.map_or_else(|r| (r.number, r.place), |_| (0, 0));
        let mut state_wanted = [STATE_PATTERN; STATE_WORDS + SPARE];
        state_wanted[..STATE_WORDS].copy_from_slice(&words::of_state(&expected.unwrap_or(State::EMPTY)));
        let answer_wanted = [number, place, PATTERN];
        let mut state = [STATE_PATTERN; STATE_WORDS + SPARE];
        let mut answer = [PATTERN; LOAD_WORDS + 1];
        let result = calls::load(file, reader, &mut state, &mut answer);
        let mut checked = [PATTERN; CHECK_WORDS + 1];
        let desk = (calls::refusal(file, reader), calls::check(file, reader, &mut checked));
        self.loads += 1;
        self.load_refusals[number as usize] += 1;
        if let Ok(state) = &expected {
            self.turns.count(state);
        }
        let desk_agrees = (desk, checked) == ((number, number), answer_wanted);
        if (result, answer, state) != (number, answer_wanted, state_wanted) || !desk_agrees {
            let file = hex_of_bytes(file);
            let differing = first_difference(&state, &state_wanted);
            self.disagree(
                case,
                format!(
                    "reader {reader} reference {number} at {place} compiled {result} {answer:?} desk {desk:?} {checked:?} \
                     state {differing} file {file}"
                ),
            );
        }
    }

    /// Compares one fix and leaves the next state in the words.
    pub fn compare_fix(&mut self, case: Case, state: &mut Words, named: u32, fix: [f32; 3]) {
        let before = *state;
        let mut after = before;
        let (answer_wanted, command_wanted) = match words::to_state(&before) {
            Some(mut held) => {
                let answer = held.fix(named, fix);
                after = words::of_state(&held);
                words::of_answer(&answer)
            }
            None => words::of_no_state(&before),
        };
        let mut lent = [STATE_PATTERN; STATE_WORDS + SPARE];
        lent[..STATE_WORDS].copy_from_slice(&before);
        let mut answer = [PATTERN; ANSWER_WORDS + 1];
        let mut command = [f32::from_bits(PATTERN); COMMAND_NUMBERS + 1];
        let result = calls::fix(&mut lent, named, fix, &mut answer, &mut command);
        self.count_fix(&before, &after, answer_wanted[0]);
        let bits = command.map(f32::to_bits);
        let agrees = result == answer_wanted[0]
            && answer[..ANSWER_WORDS] == answer_wanted
            && bits[..COMMAND_NUMBERS] == command_wanted.map(f32::to_bits)
            && lent[..STATE_WORDS] == after
            && lent[STATE_WORDS..] == [STATE_PATTERN; SPARE]
            && (answer[ANSWER_WORDS], bits[COMMAND_NUMBERS]) == (PATTERN, PATTERN);
        if !agrees {
            let differing = first_difference(&lent, &after);
            let wanted = hex_of_words(&command_wanted.map(f32::to_bits));
            let (fix, got, held) = (hex_of_words(&fix.map(f32::to_bits)), hex_of_words(&bits), hex_of_words(&before));
            self.disagree(
                case,
                format!(
                    "named {named} fix {fix} reference {answer_wanted:?} {wanted} compiled {result} {answer:?} {got} \
                     state {differing} before {held}"
                ),
            );
        }
        *state = after;
    }

    fn count_fix(&mut self, before: &Words, after: &Words, refusal: u32) {
        self.fixes += 1;
        self.fix_refusals[refusal as usize] += 1;
        if refusal == 0 {
            let mode = before[words::MODE] as usize;
            self.phases[mode][before[words::PHASE] as usize] += 1;
            self.steps += u64::from(before != after);
            self.last_legs[mode] += u64::from(before[words::INDEX] == before[words::COUNT]);
            self.ends[mode] += u64::from(before[words::FINISHED] != after[words::FINISHED]);
        }
    }

    pub fn compare_write(&mut self, case: Case, state: &Words, version: u32, room: usize) {
        let expected = match words::to_state(state) {
            Some(held) => write(&held, version, room).map_err(|r| (r.number, r.place)),
            None => Err((14, 0)),
        };
        let mut file_wanted = vec![BYTE_PATTERN; room];
        let (number, place, length) = match &expected {
            Ok(file) => (0, 0, file.len()),
            Err((number, place)) => (*number, *place, 0),
        };
        file_wanted[..length].copy_from_slice(expected.as_deref().unwrap_or(&[]));
        let answer_wanted = [number, place, length as u32, PATTERN];
        let mut file = vec![BYTE_PATTERN; room];
        let mut answer = [PATTERN; WRITE_WORDS + 1];
        let result = calls::write(state, version, &mut file, &mut answer);
        self.writes += 1;
        self.write_refusals[number as usize] += 1;
        if (result, answer) != (number, answer_wanted) || file != file_wanted {
            let (got, held) = (hex_of_bytes(&file), hex_of_words(state));
            self.disagree(
                case,
                format!(
                    "version {version} room {room} reference {answer_wanted:?} compiled {result} {answer:?} \
                     state {held} file {got}"
                ),
            );
        }
    }

    /// Calls with one lent slice a word or more too short: refused, and nothing written. Those for a note and for distances have their own.
    pub fn compare_short_slices(&mut self, case: Case, state: &Words, file: &[u8], cut: usize) {
        let (mut lent, serial) = (*state, state[SERIAL] as u32);
        let mut answer = [PATTERN; ANSWER_WORDS];
        let mut command = [f32::from_bits(PATTERN); COMMAND_NUMBERS];
        let mut room = [BYTE_PATTERN; 1200];
        let less = |length: usize| length.saturating_sub(cut);
        let results = [
            calls::load(file, 3, &mut lent[..less(STATE_WORDS)], &mut answer),
            calls::load(file, 3, &mut lent, &mut answer[..less(LOAD_WORDS)]),
            calls::fix(&mut lent[..less(STATE_WORDS)], serial, [0.0; 3], &mut answer, &mut command),
            calls::fix(&mut lent, serial, [0.0; 3], &mut answer[..less(ANSWER_WORDS)], &mut command),
            calls::fix(&mut lent, serial, [0.0; 3], &mut answer, &mut command[..less(COMMAND_NUMBERS)]),
            calls::write(&lent[..less(STATE_WORDS)], 3, &mut room, &mut answer),
            calls::write(&lent, 3, &mut room, &mut answer[..less(WRITE_WORDS)]),
            calls::check(file, 3, &mut answer[..less(CHECK_WORDS)]),
            calls::notes(file, &mut answer[..less(NOTES_WORDS)]),
            calls::strips(&lent[..less(STATE_WORDS)], &mut answer),
            calls::strips(&lent, &mut answer[..less(STRIPS_WORDS)]),
            calls::strip(&lent[..less(STATE_WORDS)], 1, &mut answer),
            calls::strip(&lent, 1, &mut answer[..less(STRIP_WORDS)]),
        ];
        let untouched = lent == *state
            && answer == [PATTERN; ANSWER_WORDS]
            && command.map(f32::to_bits) == [PATTERN; COMMAND_NUMBERS]
            && room == [BYTE_PATTERN; 1200];
        if results != [MISFIT; 13] || !untouched {
            let (file, held) = (hex_of_bytes(file), hex_of_words(state));
            let seen = format!("short by {cut} results {results:?} untouched {untouched}");
            self.disagree(case, format!("{seen} file {file} state {held}"));
        }
    }
}

/// The first word that differs, as place, compiled, reference.
fn first_difference(got: &[i32], wanted: &[i32]) -> String {
    match got.iter().zip(wanted).position(|(g, w)| g != w) {
        Some(at) => format!("word {at} {:08X} for {:08X}", got[at], wanted[at]),
        None => "equal".into(),
    }
}
