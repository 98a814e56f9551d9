//! The runs: loads, fixes, writes, states. Those of notes, strips and distances stand with their comparisons.

use crate::chance::Chance;
use crate::compare::{Case, Tally};
use crate::files::{loading_file, random_file};
use crate::positions::random_fix;
use compiled::words::{self, Words, COUNT, COURSES, DOWNS, EASTS, FINISHED, INDEX, NORTHS, PHASE, SERIAL, STATE_WORDS};
use reference::state::PLACES;
use reference::{file, State};

const ODD_VERSIONS: [u32; 16] =
    [0, 4, 5, 7, 255, 256, 257, 258, 259, 65_535, 65_537, 65_538, 65_539, 0x8000_0001, 0xFFFF_FFFE, u32::MAX];

fn random_version(c: &mut Chance) -> u32 {
    match c.below(12) {
        0 => c.pick(&ODD_VERSIONS),
        1 => c.between(0, 4) as u32,
        n => 1 + n as u32 % 3,
    }
}

pub fn loads(tally: &mut Tally, n: u64, seed: u64) {
    for number in 0..n {
        let case = Case { part: "load", seed, number };
        let c = &mut Chance::new(seed, number);
        let file = random_file(c);
        tally.compare_load(case, &file, random_version(c));
    }
}

/// Flights of random valid plans, each for some dozens of fixes.
pub fn fixes(tally: &mut Tally, n: u64, seed: u64) {
    let end = tally.fixes + n;
    let mut number = 0;
    while tally.fixes < end {
        let case = Case { part: "fix", seed, number };
        let c = &mut Chance::new(seed, number);
        let (_, state) = loading_file(c);
        let mut held = words::of_state(&state);
        for _ in 0..c.between(20, 80).min((end - tally.fixes) as i64) {
            one_fix(tally, case, c, &mut held);
            // A finished flight stays where it is: a few more fixes show that.
            if held[FINISHED] == 1 && c.one_in(5) {
                break;
            }
        }
        number += 1;
    }
}

/// One fix of a flight; a broken copy of the state is tried now and then and forgotten again.
fn one_fix(tally: &mut Tally, case: Case, c: &mut Chance, held: &mut Words) {
    let state = words::to_state(held).expect("a flight's words hold a state");
    let fix = random_fix(c, &state);
    let named = random_name(c, state.serial);
    if c.one_in(12) {
        let mut broken = *held;
        break_words(c, &mut broken);
        tally.compare_fix(case, &mut broken, named, fix);
    } else {
        tally.compare_fix(case, held, named, fix);
    }
}

fn random_name(c: &mut Chance, serial: u32) -> u32 {
    if c.one_in(20) {
        c.pick(&[0, serial ^ 1, serial ^ 0x8000_0000, serial.wrapping_add(1), !serial])
    } else {
        serial
    }
}

pub fn break_words(c: &mut Chance, words: &mut Words) {
    for _ in 0..c.between(1, 2) {
        let place = match c.below(4) {
            0 | 1 => c.below(NORTHS),
            2 => c.below(STATE_WORDS),
            _ => block_place(c, words[COUNT]),
        };
        words[place] = random_word(c, words[place]);
    }
}

/// The first or the last place of a block, or the first that a plan does not use.
fn block_place(c: &mut Chance, count: i32) -> usize {
    let last = PLACES - 1;
    let unused = (count as u32 as usize).min(last);
    c.pick(&[NORTHS, EASTS, DOWNS, COURSES]) + c.pick(&[0, last, unused])
}

fn random_word(c: &mut Chance, was: i32) -> i32 {
    #[rustfmt::skip] // not a line for each
    const EDGES: [i32; 26] = [
        0, 1, 2, 3, 4, 5, 6, 49, 50, 63, 64, 65, 255, 256, 4095, 4096, 10_000, 10_001, 65_535, 65_536, 100_000, 100_001, 500_000,
        500_001, i32::MAX, i32::MIN,
    ];
    match c.below(7) {
        0 => was.wrapping_add(1),
        1 => was.wrapping_sub(1),
        2 => was ^ 1 << c.below(32),
        3 => c.pick(&EDGES).wrapping_neg(),
        // What a narrower number would take for the same.
        4 => was.wrapping_add(c.pick(&[256, -256, 4096, -4096, 65_536, -65_536])),
        _ => c.pick(&EDGES),
    }
}

/// An index, phase and finished that the mode allows, every other time on one of the last two legs.
pub fn random_progress(c: &mut Chance, state: &mut State) {
    let first = if c.one_in(2) { state.count - 1 } else { 2 };
    state.index = c.between(i64::from(first), i64::from(state.count)) as u32;
    state.phase = c.between(1, i64::from(state.last_phase())) as u32;
    state.finished = state.at_last_place() && c.one_in(2);
}

fn random_room(c: &mut Chance, length: usize) -> usize {
    match c.below(8) {
        0 => 0,
        1 => c.below(1300),
        2 => length + c.below(300),
        _ => length + 2 - c.below(5),
    }
}

pub fn writes(tally: &mut Tally, n: u64, seed: u64) {
    for number in 0..n {
        let case = Case { part: "write", seed, number };
        let c = &mut Chance::new(seed, number);
        let (_, mut state) = loading_file(c);
        random_progress(c, &mut state);
        let mut held = words::of_state(&state);
        let room = random_room(c, file::file_length(&state));
        if c.one_in(8) {
            break_words(c, &mut held);
        }
        tally.compare_write(case, &held, random_version(c), room);
    }
}

/// States at any place of a plan, many of them broken: a fix, a write, and now and then slices that are too short.
pub fn states(tally: &mut Tally, n: u64, seed: u64) {
    for number in 0..n {
        let case = Case { part: "state", seed, number };
        let c = &mut Chance::new(seed, number);
        let (file, mut state) = loading_file(c);
        random_progress(c, &mut state);
        let fix = random_fix(c, &state);
        let mut held = words::of_state(&state);
        match c.below(4) {
            0 => {}
            1 => break_progress(c, &mut held),
            _ => break_words(c, &mut held),
        }
        let named = random_name(c, held[SERIAL] as u32);
        let room = random_room(c, file::file_length(&state));
        tally.compare_write(case, &held, random_version(c), room);
        if c.one_in(16) {
            let cut = c.pick(&[1, 2, 5, 400]);
            tally.compare_short_slices(case, &held, &file, cut);
        }
        tally.compare_fix(case, &mut held, named, fix);
    }
}

/// Any progress, or one about the end that a mode allows and another may not.
pub fn break_progress(c: &mut Chance, words: &mut Words) {
    let count = i64::from(words[COUNT]);
    let (index, phase, finished) = if c.one_in(2) {
        (c.between(count - 1, count), c.pick(&[1, 2, 4, 5]), c.between(0, 1))
    } else {
        (c.between(0, count + 1), c.between(0, 6), c.between(0, 2))
    };
    (words[INDEX], words[PHASE], words[FINISHED]) = (index as i32, phase as i32, finished as i32);
}
