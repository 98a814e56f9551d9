//! The same calls by three: the compiled manager, the reference over the words of the C interface, and the reference with its own state. They
//! take turns, so that what else the machine does falls on all of them.

use compiled::calls::{self, ANSWER_WORDS, COMMAND_NUMBERS, DISTANCES_WORDS, LOAD_WORDS, STRIPS_WORDS, TABLE_ENTRIES};
use compiled::words::{self, Words, FINISHED, INDEX, PHASE, SERIAL, STATE_WORDS};
use reference::strips::check;
use reference::{distance, load, State};
use std::hint::black_box;
use std::ops::Range;
use std::time::Instant;

const READER: u32 = 3;
const TURNS: u64 = 20;

/// Nanoseconds a call.
pub struct Times {
    pub compiled: f64,
    pub words: f64,
    pub native: f64,
}

/// A sum of answers, so that no answer can be left out and the three can be held to each other.
type Sum = u64;

fn mixed(sum: Sum, words: &[u32]) -> Sum {
    words.iter().fold(sum, |sum, word| sum.rotate_left(5) ^ u64::from(*word))
}

/// Has each of the three make the calls with these numbers, a part of them at a time, and add up their answers.
fn by_turns(count: u64, mut three: [&mut dyn FnMut(Range<u64>, Sum) -> Sum; 3]) -> Times {
    let mut total = [0.0; 3];
    let mut sums = [0; 3];
    let mut done = 0;
    while done < count {
        let turn = (count / TURNS).max(1).min(count - done);
        for ((run, total), sum) in three.iter_mut().zip(&mut total).zip(&mut sums) {
            let begin = Instant::now();
            *sum = run(done..done + turn, *sum);
            *total += begin.elapsed().as_nanos() as f64;
        }
        done += turn;
    }
    assert!(sums[0] == sums[1] && sums[0] == sums[2], "the answers agree");
    let [compiled, words, native] = total.map(|nanoseconds| nanoseconds / count as f64);
    Times { compiled, words, native }
}

fn mixed_fix(sum: Sum, answer: &[u32; ANSWER_WORDS], command: &[f32; COMMAND_NUMBERS]) -> Sum {
    mixed(mixed(sum, answer), &command.map(f32::to_bits))
}

/// One fix by the reference on the same words: what the C interface does.
fn fix_words(held: &mut Words, serial: u32, fix: [f32; 3]) -> ([u32; ANSWER_WORDS], [f32; COMMAND_NUMBERS]) {
    let Some(mut state) = words::to_state(held) else {
        return words::of_no_state(held);
    };
    let answer = state.fix(serial, fix);
    (held[INDEX], held[PHASE], held[FINISHED]) = (state.index as i32, state.phase as i32, i32::from(state.finished));
    words::of_answer(&answer)
}

/// Flies the list again and again, from the start each time.
pub fn fixes(start: &State, list: &[[f32; 3]], count: u64) -> Times {
    let first = words::of_state(start);
    let (mut held, mut copy, mut state) = (first, first, *start);
    let place = |n: u64| n as usize % list.len();
    let mut compiled = |turn: Range<u64>, sum: Sum| {
        turn.map(place).fold(sum, |sum, k| {
            if k == 0 {
                held = first;
            }
            let (mut answer, mut command) = ([0; ANSWER_WORDS], [0.0; COMMAND_NUMBERS]);
            calls::fix(&mut held, start.serial, list[k], &mut answer, &mut command);
            mixed_fix(sum, &answer, &command)
        })
    };
    let mut by_words = |turn: Range<u64>, sum: Sum| {
        turn.map(place).fold(sum, |sum, k| {
            if k == 0 {
                copy = first;
            }
            let (answer, command) = fix_words(&mut copy, start.serial, list[k]);
            mixed_fix(sum, &answer, &command)
        })
    };
    let mut native = |turn: Range<u64>, sum: Sum| {
        turn.map(place).fold(sum, |sum, k| {
            if k == 0 {
                state = *start;
            }
            let (answer, command) = words::of_answer(&state.fix(start.serial, list[k]));
            mixed_fix(sum, &answer, &command)
        })
    };
    by_turns(count, [&mut compiled, &mut by_words, &mut native])
}

pub fn loads(file: &[u8], count: u64) -> Times {
    let mut compiled = |turn: Range<u64>, sum: Sum| {
        turn.fold(sum, |sum, _| {
            let (mut state, mut answer) = ([0; STATE_WORDS], [0; LOAD_WORDS]);
            let number = calls::load(black_box(file), READER, &mut state, &mut answer);
            sum + u64::from(number) + u64::from(black_box(&state)[SERIAL] as u32)
        })
    };
    let mut by_words = |turn: Range<u64>, sum: Sum| {
        turn.fold(sum, |sum, _| {
            let loaded = load(black_box(file), READER);
            let state = words::of_state(&loaded.unwrap_or(State::EMPTY));
            sum + u64::from(loaded.map_or_else(|r| r.number, |_| 0)) + u64::from(black_box(&state)[SERIAL] as u32)
        })
    };
    let mut native = |turn: Range<u64>, sum: Sum| {
        turn.fold(sum, |sum, _| {
            let loaded = load(black_box(file), READER);
            sum + black_box(&loaded).map_or_else(|r| u64::from(r.number), |state| u64::from(state.serial))
        })
    };
    by_turns(count, [&mut compiled, &mut by_words, &mut native])
}

/// Checks of a strip plan, so that every strip is asked.
pub fn strips(state: &State, count: u64) -> Times {
    assert!(check(state).is_ok(), "the plan of the benchmark is a strip plan");
    let held = words::of_state(state);
    let mut compiled = |turn: Range<u64>, sum: Sum| {
        turn.fold(sum, |sum, _| {
            let mut answer = [0; STRIPS_WORDS];
            calls::strips(black_box(&held), &mut answer);
            mixed(sum, &answer)
        })
    };
    let mut by_words =
        |turn: Range<u64>, sum: Sum| turn.fold(sum, |sum, _| mixed(sum, &words::strips_of(black_box(&held))));
    let mut native =
        |turn: Range<u64>, sum: Sum| turn.fold(sum, |sum, _| mixed(sum, &words::of_check(&check(black_box(state)))));
    by_turns(count, [&mut compiled, &mut by_words, &mut native])
}

/// Tables of distances, each with room for every plan; what is written of them is added up.
pub fn distances(state: &State, count: u64) -> Times {
    let held = words::of_state(state);
    let last = state.count as usize;
    let added = |sum: Sum, answer: &[u32], table: &[u32; TABLE_ENTRIES]| mixed(mixed(sum, answer), &table[2..=last]);
    let mut compiled = |turn: Range<u64>, sum: Sum| {
        turn.fold(sum, |sum, _| {
            let (mut table, mut answer) = ([0; TABLE_ENTRIES], [0; DISTANCES_WORDS]);
            calls::distances(black_box(&held), &mut table, &mut answer);
            added(sum, &answer, &table)
        })
    };
    let mut by_words = |turn: Range<u64>, sum: Sum| {
        turn.fold(sum, |sum, _| {
            let mut table = [0; TABLE_ENTRIES];
            let answer = words::distances_of(black_box(&held), &mut table);
            added(sum, &answer, &table)
        })
    };
    let mut native = |turn: Range<u64>, sum: Sum| {
        turn.fold(sum, |sum, _| {
            let mut table = [0; TABLE_ENTRIES];
            let answer = words::of_distances(&distance::distances(black_box(state), &mut table));
            added(sum, &answer, &table)
        })
    };
    by_turns(count, [&mut compiled, &mut by_words, &mut native])
}
