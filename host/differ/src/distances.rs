//! The run of distances, and its comparison: plans of each mode at every place, whole and broken, and tables of every length about the one they need.

use crate::chance::Chance;
use crate::compare::{Case, Tally, PATTERN, SPARE, STATE_PATTERN};
use crate::distance_counts::Misfit;
use crate::files::loading_file;
use crate::plans::random_plan;
use crate::positions::random_fix;
use crate::runs::{break_progress, break_words, random_progress};
use compiled::calls::{self, ANSWER_WORDS, COMMAND_NUMBERS, DISTANCES_WORDS, DISTANCE_WORDS, MISFIT, TABLE_ENTRIES};
use compiled::words::{self, hex_of_words, Words, COUNT, DISTANCE_LEFT, STATE_WORDS};
use reference::state::PLACES;
use reference::State;
use std::hint::black_box;

/// Memory that is lent out of the middle of more, so that a word before or behind it shows.
#[derive(Clone, PartialEq)]
struct Lent<T>(Vec<T>);

impl<T: Copy> Lent<T> {
    fn new(length: usize, pattern: T) -> Lent<T> {
        Lent(vec![pattern; length + 2 * SPARE])
    }

    fn part(&mut self) -> &mut [T] {
        let end = self.0.len() - SPARE;
        &mut self.0[SPARE..end]
    }
}

/// All that a call is lent.
#[derive(Clone, PartialEq)]
struct Memory {
    state: Lent<i32>,
    table: Lent<u32>,
    answer: Lent<u32>,
}

impl Memory {
    fn shown(&self) -> String {
        let Memory { state, table, answer } = self;
        format!("answer {} table {} state {}", hex_of_words(&answer.0), hex_of_words(&table.0), hex_of_words(&state.0))
    }
}

/// What is asked of a state's words: a table of so many entries, or the distance at the state.
#[derive(Clone, Copy, Debug)]
enum What {
    Table(usize),
    Left,
}

/// A question, with so many words for the state and for the answer.
#[derive(Clone, Copy, Debug)]
struct Question {
    what: What,
    state: usize,
    answer: usize,
}

impl Question {
    /// With so many words to spare.
    fn new(what: What, spare: usize) -> Question {
        Question { what, state: STATE_WORDS + spare, answer: answer_words(what) + spare }
    }

    fn memory(&self, held: &Words) -> Memory {
        let entries = match self.what {
            What::Table(length) => length,
            What::Left => 0,
        };
        let mut state = Lent::new(self.state, STATE_PATTERN);
        let words = self.state.min(STATE_WORDS);
        state.part()[..words].copy_from_slice(&held[..words]);
        Memory { state, table: Lent::new(entries, PATTERN), answer: Lent::new(self.answer, PATTERN) }
    }

    fn fits(&self) -> bool {
        self.state >= STATE_WORDS && self.answer >= answer_words(self.what)
    }

    /// What the reference answers and leaves.
    fn wanted(&self, held: &Words) -> (u32, Memory) {
        let mut memory = self.memory(held);
        if !self.fits() {
            return (MISFIT, memory);
        }
        let words = match self.what {
            What::Table(_) => words::distances_of(held, memory.table.part()).to_vec(),
            What::Left => words::distance_of(held).to_vec(),
        };
        memory.answer.part()[..words.len()].copy_from_slice(&words);
        (words[0], memory)
    }

    /// What the compiled manager answers and leaves.
    fn made(&self, held: &Words) -> (u32, Memory) {
        let mut memory = self.memory(held);
        let Memory { state, table, answer } = &mut memory;
        let state = black_box(state.part());
        let result = match self.what {
            What::Table(_) => calls::distances(state, table.part(), answer.part()),
            What::Left => calls::distance(state, answer.part()),
        };
        // A black box, so that the compiler does not take it for granted that the state was only read.
        (result, black_box(memory))
    }
}

fn answer_words(what: What) -> usize {
    match what {
        What::Table(_) => DISTANCES_WORDS,
        What::Left => DISTANCE_WORDS,
    }
}

/// Asks both, compares the result and all of the memory, and hands over what the compiled manager left.
fn compare(tally: &mut Tally, case: Case, held: &Words, question: Question) -> Memory {
    let (result_wanted, wanted) = question.wanted(held);
    let (result, memory) = question.made(held);
    match question.what {
        _ if !question.fits() => {}
        What::Table(length) => tally.distances.count_table(held, length, result_wanted),
        What::Left => tally.distances.count_left(held, result_wanted),
    }
    if result != result_wanted || memory != wanted {
        let (wanted, got) = (wanted.shown(), memory.shown());
        tally.disagree(case, format!("{question:?} reference {result_wanted} {wanted} compiled {result} {got}"));
    }
    memory
}

/// A table with room for every plan, as the compiled manager makes it.
fn compare_table(tally: &mut Tally, case: Case, held: &Words) -> Vec<u32> {
    compare(tally, case, held, Question::new(What::Table(TABLE_ENTRIES), 0)).table.part().to_vec()
}

/// The distance at a state, which a table of its plan has at its index.
fn compare_left(tally: &mut Tally, case: Case, place: &State, table: &[u32]) {
    let held = words::of_state(place);
    let left = compare(tally, case, &held, Question::new(What::Left, 0)).answer.part()[DISTANCE_LEFT];
    let entry = table[place.index as usize];
    if left != entry {
        tally.disagree(case, format!("left {left} entry {entry} state {}", hex_of_words(&held)));
    }
}

/// The plan at each place that its mode allows.
fn places(state: &State) -> impl Iterator<Item = State> + '_ {
    let at = |index, phase| State { index, phase, finished: false, ..*state };
    let phases = move |index| (1..=at(index, 1).last_phase()).map(move |phase| at(index, phase));
    let unfinished = (2..=state.count).flat_map(phases);
    let finished = at(state.count, at(state.count, 1).last_phase());
    unfinished.chain([State { finished: true, ..finished }])
}

fn compare_everywhere(tally: &mut Tally, case: Case, state: &State) {
    let table = compare_table(tally, case, &words::of_state(state));
    for place in places(state) {
        compare_left(tally, case, &place, &table);
    }
}

/// The table of a plan is the same after some fixes.
fn compare_in_flight(tally: &mut Tally, case: Case, c: &mut Chance, state: &State) {
    let from = words::of_state(state);
    let to = flown(c, &from);
    let before = compare_table(tally, case, &from);
    let after = compare_table(tally, case, &to);
    tally.distances.count_flight(state.mode, &from, &to);
    if before != after {
        let (before, after, from, to) =
            (hex_of_words(&before), hex_of_words(&after), hex_of_words(&from), hex_of_words(&to));
        tally.disagree(case, format!("table {before} of {from} and later {after} of {to}"));
    }
    let place = words::to_state(&to).expect("a flight's words hold a state");
    compare_left(tally, case, &place, &before);
}

/// What some fixes make of a state, by the compiled manager.
fn flown(c: &mut Chance, from: &Words) -> Words {
    let mut held = *from;
    for _ in 0..c.between(1, 16) {
        let state = words::to_state(&held).expect("a flight's words hold a state");
        let fix = random_fix(c, &state);
        calls::fix(&mut held, state.serial, fix, &mut [0; ANSWER_WORDS], &mut [0.0; COMMAND_NUMBERS]);
    }
    held
}

/// Calls that are lent a state or an answer which is too short, with tables of any length.
fn compare_misfits(tally: &mut Tally, case: Case, c: &mut Chance, held: &Words) {
    let cut = c.pick(&[1, 2, 5, STATE_WORDS]);
    let less = |length: usize| length.saturating_sub(cut);
    let table = Question::new(What::Table(random_length(c, held)), 0);
    let left = Question::new(What::Left, 0);
    for (misfit, question) in [
        (Misfit::TableByState, Question { state: less(STATE_WORDS), ..table }),
        (Misfit::TableByAnswer, Question { answer: less(DISTANCES_WORDS), ..table }),
        (Misfit::LeftByState, Question { state: less(STATE_WORDS), ..left }),
        (Misfit::LeftByAnswer, Question { answer: less(DISTANCE_WORDS), ..left }),
    ] {
        compare(tally, case, held, question);
        tally.distances.count_misfit(misfit);
    }
}

/// A plan as it was drawn: some of them break a rule by little.
fn drawn_state(c: &mut Chance) -> State {
    let plan = random_plan(c);
    let mut state = State { serial: 7, mode: plan.mode, radius: plan.radius as u32, ..State::EMPTY };
    state.count = plan.points.len() as u32;
    let numbers = plan.points.iter().map(|point| point.map(|part| part as i32));
    state.points.iter_mut().zip(numbers).for_each(|(place, point)| *place = point);
    state.courses.iter_mut().zip(plan.courses).for_each(|(place, course)| *place = course as u32);
    state
}

/// Words of a plan at any place that its mode allows, some of them broken.
fn random_words(c: &mut Chance) -> Words {
    let mut state = if c.one_in(8) { drawn_state(c) } else { loading_file(c).1 };
    random_progress(c, &mut state);
    let mut held = words::of_state(&state);
    match c.below(64) {
        0..=3 => break_progress(c, &mut held),
        4..=11 => break_words(c, &mut held),
        12 => held = words::of_state(&State::EMPTY),
        _ => {}
    }
    held
}

/// Mostly as many entries as the plan has points, or one more; else about so many, about the most that are needed, next to none, or any.
fn random_length(c: &mut Chance, held: &Words) -> usize {
    let points = held[COUNT].clamp(1, PLACES as i32) as usize;
    let most = TABLE_ENTRIES;
    let any = c.below(2 * most);
    let other = c.pick(&[points - 1, points + 2, points + 3, most - 1, most, most + 1, 0, 1, 2, any]);
    c.pick(&[points, points + 1, other, other])
}

/// Now and then every length up to more than any plan needs.
fn random_lengths(c: &mut Chance, held: &Words) -> Vec<usize> {
    if c.one_in(64) {
        return (0..=TABLE_ENTRIES + SPARE).collect();
    }
    vec![random_length(c, held)]
}

fn compare_sound(tally: &mut Tally, case: Case, c: &mut Chance, state: &State) {
    if c.one_in(32) {
        compare_everywhere(tally, case, state);
    }
    if c.one_in(8) {
        compare_in_flight(tally, case, c, state);
    }
}

pub fn run(tally: &mut Tally, n: u64, seed: u64) {
    for number in 0..n {
        let case = Case { part: "distances", seed, number };
        let c = &mut Chance::new(seed, number);
        let held = random_words(c);
        let spare = c.pick(&[0, SPARE]);
        tally.distances.states += 1;
        random_lengths(c, &held).into_iter().for_each(|length| {
            compare(tally, case, &held, Question::new(What::Table(length), spare));
        });
        compare(tally, case, &held, Question::new(What::Left, spare));
        if c.one_in(16) {
            compare_misfits(tally, case, c, &held);
        }
        if let Some(state) = words::to_state(&held).filter(State::is_sound) {
            compare_sound(tally, case, c, &state);
        }
    }
}
