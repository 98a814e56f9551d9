//! The run of strips, and its comparison: strip plans, plans that are nearly such, other plans, and broken states.

use crate::chance::Chance;
use crate::compare::{Case, Tally, PATTERN, SPARE, STATE_PATTERN};
use crate::files::loading_file;
use crate::runs::{break_progress, break_words, random_progress};
use crate::strip_plans::{spoil, strip_plan};
use compiled::calls::{self, STRIPS_WORDS};
use compiled::words::{self, hex_of_words, Words, STATE_WORDS};
use reference::state::PLACES;
use reference::{strips, Mode, State};
use std::collections::BTreeMap;
use std::hint::black_box;

/// Strips that a plan has at least, since it has three points or more.
const FEWEST: usize = 2;

#[derive(Clone, Copy, Debug, PartialEq, Eq, PartialOrd, Ord)]
pub enum Position {
    First,
    Middle,
    Last,
}

impl Position {
    fn of(j: u32, strips: u32) -> Position {
        match j {
            1 => Position::First,
            _ if j == strips => Position::Last,
            _ => Position::Middle,
        }
    }
}

/// What can come of a check or of a question for a strip.
#[derive(Clone, Copy, Debug, PartialEq, Eq, PartialOrd, Ord)]
pub enum Came {
    Accepted,
    NoState,
    BrokenState,
    Lines,
    Fillets,
    OddCount,
    Rule(usize, Position),
    /// A rule that is named, and a later one that the same strip breaks too.
    Hides(usize, usize),
    /// A strip that is named, and a later one is at fault too.
    HidesStrip,
    Row(Position),
    RowZero,
    RowPastTheLast,
    RowFarOff,
    RowOfNoStripPlan,
}

/// All that must come. The first strip cannot break rule 3, and one that breaks rule 1 always breaks rule 2.
fn all() -> Vec<Came> {
    use Came::*;
    use Position::*;
    #[rustfmt::skip] // a line for each sort
    let all = vec![
        Accepted, NoState, BrokenState, Lines, Fillets, OddCount,
        Rule(1, First), Rule(1, Middle), Rule(1, Last), Rule(2, First), Rule(2, Middle), Rule(2, Last), Rule(3, Middle), Rule(3, Last),
        Hides(1, 2), Hides(1, 3), Hides(2, 3), HidesStrip,
        Row(First), Row(Middle), Row(Last), RowZero, RowPastTheLast, RowFarOff, RowOfNoStripPlan,
    ];
    all
}

/// How the checks and the questions for strips came out.
#[derive(Default)]
pub struct Strips {
    pub checks: u64,
    came: BTreeMap<Came, u64>,
    /// The plans that were accepted, by how many strips they have, from 1.
    plans: [u64; PLACES / 2],
}

impl Strips {
    pub fn counts(&self) -> String {
        let each: Vec<String> = self.came.iter().map(|(what, times)| format!("{what:?}:{times}")).collect();
        let least = self.plans[FEWEST - 1..].iter().min().unwrap_or(&0);
        format!("strips {} (of each number of strips at least {least})", each.join(" "))
    }

    pub fn missing(&self) -> Vec<Came> {
        all().into_iter().filter(|what| !self.came.contains_key(what)).collect()
    }

    pub fn missing_plans(&self) -> Vec<usize> {
        (FEWEST..=self.plans.len()).filter(|strips| self.plans[strips - 1] == 0).collect()
    }

    fn count(&mut self, what: Came) {
        *self.came.entry(what).or_default() += 1;
    }

    fn count_check(&mut self, held: &Words) {
        self.checks += 1;
        let Some(state) = words::to_state(held) else {
            return self.count(Came::NoState);
        };
        match strips::check(&state) {
            Ok(strips) => {
                self.count(Came::Accepted);
                self.plans[strips as usize - 1] += 1;
            }
            Err(fault) if fault.refusal.number == 14 => self.count(Came::BrokenState),
            Err(fault) if fault.rule == 0 => self.count(no_strips(&state)),
            Err(fault) => self.count_fault(&state, fault.refusal.place, fault.rule as usize),
        }
    }

    fn count_fault(&mut self, state: &State, place: u32, rule: usize) {
        let strips = state.count / 2;
        self.count(Came::Rule(rule, Position::of(place, strips)));
        let kept = strips::kept(state, place as usize);
        for later in (rule + 1..=kept.len()).filter(|later| !kept[later - 1]) {
            self.count(Came::Hides(rule, later));
        }
        if (place + 1..=strips).any(|j| strips::kept(state, j as usize) != [true; 3]) {
            self.count(Came::HidesStrip);
        }
    }

    fn count_row(&mut self, held: &Words, number: u32) {
        let [.., strips] = words::strips_of(held);
        self.count(match number {
            _ if strips == 0 => Came::RowOfNoStripPlan,
            0 => Came::RowZero,
            _ if number <= strips => Came::Row(Position::of(number, strips)),
            _ if number == strips + 1 => Came::RowPastTheLast,
            _ => Came::RowFarOff,
        });
    }
}

/// Why a sound plan has no strips at all.
fn no_strips(state: &State) -> Came {
    match state.mode {
        Mode::Lines => Came::Lines,
        Mode::Fillets => Came::Fillets,
        Mode::Dubins => Came::OddCount,
    }
}

/// What is asked of a state's words.
#[derive(Clone, Copy, Debug)]
enum Question {
    Check,
    Row(u32),
}

impl Question {
    /// The result and the words that the reference answers.
    fn wanted(self, held: &Words) -> (u32, Vec<u32>) {
        let checked = words::strips_of(held);
        match self {
            Question::Check => (checked[0], checked.to_vec()),
            Question::Row(number) => (0, words::strip_of(held, number).to_vec()),
        }
    }

    fn made(self, state: &[i32], answer: &mut [u32]) -> u32 {
        match self {
            Question::Check => calls::strips(state, answer),
            Question::Row(number) => calls::strip(state, number, answer),
        }
    }
}

/// Makes a call over memory with words to spare, and compares its result, what it wrote and what it had to leave.
fn compare(tally: &mut Tally, case: Case, held: &Words, question: Question) {
    let mut state = [STATE_PATTERN; STATE_WORDS + SPARE];
    state[..STATE_WORDS].copy_from_slice(held);
    let before = state;
    let (result_wanted, words_wanted) = question.wanted(held);
    let mut answer = [PATTERN; STRIPS_WORDS + SPARE];
    let mut answer_wanted = answer;
    answer_wanted[..words_wanted.len()].copy_from_slice(&words_wanted);
    let result = question.made(black_box(&state), &mut answer);
    // A black box, so that the compiler does not take it for granted that the state was only read.
    let kept = *black_box(&state) == before;
    if (result, answer, kept) != (result_wanted, answer_wanted, true) {
        let held = hex_of_words(held);
        let seen = format!("reference {result_wanted} {words_wanted:?} compiled {result} {answer:?} state kept {kept}");
        tally.disagree(case, format!("{question:?} {seen} state {held}"));
    }
}

/// Words of a plan with strips, mostly with a change or two; or of any other; some of them broken.
fn random_words(c: &mut Chance) -> Words {
    let mut state = if c.one_in(12) { loading_file(c).1 } else { strip_plan(c) };
    for _ in 0..c.pick(&[0, 0, 1, 1, 1, 2]) {
        spoil(c, &mut state);
    }
    random_progress(c, &mut state);
    let mut held = words::of_state(&state);
    match c.below(16) {
        0 => break_progress(c, &mut held),
        1 => break_words(c, &mut held),
        _ => {}
    }
    held
}

/// The numbers that are asked: now and then all and those beside them, else one of these or one far off.
fn random_numbers(c: &mut Chance, held: &Words) -> Vec<u32> {
    let past = held[words::COUNT].clamp(0, PLACES as i32) as u32 / 2 + 1;
    if c.one_in(16) {
        return (0..=past).collect();
    }
    let any = c.between(0, i64::from(past)) as u32;
    let far = c.pick(&[past + 1, 2 * past, 64, 255, 256, 257, 65_537, 0x8000_0001, u32::MAX]);
    vec![c.pick(&[any, any, any, any, far])]
}

pub fn run(tally: &mut Tally, n: u64, seed: u64) {
    for number in 0..n {
        let case = Case { part: "strips", seed, number };
        let c = &mut Chance::new(seed, number);
        let held = random_words(c);
        tally.strips.count_check(&held);
        compare(tally, case, &held, Question::Check);
        for asked in random_numbers(c, &held) {
            tally.strips.count_row(&held, asked);
            compare(tally, case, &held, Question::Row(asked));
        }
    }
}
