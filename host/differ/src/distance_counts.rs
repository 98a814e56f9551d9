//! What came of the questions for distances, and what has to.

use compiled::words::{self, Words, COUNT, FINISHED, INDEX, PHASE, STATE_WORDS};
use reference::state::PLACES;
use reference::{Mode, State};
use std::collections::BTreeMap;

const MODES: [Mode; 3] = [Mode::Lines, Mode::Fillets, Mode::Dubins];

/// The entries of a table, by the points of the plan: one more than these is just room enough.
#[derive(Clone, Copy, Debug, PartialEq, Eq, PartialOrd, Ord)]
pub enum Entries {
    Zero,
    One,
    Fewer,
    AsPoints,
    JustRoom,
    OneToSpare,
    More,
}

impl Entries {
    fn of(length: usize, points: usize) -> Entries {
        match length {
            0 => Entries::Zero,
            1 => Entries::One,
            _ if length < points => Entries::Fewer,
            _ if length == points => Entries::AsPoints,
            _ if length == points + 1 => Entries::JustRoom,
            _ if length == points + 2 => Entries::OneToSpare,
            _ => Entries::More,
        }
    }
}

/// A plan with as few points as can be, or as many.
#[derive(Clone, Copy, Debug, PartialEq, Eq, PartialOrd, Ord)]
pub enum Extreme {
    Shortest,
    Longest,
}

/// A call that is lent too little.
#[derive(Clone, Copy, Debug, PartialEq, Eq, PartialOrd, Ord)]
pub enum Misfit {
    TableByState,
    TableByAnswer,
    LeftByState,
    LeftByAnswer,
}

#[derive(Clone, Copy, Debug, PartialEq, Eq, PartialOrd, Ord)]
pub enum Came {
    /// A table of words that hold no state, of the empty state, or of another that is refused.
    NoState,
    Empty,
    Broken,
    /// A refused state, and a table without room for it.
    BrokenNoRoom,
    NoRoom(Mode, Entries),
    Made(Mode, Entries),
    MadeOf(Mode, Extreme),
    /// The distance at a state that is refused, or at a place: the mode and the phase.
    LeftOfNoState,
    LeftOfBroken,
    Left(Mode, u32),
    LeftOnLastLeg(Mode),
    LeftFinished(Mode),
    /// A table after fixes that moved the aircraft on, or that ended its flight.
    MadeAfterMoving(Mode),
    MadeAfterTheEnd(Mode),
    TooShort(Misfit),
}

/// What must come in each mode.
fn all_of(mode: Mode) -> Vec<Came> {
    use Came::*;
    use Entries::*;
    let phases: &[u32] = match mode {
        Mode::Lines => &[1],
        Mode::Fillets => &[1, 2],
        Mode::Dubins => &[1, 2, 3, 4, 5],
    };
    let refused = [Zero, One, Fewer, AsPoints].map(|entries| NoRoom(mode, entries));
    let made = [JustRoom, OneToSpare, More].map(|entries| Made(mode, entries));
    let rest = [
        MadeOf(mode, Extreme::Shortest),
        MadeOf(mode, Extreme::Longest),
        LeftOnLastLeg(mode),
        LeftFinished(mode),
        MadeAfterMoving(mode),
        MadeAfterTheEnd(mode),
    ];
    let left = phases.iter().map(|phase| Left(mode, *phase));
    refused.into_iter().chain(made).chain(rest).chain(left).collect()
}

/// All that must come.
fn all() -> Vec<Came> {
    use Came::*;
    let misfits = [Misfit::TableByState, Misfit::TableByAnswer, Misfit::LeftByState, Misfit::LeftByAnswer];
    let refused = [NoState, Empty, Broken, BrokenNoRoom, LeftOfNoState, LeftOfBroken];
    MODES.into_iter().flat_map(all_of).chain(refused).chain(misfits.map(TooShort)).collect()
}

/// How the questions for distances came out.
#[derive(Default)]
pub struct Distances {
    /// Words that were asked about, each by some calls.
    pub states: u64,
    tables: u64,
    lefts: u64,
    came: BTreeMap<Came, u64>,
}

impl Distances {
    pub fn counts(&self) -> String {
        let each: Vec<String> = self.came.iter().map(|(what, times)| format!("{what:?}:{times}")).collect();
        format!("distances tables:{} lefts:{} {}", self.tables, self.lefts, each.join(" "))
    }

    pub fn missing(&self) -> Vec<Came> {
        all().into_iter().filter(|what| !self.came.contains_key(what)).collect()
    }

    fn count(&mut self, what: Came) {
        *self.came.entry(what).or_default() += 1;
    }

    pub fn count_misfit(&mut self, misfit: Misfit) {
        self.count(Came::TooShort(misfit));
    }

    /// A question for a table of a length, by the refusal that the reference gave.
    pub fn count_table(&mut self, held: &Words, length: usize, refusal: u32) {
        self.tables += 1;
        let points = held[COUNT] as u32 as usize;
        let Some(state) = words::to_state(held) else {
            return self.count(Came::NoState);
        };
        let entries = Entries::of(length, points);
        match refusal {
            0 => self.count_made(&state, entries),
            16 => self.count(Came::NoRoom(state.mode, entries)),
            _ if *held == [0; STATE_WORDS] => self.count(Came::Empty),
            _ if length <= points => self.count(Came::BrokenNoRoom),
            _ => self.count(Came::Broken),
        }
    }

    fn count_made(&mut self, state: &State, entries: Entries) {
        self.count(Came::Made(state.mode, entries));
        match state.count as usize {
            3 => self.count(Came::MadeOf(state.mode, Extreme::Shortest)),
            PLACES => self.count(Came::MadeOf(state.mode, Extreme::Longest)),
            _ => {}
        }
    }

    /// A question for the distance at a state, by the refusal that the reference gave.
    pub fn count_left(&mut self, held: &Words, refusal: u32) {
        self.lefts += 1;
        let Some(state) = words::to_state(held) else {
            return self.count(Came::LeftOfNoState);
        };
        if refusal != 0 {
            return self.count(Came::LeftOfBroken);
        }
        self.count(Came::Left(state.mode, state.phase));
        if state.on_last_leg() {
            self.count(Came::LeftOnLastLeg(state.mode));
        }
        if state.finished {
            self.count(Came::LeftFinished(state.mode));
        }
    }

    /// A table after the fixes from one place to another.
    pub fn count_flight(&mut self, mode: Mode, from: &Words, to: &Words) {
        if [INDEX, PHASE].iter().any(|place| from[*place] != to[*place]) {
            self.count(Came::MadeAfterMoving(mode));
        }
        if from[FINISHED] != to[FINISHED] {
            self.count(Came::MadeAfterTheEnd(mode));
        }
    }
}
