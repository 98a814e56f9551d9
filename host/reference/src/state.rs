//! The state: a plan and where the aircraft is on it.

use crate::course::Level;

pub const PLACES: usize = 64;

#[derive(Clone, Copy, Debug, PartialEq, Eq, PartialOrd, Ord)]
pub enum Mode {
    Lines,
    Fillets,
    Dubins,
}

#[derive(Clone, Copy, Debug, PartialEq, Eq)]
pub struct State {
    pub serial: u32,
    pub mode: Mode,
    pub radius: u32,
    pub count: u32,
    pub points: [[i32; 3]; PLACES],
    pub courses: [u32; PLACES],
    pub index: u32,
    pub phase: u32,
    pub finished: bool,
}

impl State {
    pub const EMPTY: State = State {
        serial: 0,
        mode: Mode::Lines,
        radius: 0,
        count: 0,
        points: [[0; 3]; PLACES],
        courses: [0; PLACES],
        index: 0,
        phase: 0,
        finished: false,
    };

    /// Point i, counted from 1: north, east, down.
    pub fn point(&self, i: usize) -> [i64; 3] {
        self.points[i - 1].map(i64::from)
    }

    pub fn level_point(&self, i: usize) -> Level {
        let [n, e, _] = self.point(i);
        (n, e)
    }

    /// The leg that ends at point i, in three dimensions.
    pub fn leg(&self, i: usize) -> [i64; 3] {
        let (from, to) = (self.point(i - 1), self.point(i));
        [to[0] - from[0], to[1] - from[1], to[2] - from[2]]
    }

    pub fn level_leg(&self, i: usize) -> Level {
        let [n, e, _] = self.leg(i);
        (n, e)
    }

    pub fn course(&self, i: usize) -> i64 {
        i64::from(self.courses[i - 1])
    }

    pub fn on_last_leg(&self) -> bool {
        self.index == self.count
    }

    /// The last phase that the mode allows at the index.
    pub fn last_phase(&self) -> u32 {
        match self.mode {
            Mode::Lines => 1,
            // The last point is no corner, so it has no circle.
            Mode::Fillets if self.on_last_leg() => 1,
            Mode::Fillets => 2,
            Mode::Dubins => 5,
        }
    }

    /// The one place where a flight can be finished.
    pub fn at_last_place(&self) -> bool {
        self.on_last_leg() && self.phase == self.last_phase()
    }
}
