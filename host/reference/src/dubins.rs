//! Dubins mode: the shortest of the four cases for a leg.

use crate::course::{arc, bearing, dot, less, off, plus, root, Level, CIRCLE, QUARTER};
use crate::state::State;

/// Which way a circle of a case goes: +1 right, -1 left.
type Sense = i64;

/// In the order in which a tie is decided: RSR, RSL, LSR, LSL.
const CASES: [(Sense, Sense); 4] = [(1, 1), (1, -1), (-1, 1), (-1, -1)];

#[derive(Clone, Copy, Debug, PartialEq, Eq)]
pub struct Path {
    pub start_sense: Sense,
    pub end_sense: Sense,
    pub start_centre: Level,
    pub end_centre: Level,
    pub theta: i64,
    pub length: i64,
    pub z1: Level,
    pub z2: Level,
}

fn centre(point: Level, course: i64, radius: i64, sense: Sense) -> Level {
    plus(point, off(radius, course + QUARTER * sense))
}

/// From the start centre to the end centre of a case of the leg to point i.
fn centres(state: &State, i: usize, case: (Sense, Sense)) -> (Level, Level) {
    let radius = i64::from(state.radius);
    let start = centre(state.level_point(i - 1), state.course(i - 1), radius, case.0);
    let end = centre(state.level_point(i), state.course(i), radius, case.1);
    (start, end)
}

fn case_exists(v: Level, radius: i64, case: (Sense, Sense)) -> bool {
    if case.0 == case.1 {
        v != (0, 0)
    } else {
        dot(v, v) >= 4 * radius * radius
    }
}

pub fn some_case_exists(state: &State, i: usize) -> bool {
    CASES.iter().any(|&case| {
        let (start, end) = centres(state, i, case);
        case_exists(less(end, start), i64::from(state.radius), case)
    })
}

/// The straight part of a case that exists: its length and course.
fn straight(v: Level, radius: i64, case: (Sense, Sense)) -> (i64, i64) {
    if case.0 == case.1 {
        return (root(dot(v, v)), bearing(v));
    }
    let s = root(dot(v, v) - 4 * radius * radius);
    let w = 2 * radius * case.0;
    (s, bearing((s * v.0 - w * v.1, s * v.1 + w * v.0)))
}

fn case_path(state: &State, i: usize, case: (Sense, Sense)) -> Option<Path> {
    let radius = i64::from(state.radius);
    let (start_centre, end_centre) = centres(state, i, case);
    let v = less(end_centre, start_centre);
    if !case_exists(v, radius, case) {
        return None;
    }
    let (straight, theta) = straight(v, radius, case);
    let start_turn = (case.0 * (theta - state.course(i - 1))).rem_euclid(CIRCLE);
    let end_turn = (case.1 * (state.course(i) - theta)).rem_euclid(CIRCLE);
    Some(Path {
        start_sense: case.0,
        end_sense: case.1,
        start_centre,
        end_centre,
        theta,
        length: straight + arc(radius, start_turn + end_turn),
        z1: plus(start_centre, off(radius, theta - QUARTER * case.0)),
        z2: plus(end_centre, off(radius, theta - QUARTER * case.1)),
    })
}

/// The lengths of the cases in their order, none for a case that doesn't exist.
pub fn case_lengths(state: &State, i: usize) -> [Option<i64>; 4] {
    CASES.map(|case| case_path(state, i, case).map(|path| path.length))
}

/// The shortest case for the leg to point i, the earliest on a tie.
pub fn shortest(state: &State, i: usize) -> Option<Path> {
    // The first of several least ones is taken.
    CASES.into_iter().filter_map(|case| case_path(state, i, case)).min_by_key(|path| path.length)
}

#[cfg(test)]
mod tests {
    use super::*;
    use crate::state::Mode;

    fn leg(to: (i32, i32), course: u32) -> State {
        let mut state = State { serial: 1, mode: Mode::Dubins, radius: 100, count: 2, ..State::EMPTY };
        state.points[1] = [to.0, to.1, 0];
        state.courses[1] = course;
        state
    }

    #[test]
    fn straight_ahead_is_a_four_way_tie() {
        let state = leg((1000, 0), 0);
        for case in CASES {
            assert_eq!(case_path(&state, 2, case).unwrap().length, 1000);
        }
        let path = shortest(&state, 2).unwrap();
        assert_eq!((path.start_sense, path.end_sense), (1, 1));
    }

    #[test]
    fn half_circle_in_two_quarters() {
        let path = shortest(&leg((0, 1000), 2048), 2).unwrap();
        assert_eq!((path.start_sense, path.end_sense, path.length), (1, 1, 1114));
        assert_eq!((path.z1, path.z2), ((100, 100), (100, 900)));
    }

    #[test]
    fn three_radii_are_not_enough_for_every_case() {
        let state = leg((0, 300), 0);
        assert_eq!(case_path(&state, 2, (1, -1)), None);
        let path = shortest(&state, 2).unwrap();
        assert_eq!((path.start_sense, path.end_sense, path.length), (1, 1, 928));
    }
}
