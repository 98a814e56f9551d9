//! Distance to go: how long a plan is from an index to its end. Index i, from 2, is that of the leg from point i-1 to point i.

use crate::course::{arc, bearing, dot, root, turn_between};
use crate::refusal::Refusal;
use crate::state::{Mode, State};
use crate::{dubins, fillets};

/// Puts the distance from each index into the entry with its number, counted from 0. The other entries, and all where it is refused, stay as they are.
pub fn distances(state: &State, table: &mut [u32]) -> Result<(), Refusal> {
    if !state.is_sound() {
        return Err(Refusal::plain(14));
    }
    if table.len() < state.count as usize + 1 {
        return Err(Refusal::plain(16));
    }
    measure(state, 2, |i, left| table[i] = left as u32);
    Ok(())
}

/// The distance from the state's own index.
pub fn distance(state: &State) -> Result<u32, Refusal> {
    if !state.is_sound() {
        return Err(Refusal::plain(14));
    }
    Ok(measure(state, state.index as usize, |_, _| ()) as u32)
}

/// Tells the distance from each index of a sound plan, from the last down to `first`, and answers the one from there.
fn measure(state: &State, first: usize, tell: impl FnMut(usize, i64)) -> i64 {
    match state.mode {
        Mode::Lines => add_up(state, first, |i| level_length(state, i), tell),
        Mode::Fillets => {
            let mut legs = FilletLegs::of(state);
            add_up(state, first, |i| legs.length(i), tell)
        }
        Mode::Dubins => add_up(state, first, |i| dubins_length(state, i), tell),
    }
}

fn add_up(state: &State, first: usize, mut length: impl FnMut(usize) -> i64, mut tell: impl FnMut(usize, i64)) -> i64 {
    let mut left = 0;
    for i in (first..=state.count as usize).rev() {
        left += length(i);
        tell(i, left);
    }
    left
}

fn level_length(state: &State, i: usize) -> i64 {
    let leg = state.level_leg(i);
    root(dot(leg, leg))
}

fn dubins_length(state: &State, i: usize) -> i64 {
    dubins::shortest(state, i).expect("a sound state has a case for every leg").length
}

/// What a corner takes off each of its two legs, and the arc that is flown instead.
#[derive(Clone, Copy)]
struct Corner {
    tangent: i64,
    arc: i64,
}

/// The first and the last point are no corners.
const NO_CORNER: Corner = Corner { tangent: 0, arc: 0 };

/// The legs of a fillet plan from the last one back: so each bearing and each corner is worked out once.
struct FilletLegs<'a> {
    state: &'a State,
    /// The bearing of the leg that comes next, and the corner at its end.
    course: i64,
    end: Corner,
}

impl FilletLegs<'_> {
    fn of(state: &State) -> FilletLegs<'_> {
        let course = bearing(state.level_leg(state.count as usize));
        FilletLegs { state, course, end: NO_CORNER }
    }

    /// The leg to point i between its own corners, with the arc at point i.
    fn length(&mut self, i: usize) -> i64 {
        let end = self.end;
        self.end = self.corner_before(i);
        level_length(self.state, i) - self.end.tangent - end.tangent + end.arc
    }

    /// The corner at the start of the leg to point i, which is the end of the leg before.
    fn corner_before(&mut self, i: usize) -> Corner {
        if i == 2 {
            return NO_CORNER;
        }
        let before = bearing(self.state.level_leg(i - 1));
        let turn = turn_between(before, self.course);
        self.course = before;
        let radius = self.state.radius;
        Corner { tangent: fillets::tangent_length(radius, turn), arc: arc(i64::from(radius), turn) }
    }
}

#[cfg(test)]
mod tests {
    use super::*;
    use crate::state::PLACES;

    const UNTOUCHED: u32 = 0xA5A5_A5A5;

    /// A plan at its start.
    fn plan(mode: Mode, radius: u32, points: &[[i32; 3]]) -> State {
        let mut state = State { serial: 7, mode, radius, index: 2, phase: 1, ..State::EMPTY };
        state.count = points.len() as u32;
        state.points[..points.len()].copy_from_slice(points);
        state
    }

    /// 500 by 300 and 400, then 1300 by 500 and 1200, then 1: the downs would make all of them longer.
    fn climbing_lines() -> State {
        plan(Mode::Lines, 0, &[[0, 0, 0], [300, 400, -1200], [800, 1600, 5000], [801, 1600, -100_000]])
    }

    /// Three sides of a square, with two corners of a quarter turn to the right. With R = 200 the tangent lengths are 200 * 16384 / 16384 = 200, and
    /// the arcs 200 * 1024 * 355 / 231424 = 314.
    fn fillet_square() -> State {
        plan(Mode::Fillets, 200, &[[0, 0, 0], [1000, 0, -50], [1000, 1000, 0], [0, 1000, 700]])
    }

    /// Half a circle to the right, a straight leg to the south, half a circle to the left. Each half circle is the document's example: 800 straight,
    /// and arcs of 100 * 2048 * 355 / 231424 = 314.
    fn dubins_turns() -> State {
        let points = [[0, 0, 0], [0, 1000, -300], [-1000, 1000, 0], [-1000, 2000, 40]];
        let mut state = plan(Mode::Dubins, 100, &points);
        state.courses[..4].copy_from_slice(&[0, 2048, 2048, 0]);
        state
    }

    /// The entries from 2 on of a table that has just enough of them.
    fn entries(state: &State) -> Vec<u32> {
        let mut table = vec![UNTOUCHED; state.count as usize + 1];
        assert_eq!(distances(state, &mut table), Ok(()));
        assert_eq!(table[..2], [UNTOUCHED; 2]);
        table.split_off(2)
    }

    #[test]
    fn lines_are_measured_in_north_and_east() {
        assert_eq!(entries(&climbing_lines()), [500 + 1300 + 1, 1300 + 1, 1]);
    }

    #[test]
    fn each_root_is_rounded_down_by_itself() {
        // Each leg is 1.41; all three together would be 4.24.
        let state = plan(Mode::Lines, 0, &[[0, 0, 0], [1, 1, 0], [2, 2, 0], [3, 3, 0]]);
        assert_eq!(entries(&state), [3, 2, 1]);
    }

    #[test]
    fn fillet_legs_end_at_their_circles() {
        // Entry 4 is short of the circle at point 3 and has no arc of it. Entry 3 has that arc, and is short of both circles. Entry 2 has both arcs.
        let (last, middle, first) = (1000 - 200, 1000 - 200 - 200 + 314, 1000 - 200 + 314);
        assert_eq!(entries(&fillet_square()), [first + middle + last, middle + last, last]);
    }

    #[test]
    fn tangents_arcs_and_roots_of_fillets_are_rounded_down() {
        // An eighth to the right or to the left, at R = 200: T = 200 * 11585 / 27969 = 82.8, arc 157.08; the leg behind it is 1414.2.
        for east in [1000, -1000] {
            let state = plan(Mode::Fillets, 200, &[[0, 0, 0], [1000, 0, 0], [2000, east, 0]]);
            assert_eq!(entries(&state), [1000 - 82 + 157 + 1414 - 82, 1414 - 82]);
        }
    }

    #[test]
    fn corner_straight_ahead_takes_and_adds_nothing() {
        let state = plan(Mode::Fillets, 200, &[[0, 0, 0], [0, 700, 0], [0, 1000, 0]]);
        assert_eq!(entries(&state), [1000, 300]);
    }

    #[test]
    fn tangents_may_leave_nothing_of_a_leg() {
        // A quarter arc of R = 1000: 1570.8.
        let state = plan(Mode::Fillets, 1000, &[[0, 0, 0], [1000, 0, 0], [1000, 1000, 0]]);
        assert_eq!(entries(&state), [1570, 0]);
    }

    #[test]
    fn dubins_legs_have_their_arcs() {
        assert_eq!(entries(&dubins_turns()), [1114 + 1000 + 1114, 1000 + 1114, 1114]);
    }

    /// The places that the mode allows on a plan.
    fn places(state: &State) -> Vec<State> {
        let at = |index, phase, finished| State { index, phase, finished, ..*state };
        let indices = 2..=state.count;
        let phases = indices.flat_map(|index| (1..=at(index, 1, false).last_phase()).map(move |phase| (index, phase)));
        let mut all: Vec<State> = phases.map(|(index, phase)| at(index, phase, false)).collect();
        let last = all[all.len() - 1];
        all.push(State { finished: true, ..last });
        all
    }

    #[test]
    fn progress_decides_the_distance_and_not_the_table() {
        for state in [climbing_lines(), fillet_square(), dubins_turns()] {
            let table = entries(&state);
            for place in places(&state) {
                assert_eq!(entries(&place), table);
                assert_eq!(distance(&place), Ok(table[place.index as usize - 2]));
            }
        }
    }

    #[test]
    fn entries_behind_the_last_stay() {
        for state in [climbing_lines(), fillet_square(), dubins_turns()] {
            for spare in [1, 2, 61] {
                let mut table = vec![UNTOUCHED; 5 + spare];
                assert_eq!(distances(&state, &mut table), Ok(()));
                assert_eq!(table[2..5], entries(&state));
                assert!(table[..2].iter().chain(&table[5..]).all(|entry| *entry == UNTOUCHED));
            }
        }
    }

    /// That a table of so many entries is refused and stays as it was.
    fn assert_refused(state: &State, length: usize, number: u32) {
        let mut table = vec![UNTOUCHED; length];
        assert_eq!(distances(state, &mut table), Err(Refusal::plain(number)));
        assert_eq!(table, vec![UNTOUCHED; length]);
    }

    #[test]
    fn table_has_an_entry_more_than_the_plan_has_points() {
        for state in [climbing_lines(), fillet_square(), dubins_turns()] {
            (0..5).for_each(|length| assert_refused(&state, length, 16));
        }
    }

    #[test]
    fn unsound_states_are_refused_14_first() {
        let sound = fillet_square();
        let finished_early = State { finished: true, ..sound };
        let circle_at_the_end = State { index: 4, phase: 2, ..sound };
        let too_wide = State { radius: 501, ..sound };
        for state in [State::EMPTY, State { serial: 0, ..sound }, finished_early, circle_at_the_end, too_wide] {
            [0, 4, 5, PLACES + 1].into_iter().for_each(|length| assert_refused(&state, length, 14));
            assert_eq!(distance(&state), Err(Refusal::plain(14)));
        }
    }

    #[test]
    fn longest_plan_has_an_entry_for_every_index() {
        let mut state = plan(Mode::Lines, 0, &[[0; 3]; PLACES]);
        for (i, point) in state.points.iter_mut().enumerate() {
            *point = [100 * i as i32, 0, 0];
        }
        let expected: Vec<u32> = (1..=63).rev().map(|legs| 100 * legs).collect();
        assert_eq!(entries(&state), expected);
        assert_refused(&state, PLACES, 16);
    }
}
