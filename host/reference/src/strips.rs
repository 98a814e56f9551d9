//! Strip plans: which states have one, refusal 18, and the row of a strip. Strip j, from 1, is flown from point 2j-1 to point 2j.

use crate::course::{bearing, dot, root, CIRCLE};
use crate::refusal::Refusal;
use crate::state::{Mode, State};

/// Why a state has no strip plan: with 18, the place is the first strip at fault and the rule the first that it breaks; both are 0 where no strip is
/// asked.
#[derive(Clone, Copy, Debug, PartialEq, Eq)]
pub struct Fault {
    pub refusal: Refusal,
    pub rule: u32,
}

impl Fault {
    fn of_no_strip(number: u32) -> Fault {
        Fault { refusal: Refusal::plain(number), rule: 0 }
    }
}

/// A strip as it is listed; the length is in north and east.
#[derive(Clone, Copy, Debug, PartialEq, Eq)]
pub struct Row {
    pub number: u32,
    pub course: u32,
    pub length: u32,
}

/// How many strips a strip plan has.
pub fn check(state: &State) -> Result<u32, Fault> {
    if !state.is_sound() {
        return Err(Fault::of_no_strip(14));
    }
    if state.mode != Mode::Dubins || state.count % 2 == 1 {
        return Err(Fault::of_no_strip(18));
    }
    let strips = state.count / 2;
    for j in 1..=strips as usize {
        if let Some(broken) = kept(state, j).iter().position(|keeps| !keeps) {
            return Err(Fault { refusal: Refusal::at(18, j), rule: broken as u32 + 1 });
        }
    }
    Ok(strips)
}

fn courses(state: &State, j: usize) -> [i64; 2] {
    [state.course(2 * j - 1), state.course(2 * j)]
}

fn leg(state: &State, j: usize) -> (i64, i64) {
    state.level_leg(2 * j)
}

/// Whether a strip of a sound Dubins plan keeps each of the rules 1, 2 and 3.
pub fn kept(state: &State, j: usize) -> [bool; 3] {
    let own = courses(state, j);
    let opposite = |other: i64| own.iter().all(|course| (course - other).rem_euclid(CIRCLE) == CIRCLE / 2);
    [
        own[0] == own[1],
        own == [bearing(leg(state, j)); 2],
        // There is no strip before the first.
        j == 1 || courses(state, j - 1).into_iter().all(opposite),
    ]
}

/// A strip of a strip plan by its number; none where there is no such strip, or no strip plan.
pub fn row(state: &State, number: u32) -> Option<Row> {
    let strips = check(state).ok()?;
    if !(1..=strips).contains(&number) {
        return None;
    }
    let j = number as usize;
    let v = leg(state, j);
    Some(Row { number, course: courses(state, j)[0] as u32, length: root(dot(v, v)) as u32 })
}

#[cfg(test)]
mod tests {
    use super::*;

    /// A plan at its start, its points at falling heights, which no rule of strips asks for.
    fn plan(points: &[(i32, i32)], courses: &[u32]) -> State {
        let mut state = State { serial: 7, mode: Mode::Dubins, radius: 50, count: points.len() as u32, ..State::EMPTY };
        for (i, (north, east)) in points.iter().enumerate() {
            state.points[i] = [*north, *east, 700 * i as i32];
        }
        state.courses[..courses.len()].copy_from_slice(courses);
        (state.index, state.phase) = (2, 1);
        state
    }

    const NORTH_SOUTH_NORTH: [(i32, i32); 6] = [(0, 0), (1000, 0), (1000, 300), (0, 300), (0, 600), (1000, 600)];

    fn three_strips() -> State {
        plan(&NORTH_SOUTH_NORTH, &[0, 0, 2048, 2048, 0, 0])
    }

    fn with_courses(courses: [u32; 6]) -> State {
        plan(&NORTH_SOUTH_NORTH, &courses)
    }

    /// Three strips, one of which is flown from its end to its start.
    fn with_one_turned(j: usize) -> State {
        let mut state = three_strips();
        state.points.swap(2 * j - 2, 2 * j - 1);
        for course in &mut state.courses[2 * j - 2..2 * j] {
            *course = (*course + 2048) % 4096;
        }
        state
    }

    fn at_fault(place: u32, rule: u32) -> Result<u32, Fault> {
        Err(Fault { refusal: Refusal { number: 18, place }, rule })
    }

    fn unsound() -> Result<u32, Fault> {
        Err(Fault { refusal: Refusal { number: 14, place: 0 }, rule: 0 })
    }

    #[test]
    fn strips_up_and_down_pass() {
        assert_eq!(check(&three_strips()), Ok(3));
    }

    #[test]
    fn rule_1_at_the_first_a_middle_and_the_last_strip() {
        assert_eq!(check(&with_courses([0, 1, 2048, 2048, 0, 0])), at_fault(1, 1));
        assert_eq!(check(&with_courses([4095, 0, 2048, 2048, 0, 0])), at_fault(1, 1));
        assert_eq!(check(&with_courses([0, 0, 2048, 2047, 0, 0])), at_fault(2, 1));
        assert_eq!(check(&with_courses([0, 0, 2048, 2048, 0, 2048])), at_fault(3, 1));
        assert_eq!(check(&with_courses([0, 0, 2048, 2048, 1, 0])), at_fault(3, 1));
    }

    #[test]
    fn rule_2_at_the_first_a_middle_and_the_last_strip() {
        assert_eq!(check(&with_courses([1, 1, 2049, 2049, 1, 1])), at_fault(1, 2));
        assert_eq!(check(&with_courses([0, 0, 2047, 2047, 0, 0])), at_fault(2, 2));
        assert_eq!(check(&with_courses([0, 0, 2048, 2048, 4095, 4095])), at_fault(3, 2));
    }

    #[test]
    fn rule_3_at_a_middle_and_the_last_strip() {
        assert_eq!(check(&with_one_turned(2)), at_fault(2, 3));
        assert_eq!(check(&with_one_turned(3)), at_fault(3, 3));
    }

    #[test]
    fn first_strip_has_none_before_it() {
        assert_eq!(check(&with_one_turned(1)), at_fault(2, 3));
        let southward = plan(&[(1000, 0), (0, 0), (0, 300), (1000, 300)], &[2048, 2048, 0, 0]);
        assert_eq!(check(&southward), Ok(2));
    }

    #[test]
    fn earlier_rule_and_earlier_strip_are_named() {
        // Unequal, not the bearing, not opposite.
        assert_eq!(check(&with_courses([0, 0, 0, 1, 0, 0])), at_fault(2, 1));
        // Equal, but neither the bearing nor opposite.
        assert_eq!(check(&with_courses([0, 0, 5, 5, 0, 0])), at_fault(2, 2));
        // A later strip breaks an earlier rule.
        assert_eq!(check(&with_courses([5, 5, 2048, 0, 0, 0])), at_fault(1, 2));
        let mut state = with_one_turned(2);
        state.courses[4] = 9;
        assert_eq!(check(&state), at_fault(2, 3));
    }

    #[test]
    fn rule_3_goes_round_the_circle_both_ways() {
        // 3072 less 1024 is 2048, and 1024 less 3072 is -2048.
        let points = [(0, 0), (0, 500), (300, 500), (300, 0), (600, 0), (600, 500)];
        assert_eq!(check(&plan(&points, &[1024, 1024, 3072, 3072, 1024, 1024])), Ok(3));
        // (1000, -1) has the bearing 4095, and so (-1000, 1) 2047.
        let points = [(0, 0), (1000, -1), (1000, 300), (0, 301)];
        assert_eq!(check(&plan(&points, &[4095, 4095, 2047, 2047])), Ok(2));
    }

    #[test]
    fn one_unit_from_opposite_is_not_opposite() {
        // (-1000, 1) has the bearing 2047, and (-1000, -2) 2049.
        let toward = |east, course| plan(&[(0, 0), (1000, 0), (1000, 300), (0, 300 + east)], &[0, 0, course, course]);
        assert_eq!(check(&toward(1, 2047)), at_fault(2, 3));
        assert_eq!(check(&toward(-2, 2049)), at_fault(2, 3));
        assert_eq!(check(&toward(0, 2048)), Ok(2));
    }

    #[test]
    fn odd_counts_have_no_strip_at_fault() {
        let points = NORTH_SOUTH_NORTH;
        assert_eq!(check(&plan(&points[..5], &[0, 0, 2048, 2048, 0])), at_fault(0, 0));
        assert_eq!(check(&plan(&points[..3], &[0, 1, 2])), at_fault(0, 0));
    }

    #[test]
    fn lines_and_fillets_have_no_strip_at_fault() {
        let fillets = State { mode: Mode::Fillets, ..plan(&NORTH_SOUTH_NORTH, &[]) };
        assert_eq!(check(&fillets), at_fault(0, 0));
        assert_eq!(check(&State { mode: Mode::Lines, radius: 0, ..fillets }), at_fault(0, 0));
    }

    #[test]
    fn unsound_states_are_refused_14_first() {
        assert_eq!(check(&State { serial: 0, ..three_strips() }), unsound());
        assert_eq!(check(&State { index: 7, ..three_strips() }), unsound());
        assert_eq!(check(&State { serial: 0, ..with_courses([0, 1, 2, 3, 4, 5]) }), unsound());
        assert_eq!(check(&State { count: 5, ..three_strips() }), unsound());
        assert_eq!(check(&State { mode: Mode::Lines, ..three_strips() }), unsound());
        assert_eq!(check(&State::EMPTY), unsound());
    }

    #[test]
    fn progress_does_not_matter() {
        assert_eq!(check(&State { index: 6, phase: 5, finished: true, ..three_strips() }), Ok(3));
    }

    #[test]
    fn rows_have_the_level_root_of_their_own_leg() {
        // Squares of the lengths: 180,000, 80,000 and 45,000.
        let points = [(0, 0), (300, 300), (600, 0), (400, -200), (600, -300), (750, -150)];
        let state = plan(&points, &[512, 512, 2560, 2560, 512, 512]);
        let rows = [(1, 512, 424), (2, 2560, 282), (3, 512, 212)];
        for (number, course, length) in rows {
            assert_eq!(row(&state, number), Some(Row { number, course, length }));
        }
    }

    #[test]
    fn there_is_no_row_of_another_number_or_plan() {
        for number in [0, 4, 5, 6, 64, 65_537, u32::MAX] {
            assert_eq!(row(&three_strips(), number), None);
        }
        assert_eq!(row(&with_one_turned(3), 1), None);
        assert_eq!(row(&State { serial: 0, ..three_strips() }, 1), None);
    }
}
