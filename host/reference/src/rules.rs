//! The limits, and the plan rules that hold between points: refusals 10, 11, 12 and 17.

use crate::course::{dot, root};
use crate::refusal::Refusal;
use crate::state::{Mode, State, PLACES};
use crate::{dubins, fillets, lines};
use std::ops::RangeInclusive;

pub const RADIUS: RangeInclusive<u32> = 50..=10_000;
pub const SPEED: RangeInclusive<u32> = 1..=1000;
pub const LAST_COURSE: u32 = 4095;
pub const FARTHEST: [i32; 3] = [500_000, 500_000, 100_000];
pub const SHARPEST_TURN: i64 = 1792;

pub fn point_in_range(point: [i32; 3]) -> bool {
    (0..3).all(|k| (-FARTHEST[k]..=FARTHEST[k]).contains(&point[k]))
}

/// All pairs, then all corners, then all legs of a plan whose limits hold.
pub fn check_plan(state: &State) -> Result<(), Refusal> {
    check_pairs(state)?;
    match state.mode {
        Mode::Lines => check_line_corners(state),
        Mode::Fillets => check_fillets(state),
        Mode::Dubins => check_dubins_legs(state),
    }
}

fn check_pairs(state: &State) -> Result<(), Refusal> {
    for i in 2..=state.count as usize {
        if state.level_leg(i) == (0, 0) {
            return Err(Refusal::at(10, i));
        }
    }
    Ok(())
}

fn check_line_corners(state: &State) -> Result<(), Refusal> {
    for i in 2..state.count as usize {
        if lines::opposite(state.leg(i), state.leg(i + 1)) {
            return Err(Refusal::at(11, i));
        }
    }
    Ok(())
}

fn check_fillets(state: &State) -> Result<(), Refusal> {
    let tangents = corner_tangents(state)?;
    for i in 2..=state.count as usize {
        let leg = state.level_leg(i);
        if tangents[i - 1] + tangents[i] > root(dot(leg, leg)) {
            return Err(Refusal::at(12, i));
        }
    }
    Ok(())
}

/// The tangent length at each point from 1, where no corner is too sharp. The first and last point have no corner: 0 there makes every leg the
/// same question.
fn corner_tangents(state: &State) -> Result<[i64; PLACES + 1], Refusal> {
    let mut tangents = [0; PLACES + 1];
    for (i, tangent) in tangents.iter_mut().enumerate().take(state.count as usize).skip(2) {
        let turn = fillets::turn_at(state, i);
        if turn > SHARPEST_TURN {
            return Err(Refusal::at(11, i));
        }
        *tangent = fillets::tangent_length(state.radius, turn);
    }
    Ok(tangents)
}

fn check_dubins_legs(state: &State) -> Result<(), Refusal> {
    let radius = i64::from(state.radius);
    for i in 2..=state.count as usize {
        let leg = state.level_leg(i);
        if dot(leg, leg) < 9 * radius * radius {
            return Err(Refusal::at(12, i));
        }
        if !dubins::some_case_exists(state, i) {
            return Err(Refusal::at(17, i));
        }
    }
    Ok(())
}

#[cfg(test)]
mod tests {
    use super::*;

    fn plan(mode: Mode, radius: u32, points: &[[i32; 3]]) -> State {
        let mut state = State { serial: 1, mode, radius, count: points.len() as u32, ..State::EMPTY };
        state.points[..points.len()].copy_from_slice(points);
        state
    }

    #[test]
    fn two_tangents_may_take_a_whole_leg() {
        let corner = |radius| plan(Mode::Fillets, radius, &[[0, 0, 0], [1000, 0, 0], [1000, 1000, 0]]);
        assert_eq!(check_plan(&corner(1000)), Ok(()));
        assert_eq!(check_plan(&corner(1001)), Err(Refusal::at(12, 2)));
    }

    #[test]
    fn ends_of_a_dubins_leg_are_three_radii_apart() {
        let leg = |east| plan(Mode::Dubins, 100, &[[0, 0, 0], [0, east, 0]]);
        assert_eq!(check_plan(&leg(300)), Ok(()));
        assert_eq!(check_plan(&leg(299)), Err(Refusal::at(12, 2)));
    }
}
