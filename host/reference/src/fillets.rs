//! Fillets mode: the circle at a corner.

use crate::course::{bearing, cross, direction, less, off, plus, turn_between, Level, QUARTER, SCALE};
use crate::state::State;

/// The circle at a corner and the two tangent points.
#[derive(Clone, Copy, Debug, PartialEq, Eq)]
pub struct Fillet {
    pub z1: Level,
    pub z2: Level,
    pub centre: Level,
    pub sense: i64,
}

/// The lesser way round between the legs at corner i.
pub fn turn_at(state: &State, i: usize) -> i64 {
    turn_between(bearing(state.level_leg(i)), bearing(state.level_leg(i + 1)))
}

pub fn tangent_length(radius: u32, turn: i64) -> i64 {
    let (c, s) = direction(turn);
    i64::from(radius) * s / (SCALE + c)
}

pub fn fillet_at(state: &State, i: usize) -> Fillet {
    let (a, b) = (state.level_leg(i), state.level_leg(i + 1));
    let (course_a, course_b) = (bearing(a), bearing(b));
    let tangent = tangent_length(state.radius, turn_between(course_a, course_b));
    let point = state.level_point(i);
    let z1 = less(point, off(tangent, course_a));
    let z2 = plus(point, off(tangent, course_b));
    let sense = if cross(a, b) >= 0 { 1 } else { -1 };
    let centre = plus(z1, off(i64::from(state.radius), course_a + QUARTER * sense));
    Fillet { z1, z2, centre, sense }
}

#[cfg(test)]
mod tests {
    use super::*;
    use crate::state::Mode;

    #[test]
    fn fillet_of_the_document() {
        let mut corner = State { mode: Mode::Fillets, radius: 200, count: 3, ..State::EMPTY };
        corner.points[1] = [1000, 0, 0];
        corner.points[2] = [1000, 1000, 0];
        let fillet = fillet_at(&corner, 2);
        assert_eq!((fillet.centre, fillet.z2, fillet.sense), ((800, 200), (1000, 200), 1));
    }
}
