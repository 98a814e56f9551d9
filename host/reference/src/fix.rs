//! One position fix: the command of the place before it, and at most one step.

use crate::course::{direction, dot, less, Level, SCALE};
use crate::heading::{circle_heading, line_heading};
use crate::refusal::Refusal;
use crate::state::{Mode, State};
use crate::{dubins, fillets, lines};

#[derive(Clone, Copy, Debug, PartialEq)]
pub enum Command {
    None,
    Line { start: [f32; 3], direction: [f32; 3] },
    Circle { centre: [f32; 3], radius: f32, sense: i32 },
}

#[derive(Clone, Copy, Debug, PartialEq)]
pub struct Answer {
    pub refusal: Option<Refusal>,
    pub command: Command,
    pub heading: u32,
    pub index: u32,
    pub phase: u32,
    pub finished: bool,
}

/// The farthest a fix may be, in metres.
const REACH: [f64; 3] = [50_000.0, 50_000.0, 10_000.0];

impl State {
    pub fn fix(&mut self, named: u32, fix: [f32; 3]) -> Answer {
        if !self.is_sound() {
            return self.refused(14);
        }
        if named != self.serial {
            return self.refused(15);
        }
        let Some(p) = position(fix) else {
            return self.refused(13);
        };
        let (command, heading, passed) = match self.mode {
            Mode::Lines => self.lines_fix(p),
            Mode::Fillets => self.fillets_fix((p[0], p[1])),
            Mode::Dubins => self.dubins_fix((p[0], p[1])),
        };
        if passed {
            self.step();
        }
        Answer { refusal: None, command, heading, index: self.index, phase: self.phase, finished: self.finished }
    }

    fn refused(&self, number: u32) -> Answer {
        Answer {
            refusal: Some(Refusal::plain(number)),
            command: Command::None,
            heading: 0,
            index: self.index,
            phase: self.phase,
            finished: self.finished,
        }
    }

    /// The next phase, or the first phase of the next index; at the last place the flight is finished and stays there.
    fn step(&mut self) {
        if self.phase < self.last_phase() {
            self.phase += 1;
        } else if !self.on_last_leg() {
            self.index += 1;
            self.phase = 1;
        } else {
            self.finished = true;
        }
    }

    fn lines_fix(&self, p: [i64; 3]) -> (Command, u32, bool) {
        let i = self.index as usize;
        let point = self.point(i);
        let d = [p[0] - point[0], p[1] - point[1], p[2] - point[2]];
        let passed = if self.on_last_leg() {
            lines::dot3(d, self.leg(i)) >= 0
        } else {
            lines::half_plane_met(d, self.leg(i), self.leg(i + 1))
        };
        let (command, heading) = self.leg_line((p[0], p[1]));
        (command, heading, passed)
    }

    /// The line along the leg to the point of the index.
    fn leg_line(&self, p: Level) -> (Command, u32) {
        let i = self.index as usize;
        let command = Command::Line { start: metres(self.point(i - 1)), direction: metres(self.leg(i)) };
        (command, line_heading(self.level_point(i - 1), self.level_leg(i), p))
    }

    fn circle(&self, centre: Level, down_of: usize, sense: i64, p: Level) -> (Command, u32) {
        let radius = i64::from(self.radius);
        let down = self.point(down_of)[2];
        let command =
            Command::Circle { centre: metres([centre.0, centre.1, down]), radius: metre(radius), sense: sense as i32 };
        (command, circle_heading(centre, radius, sense, p))
    }

    fn fillets_fix(&self, p: Level) -> (Command, u32, bool) {
        let i = self.index as usize;
        if self.phase == 1 {
            let (command, heading) = self.leg_line(p);
            (command, heading, dot(less(p, self.line_end()), self.level_leg(i)) >= 0)
        } else {
            let fillet = fillets::fillet_at(self, i);
            let (command, heading) = self.circle(fillet.centre, i, fillet.sense, p);
            (command, heading, dot(less(p, fillet.z2), self.level_leg(i + 1)) >= 0)
        }
    }

    /// Where the line of a fillet plan ends: where the corner's circle begins, or at the last point.
    fn line_end(&self) -> Level {
        let i = self.index as usize;
        if self.on_last_leg() {
            self.level_point(i)
        } else {
            fillets::fillet_at(self, i).z1
        }
    }

    fn dubins_fix(&self, p: Level) -> (Command, u32, bool) {
        let i = self.index as usize;
        let path = dubins::shortest(self, i).expect("a sound state has a case for every leg");
        let q = direction(path.theta);
        let past_z1 = dot(less(p, path.z1), q);
        let past_z2 = dot(less(p, path.z2), q);
        let past_end = dot(less(p, self.level_point(i)), direction(self.course(i)));
        let passed = match self.phase {
            1 => past_z1 <= 0,
            2 => past_z1 >= 0,
            3 => past_z2 >= 0,
            4 => past_end <= 0,
            _ => past_end >= 0,
        };
        let (command, heading) = match self.phase {
            1 | 2 => self.circle(path.start_centre, i - 1, path.start_sense, p),
            3 => self.straight_part(&path, q, p),
            _ => self.circle(path.end_centre, i, path.end_sense, p),
        };
        (command, heading, passed)
    }

    fn straight_part(&self, path: &dubins::Path, q: Level, p: Level) -> (Command, u32) {
        let down = self.point(self.index as usize - 1)[2];
        let command = Command::Line {
            start: metres([path.z1.0, path.z1.1, down]),
            direction: [q.0 as f32 / SCALE as f32, q.1 as f32 / SCALE as f32, 0.0],
        };
        (command, line_heading(path.z1, q, p))
    }
}

/// A fix in decimetres, or none where it is no number or too far.
pub fn position(fix: [f32; 3]) -> Option<[i64; 3]> {
    let mut p = [0; 3];
    for k in 0..3 {
        let exact = f64::from(fix[k]);
        // NaN is in no range.
        if !(-REACH[k]..=REACH[k]).contains(&exact) {
            return None;
        }
        // A 24-bit number times ten is exact in f64, and round takes halves away from zero.
        p[k] = (exact * 10.0).round() as i64;
    }
    Some(p)
}

fn metres(v: [i64; 3]) -> [f32; 3] {
    v.map(metre)
}

/// The whole number is under 2^24, so only the division rounds.
fn metre(x: i64) -> f32 {
    x as f32 / 10.0
}

#[cfg(test)]
mod tests {
    use super::*;

    #[test]
    fn fixes_of_the_document() {
        assert_eq!(position([0.25, -0.25, 0.04]), Some([3, -3, 0]));
        assert_eq!(position([50_000.0, -50_000.0, 10_000.0]), Some([500_000, -500_000, 100_000]));
        let next_above_50_000 = f32::from_bits(50_000_f32.to_bits() + 1);
        assert_eq!(position([next_above_50_000, 0.0, 0.0]), None);
        assert_eq!(position([0.0, f32::NAN, 0.0]), None);
        assert_eq!(position([0.0, 0.0, f32::NEG_INFINITY]), None);
    }

    #[test]
    fn the_fix_that_reaches_a_point_still_has_the_old_leg() {
        let mut state = State { serial: 7, count: 3, index: 2, phase: 1, ..State::EMPTY };
        state.points[1] = [1000, 0, -10];
        state.points[2] = [1000, 2000, -10];
        let answer = state.fix(7, [100.0, 0.0, -1.0]);
        let line = Command::Line { start: [0.0; 3], direction: [100.0, 0.0, -1.0] };
        assert_eq!((answer.command, answer.heading, answer.finished), (line, 0, false));
        assert_eq!((state.index, state.phase, state.finished), (3, 1, false));
    }

    /// North, then a right angle to the east; the last leg climbs three decimetres for every four ahead.
    fn corner(mode: Mode, index: u32, phase: u32) -> State {
        let radius = match mode {
            Mode::Lines => 0,
            Mode::Fillets => 200,
            Mode::Dubins => 100,
        };
        let mut state = State { serial: 7, mode, radius, count: 3, index, phase, ..State::EMPTY };
        state.points[1] = [1000, 0, 0];
        state.points[2] = [1000, 400, -300];
        state
    }

    // At 500 to the right of a leg the heading is 384 less than along it, as in the document's example.
    const FIRST_LEG: Command = Command::Line { start: [0.0; 3], direction: [100.0, 0.0, 0.0] };
    const LAST_LEG: Command = Command::Line { start: [100.0, 0.0, 0.0], direction: [0.0, 40.0, -30.0] };

    /// What a fix at a position in decimetres answers.
    fn fixed(state: &mut State, p: [i64; 3]) -> (Command, u32, (u32, u32, bool)) {
        let answer = state.fix(7, metres(p));
        assert_eq!(answer.refusal, None);
        assert_eq!((answer.index, answer.phase, answer.finished), (state.index, state.phase, state.finished));
        (answer.command, answer.heading, (answer.index, answer.phase, answer.finished))
    }

    #[test]
    fn passing_the_last_corner_beyond_the_last_point_does_not_end_a_lines_plan() {
        let mut state = corner(Mode::Lines, 2, 1);
        let beyond = [1000, 500, -375];
        assert_eq!(fixed(&mut state, beyond), (FIRST_LEG, 3712, (3, 1, false)));
        assert_eq!(fixed(&mut state, beyond), (LAST_LEG, 1024, (3, 1, true)));
    }

    #[test]
    fn passing_the_last_corner_beyond_the_last_point_does_not_end_a_fillet_plan() {
        let mut state = corner(Mode::Fillets, 2, 1);
        assert_eq!(fixed(&mut state, [1000, 500, 0]), (FIRST_LEG, 3712, (2, 2, false)));
        // East of the centre, outside the circle by a quarter of its radius.
        let beyond = [800, 450, 0];
        let circle = Command::Circle { centre: [80.0, 20.0, 0.0], radius: 20.0, sense: 1 };
        assert_eq!(fixed(&mut state, beyond), (circle, 2560, (3, 1, false)));
        assert_eq!(fixed(&mut state, [1000, 450, 0]), (LAST_LEG, 1024, (3, 1, true)));
    }

    #[test]
    fn the_last_leg_is_flown_up_to_the_last_point() {
        for mode in [Mode::Lines, Mode::Fillets] {
            let mut state = corner(mode, 3, 1);
            assert_eq!(fixed(&mut state, [1000, 399, -300]), (LAST_LEG, 1024, (3, 1, false)));
            assert_eq!(fixed(&mut state, [1000, 400, -300]), (LAST_LEG, 1024, (3, 1, true)));
        }
    }

    #[test]
    fn the_end_is_abreast_of_the_last_point_however_far_to_the_side() {
        for mode in [Mode::Lines, Mode::Fillets] {
            let mut state = corner(mode, 3, 1);
            assert_eq!(fixed(&mut state, [500, 399, -300]), (LAST_LEG, 640, (3, 1, false)));
            assert_eq!(fixed(&mut state, [500, 400, -300]), (LAST_LEG, 640, (3, 1, true)));
        }
    }

    #[test]
    fn a_finished_flight_keeps_the_last_leg_and_stays_finished() {
        for mode in [Mode::Lines, Mode::Fillets] {
            let mut state = State { finished: true, ..corner(mode, 3, 1) };
            assert_eq!(fixed(&mut state, [500, 0, 0]), (LAST_LEG, 640, (3, 1, true)));
        }
    }

    #[test]
    fn height_counts_at_the_end_of_a_lines_plan_and_not_of_a_fillet_plan() {
        // At the last point but one lower: short of it along the climbing leg.
        let below = [1000, 400, -299];
        // Three behind it and four above it: exactly abreast of it along the leg.
        let above = [1000, 397, -304];
        for (mode, p, ends) in [
            (Mode::Lines, below, false),
            (Mode::Lines, above, true),
            (Mode::Fillets, below, true),
            (Mode::Fillets, above, false),
        ] {
            assert_eq!(fixed(&mut corner(mode, 3, 1), p), (LAST_LEG, 1024, (3, 1, ends)));
        }
    }

    #[test]
    fn the_longest_plan_ends_at_its_last_place() {
        for (mode, radius) in [(Mode::Lines, 0), (Mode::Fillets, 50)] {
            let mut state = State { serial: 7, mode, radius, count: 64, index: 64, phase: 1, ..State::EMPTY };
            for (i, point) in state.points.iter_mut().enumerate() {
                *point = [100 * i as i32, 0, 0];
            }
            let line = Command::Line { start: [620.0, 0.0, 0.0], direction: [10.0, 0.0, 0.0] };
            assert_eq!(fixed(&mut state, [6299, 0, 0]), (line, 0, (64, 1, false)));
            assert_eq!(fixed(&mut state, [6300, 0, 0]), (line, 0, (64, 1, true)));
        }
    }

    /// The places of a plan of three points that a mode allows: index, phase, finished.
    fn allowed_places(mode: Mode) -> Vec<(u32, u32, bool)> {
        match mode {
            Mode::Lines => vec![(2, 1, false), (3, 1, false), (3, 1, true)],
            Mode::Fillets => vec![(2, 1, false), (2, 2, false), (3, 1, false), (3, 1, true)],
            Mode::Dubins => {
                let unfinished = [2, 3].into_iter().flat_map(|index| (1..=5).map(move |phase| (index, phase, false)));
                unfinished.chain([(3, 5, true)]).collect()
            }
        }
    }

    #[test]
    fn a_fix_at_a_place_that_the_mode_lacks_is_refused() {
        for mode in [Mode::Lines, Mode::Fillets, Mode::Dubins] {
            let allowed = allowed_places(mode);
            let phases = |index| (0..8).flat_map(move |phase| [(index, phase, false), (index, phase, true)]);
            for place in (0..6).flat_map(phases) {
                let given = State { finished: place.2, ..corner(mode, place.0, place.1) };
                let mut state = given;
                let refusal = (!allowed.contains(&place)).then_some(Refusal::plain(14));
                let answer = state.fix(7, [0.0; 3]);
                assert_eq!(answer.refusal, refusal, "{mode:?} {place:?}");
                if refusal.is_some() {
                    assert_eq!((answer.command, answer.heading), (Command::None, 0));
                    assert_eq!((answer.index, answer.phase, answer.finished), place);
                    assert_eq!(state, given);
                }
            }
        }
    }

    #[test]
    fn a_fix_on_the_empty_state_is_refused() {
        let mut state = State::EMPTY;
        assert_eq!(state.fix(0, [0.0; 3]).refusal, Some(Refusal::plain(14)));
        assert_eq!(state, State::EMPTY);
    }
}
