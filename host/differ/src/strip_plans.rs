//! Random strip plans, and plans that are nearly such.

use crate::chance::Chance;
use crate::plans::{moved, random_course, random_down, random_radius};
use reference::course::{bearing, direction, plus, Level, CIRCLE, QUARTER, SCALE};
use reference::state::PLACES;
use reference::{strips, Mode, State};

const HALF: i64 = CIRCLE / 2;

/// A strip plan of 2 strips or more, at its start.
pub fn strip_plan(c: &mut Chance) -> State {
    loop {
        let state = up_and_down(c);
        if strips::check(&state).is_ok() {
            return state;
        }
    }
}

fn random_strips(c: &mut Chance) -> usize {
    let most = PLACES / 2;
    match c.below(10) {
        0 => most,
        1 | 2 => c.between(9, most as i64 - 1) as usize,
        _ => c.between(2, 8) as usize,
    }
}

/// Strips on both sides of the middle, which do not always stay within the area.
fn up_and_down(c: &mut Chance) -> State {
    let radius = random_radius(c);
    let strips = random_strips(c);
    let course = random_course(c);
    let side = c.pick(&[-QUARTER, QUARTER]);
    let gap = 3 * radius + c.between(2, radius);
    let mut state = State { serial: 7, mode: Mode::Dubins, radius: radius as u32, index: 2, phase: 1, ..State::EMPTY };
    let mut at = level_step(course + side, -gap * (strips as i64 - 1) / 2);
    for j in 0..strips {
        let along = (course + HALF * j as i64) % CIRCLE;
        let length = 3 * radius + c.between(1, 8 * radius);
        let end = plus(at, leg_along(c, along, length));
        push(c, &mut state, at, along);
        push(c, &mut state, end, along);
        at = plus(end, level_step(course + side, gap));
    }
    state
}

fn push(c: &mut Chance, state: &mut State, (north, east): Level, course: i64) {
    let place = state.count as usize;
    state.points[place] = [north as i32, east as i32, random_down(c) as i32];
    state.courses[place] = course as u32;
    state.count += 1;
}

fn level_step(course: i64, length: i64) -> Level {
    level(moved([0; 3], course as f64, length as f64, 0))
}

fn level([north, east, _]: [i64; 3]) -> Level {
    (north, east)
}

/// A leg with the bearing `course`, of the length or a little more: at either edge of the course, or between them.
fn leg_along(c: &mut Chance, course: i64, length: i64) -> Level {
    let times = 1 + length / SCALE;
    let edge = |k: i64| (direction(k).0 * times, direction(k).1 * times);
    match c.below(4) {
        0 => edge(course),
        // The upper edge itself belongs to the next course.
        1 => plus(edge(course + 1), level_step(course - QUARTER, 1)),
        _ => between_edges(course, length),
    }
}

/// Short legs in the middle of a course can miss it by being rounded: a longer one does not.
fn between_edges(course: i64, length: i64) -> Level {
    let legs = (length..).map(|long| level(moved([0; 3], course as f64 + 0.5, long as f64, 0)));
    legs.into_iter().find(|leg| bearing(*leg) == course).expect("some length fits")
}

/// Makes one change to a plan of strips, by which it mostly is none any more.
pub fn spoil(c: &mut Chance, state: &mut State) {
    let strips = state.count as usize / 2;
    let any = 1 + c.below(strips);
    let j = c.pick(&[1, any, strips]);
    match c.below(12) {
        0 | 1 => change_a_course(c, state, j),
        2 => change_both_courses(c, state, j),
        3 => state.points.swap(2 * j - 2, 2 * j - 1),
        4 | 5 => turn_around(state, j),
        6 => exchange(state, j, c.pick(&[1, any, strips])),
        7 => move_a_point(c, state, j),
        8 => veer(c, state, j),
        9 => drop_the_last_point(state),
        10 => forget_courses(state, Mode::Fillets),
        _ => forget_courses(state, Mode::Lines),
    }
}

fn turned(course: u32, by: i64) -> u32 {
    (i64::from(course) + by).rem_euclid(CIRCLE) as u32
}

/// Mostly a unit, or what looks like nothing or like a half circle.
fn random_change(c: &mut Chance) -> i64 {
    let any = c.between(1, CIRCLE - 1);
    c.pick(&[1, -1, 1, -1, HALF, HALF - 1, QUARTER, any])
}

fn change_a_course(c: &mut Chance, state: &mut State, j: usize) {
    let course = &mut state.courses[2 * j - 1 - c.below(2)];
    *course = turned(*course, random_change(c));
}

fn change_both_courses(c: &mut Chance, state: &mut State, j: usize) {
    let by = random_change(c);
    turn_courses(state, j, by);
}

fn turn_courses(state: &mut State, j: usize, by: i64) {
    for course in &mut state.courses[2 * j - 2..2 * j] {
        *course = turned(*course, by);
    }
}

/// The strip is flown the other way: it keeps all rules but the third.
fn turn_around(state: &mut State, j: usize) {
    state.points.swap(2 * j - 2, 2 * j - 1);
    turn_courses(state, j, HALF);
}

/// Two strips change places, with their courses.
fn exchange(state: &mut State, a: usize, b: usize) {
    for k in 1..=2 {
        state.points.swap(2 * a - k, 2 * b - k);
        state.courses.swap(2 * a - k, 2 * b - k);
    }
}

fn move_a_point(c: &mut Chance, state: &mut State, j: usize) {
    let reach = c.pick(&[1, 1, 30]);
    let point = &mut state.points[2 * j - 1 - c.below(2)];
    point[c.below(3)] += c.between(-reach, reach) as i32;
}

/// The strip goes a unit beside its course, and its courses go with it: it keeps all rules but the third.
fn veer(c: &mut Chance, state: &mut State, j: usize) {
    let by = c.pick(&[1, -1]);
    turn_courses(state, j, by);
    let length = 3 * i64::from(state.radius) + c.between(1, 1000);
    let (north, east) = plus(state.level_point(2 * j - 1), leg_along(c, state.course(2 * j), length));
    let end = &mut state.points[2 * j - 1];
    (end[0], end[1]) = (north as i32, east as i32);
}

fn drop_the_last_point(state: &mut State) {
    state.count -= 1;
    state.points[state.count as usize] = [0; 3];
    state.courses[state.count as usize] = 0;
}

fn forget_courses(state: &mut State, mode: Mode) {
    state.mode = mode;
    state.courses = [0; PLACES];
    if mode == Mode::Lines {
        state.radius = 0;
    }
}
