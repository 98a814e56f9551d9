//! Random plans, mostly valid or just on one side of a limit.

use crate::chance::Chance;
use reference::state::PLACES;
use reference::{course, dubins, fillets, Mode, State};
use std::f64::consts::TAU;

pub struct Plan {
    pub mode: Mode,
    pub radius: i64,
    pub points: Vec<[i64; 3]>,
    pub courses: Vec<i64>,
}

const NORTH_EAST: i64 = 500_000;
const DOWN: i64 = 100_000;

pub fn random_plan(c: &mut Chance) -> Plan {
    let mode = c.pick(&[Mode::Lines, Mode::Fillets, Mode::Dubins]);
    match mode {
        Mode::Lines => Plan { mode, radius: 0, points: line_points(c), courses: Vec::new() },
        Mode::Fillets if c.one_in(3) => survey_plan(c),
        Mode::Fillets => fillet_plan(c),
        Mode::Dubins => dubins_plan(c),
    }
}

fn random_count(c: &mut Chance) -> usize {
    match c.below(40) {
        0 => PLACES,
        1 => PLACES - 1,
        2..=6 => c.between(9, 40) as usize,
        _ => c.between(3, 8) as usize,
    }
}

pub fn random_radius(c: &mut Chance) -> i64 {
    match c.below(8) {
        0 => 50,
        1 => 10_000,
        2 => c.between(51, 60),
        3 => c.between(5_000, 10_000),
        _ => c.between(61, 2_000),
    }
}

pub fn random_down(c: &mut Chance) -> i64 {
    match c.below(12) {
        0 => DOWN,
        1 => -DOWN,
        2 => c.between(-DOWN, DOWN),
        3..=6 => 0,
        _ => c.between(-1500, 200),
    }
}

fn line_points(c: &mut Chance) -> Vec<[i64; 3]> {
    match c.below(6) {
        0 => tiny_grid(c),
        1 => (0..random_count(c)).map(|_| anywhere(c)).collect(),
        2 => corners_of_the_area(c),
        3 => nearly_opposite(c),
        4 => axis_walk(c),
        _ => walk(c),
    }
}

/// Coordinates so small that equal neighbours, opposite legs and exact half-plane ties are common.
fn tiny_grid(c: &mut Chance) -> Vec<[i64; 3]> {
    (0..c.between(3, 5)).map(|_| [c.between(-3, 3), c.between(-3, 3), c.between(-1, 1)]).collect()
}

fn anywhere(c: &mut Chance) -> [i64; 3] {
    [c.between(-NORTH_EAST, NORTH_EAST), c.between(-NORTH_EAST, NORTH_EAST), random_down(c)]
}

fn corners_of_the_area(c: &mut Chance) -> Vec<[i64; 3]> {
    let side = [-NORTH_EAST, NORTH_EAST, 0];
    (0..c.between(3, 6)).map(|_| [c.pick(&side), c.pick(&side), c.pick(&[-DOWN, DOWN, 0])]).collect()
}

fn nearly_opposite(c: &mut Chance) -> Vec<[i64; 3]> {
    let a = [c.between(-50, 50), c.between(-50, 50), c.between(-9, 9)];
    let (out, back) = (c.between(1, 300), c.between(1, 300));
    let miss = if c.one_in(3) { 0 } else { c.between(-1, 1) };
    let far = a.map(|part| part * out);
    let mut end = [0, 1, 2].map(|k| far[k] - a[k] * back);
    end[c.below(3)] += miss;
    let before = [c.between(-5000, 5000), c.between(-5000, 5000), 0];
    if c.one_in(2) {
        vec![before, [0; 3], far, end]
    } else {
        vec![[0; 3], far, end]
    }
}

fn axis_walk(c: &mut Chance) -> Vec<[i64; 3]> {
    let (length, other) = (c.between(1, 5000), c.between(1, 5000));
    let mut at = [0, 0, random_down(c)];
    let mut points = vec![at];
    let mut course = c.below(4);
    for _ in 1..random_count(c) {
        let step = c.pick(&[length, length, other]);
        at[course % 2] += if course < 2 { step } else { -step };
        course = (course + c.pick(&[0, 1, 1, 3])) % 4;
        points.push(at);
    }
    points
}

fn inside(point: [i64; 3]) -> bool {
    point[0].abs() <= NORTH_EAST && point[1].abs() <= NORTH_EAST
}

pub fn moved(from: [i64; 3], course: f64, length: f64, down: i64) -> [i64; 3] {
    let angle = course * TAU / 4096.0;
    [from[0] + (length * angle.cos()).round() as i64, from[1] + (length * angle.sin()).round() as i64, down]
}

fn random_start(c: &mut Chance) -> [i64; 3] {
    let spread = c.pick(&[0, 1000, 200_000, 400_000]);
    [c.between(-spread, spread), c.between(-spread, spread), random_down(c)]
}

fn walk(c: &mut Chance) -> Vec<[i64; 3]> {
    let mut points = vec![random_start(c)];
    let reach = c.pick(&[30, 3_000, 40_000]);
    for _ in 1..random_count(c) {
        let from = points[points.len() - 1];
        let down = random_down(c);
        points.push(step_inside(c, from, reach as f64, down));
    }
    points
}

fn step_inside(c: &mut Chance, from: [i64; 3], length: f64, down: i64) -> [i64; 3] {
    let mut to = from;
    for _ in 0..10 {
        to = moved(from, c.between(0, 4095) as f64, length, down);
        if inside(to) {
            break;
        }
    }
    to
}

/// The tangent lengths decide the legs, with a little to spare or a little too little.
fn fillet_plan(c: &mut Chance) -> Plan {
    let radius = random_radius(c);
    let count = random_count(c);
    let right_angles = c.one_in(4);
    let tight = c.one_in(2);
    let mut points = vec![random_start(c)];
    let mut heading = if right_angles { 1024 * c.between(0, 3) } else { c.between(0, 4095) };
    let mut tangent = 0;
    for i in 1..count {
        let turn = if right_angles { c.pick(&[-1024, 1024, 0]) } else { random_turn(c) };
        let next_tangent = if i + 1 < count { fillets::tangent_length(radius as u32, turn.abs()) } else { 0 };
        let spare = if tight { c.between(0, 2) - i64::from(c.one_in(12)) } else { c.between(2, 2000) };
        let length = (tangent + next_tangent + spare).max(1) as f64;
        let from = points[points.len() - 1];
        let down = random_down(c);
        points.push(moved(from, heading as f64 + 0.5 * f64::from(u8::from(!right_angles)), length, down));
        heading += turn;
        tangent = next_tangent;
    }
    Plan { mode: Mode::Fillets, radius, points, courses: Vec::new() }
}

/// Turns about a right angle and legs of some 5/2 radii, of which a few are a little sharper or shorter: where turns and tangent lengths begin to be
/// worked out.
fn survey_plan(c: &mut Chance) -> Plan {
    let radius = random_radius(c);
    let few = c.pick(&[10, 40, 1_000]);
    let mut points = vec![random_start(c)];
    let mut heading = c.between(0, 4095);
    for _ in 1..random_count(c) {
        let length = 5 * radius / 2 + if c.one_in(few) { c.between(-3, 0) } else { c.between(2, 2 * radius) };
        let turn = if c.one_in(few) { c.between(1145, 1160) } else { c.between(1020, 1028) };
        let from = points[points.len() - 1];
        let down = random_down(c);
        points.push(moved(from, heading as f64, length as f64, down));
        heading += c.pick(&[turn, -turn]);
    }
    Plan { mode: Mode::Fillets, radius, points, courses: Vec::new() }
}

fn random_turn(c: &mut Chance) -> i64 {
    let size = match c.below(40) {
        0 => c.between(1790, 1794),
        1 => c.between(1780, 1792),
        2 => c.between(0, 2),
        _ => c.between(0, 1300),
    };
    c.pick(&[size, -size])
}

fn dubins_plan(c: &mut Chance) -> Plan {
    let radius = random_radius(c);
    let on_axes = c.one_in(3);
    let mut points = vec![random_start(c)];
    for _ in 1..random_count(c) {
        let from = points[points.len() - 1];
        let length = dubins_leg(c, radius);
        let down = random_down(c);
        points.push(if on_axes { axis_step(c, from, length, down) } else { step_inside(c, from, length as f64, down) });
    }
    let mut courses: Vec<i64> = points.iter().map(|_| random_course(c)).collect();
    if c.one_in(20) {
        for i in 1..points.len().min(6) {
            nearly_tie(c, radius, &mut points[i - 1..=i], &mut courses[i - 1..=i]);
        }
    }
    Plan { mode: Mode::Dubins, radius, points, courses }
}

/// Moves the end of a leg and its course until the two shortest cases are about equally long.
fn nearly_tie(c: &mut Chance, radius: i64, ends: &mut [[i64; 3]], courses: &mut [i64]) {
    let mut best = i64::MAX;
    for attempt in 0..100 {
        let (mut end, mut course) = (ends[1], courses[1]);
        if attempt < 40 {
            course = c.between(0, 4095);
        } else {
            let reach = best.clamp(1, radius);
            end[0] += c.between(-reach, reach);
            end[1] += c.between(-reach, reach);
        }
        let gap = gap_of_shortest(radius, [ends[0], end], [courses[0], course]);
        if gap < best && inside(end) {
            best = gap;
            (ends[1], courses[1]) = (end, course);
        }
    }
}

/// How much longer the second shortest case of a leg is than the shortest.
fn gap_of_shortest(radius: i64, ends: [[i64; 3]; 2], courses: [i64; 2]) -> i64 {
    let mut leg = State { mode: Mode::Dubins, radius: radius as u32, count: 2, ..State::EMPTY };
    for k in 0..2 {
        leg.points[k] = ends[k].map(|part| part as i32);
        leg.courses[k] = courses[k] as u32;
    }
    let mut lengths: Vec<i64> = dubins::case_lengths(&leg, 2).into_iter().flatten().collect();
    lengths.sort();
    match lengths[..] {
        [first, second, ..] => second - first,
        _ => i64::MAX,
    }
}

fn axis_step(c: &mut Chance, from: [i64; 3], length: i64, down: i64) -> [i64; 3] {
    let mut to = from;
    for _ in 0..10 {
        let (n, e) = course::off(length, 1024 * c.between(0, 3));
        to = [from[0] + n, from[1] + e, down];
        if inside(to) {
            break;
        }
    }
    to
}

/// Near three radii the plan rule decides, near four the cases that cross over.
fn dubins_leg(c: &mut Chance, radius: i64) -> i64 {
    match c.below(40) {
        0 => 3 * radius - 1,
        1..=4 => 3 * radius + c.between(0, 2),
        5..=9 => 4 * radius + c.between(-2, 2),
        10..=19 => 3 * radius + 2 + c.between(0, radius),
        _ => 3 * radius + 2 + c.between(0, 8 * radius),
    }
}

pub fn random_course(c: &mut Chance) -> i64 {
    if c.one_in(2) {
        c.pick(&[0, 512, 1024, 2048, 3072, 4095, 1, 1023])
    } else {
        c.between(0, 4095)
    }
}
