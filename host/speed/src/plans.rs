//! Survey plans of each mode, and the fixes of a simulated flight along one.

use reference::{Mode, State};
use std::f64::consts::TAU;

/// Decimetres: the length of a strip, the distance between strips, the radius of arcs.
const STRIP: f64 = 9000.0;
const APART: f64 = 2500.0;
const RADIUS: u32 = 600;

/// A radius at which the legs between strips have room for their tangent lengths and little more.
const TIGHT: u32 = 1200;

/// The strips lie along this course, so that no leg is along an axis.
const ALONG: f64 = 300.0;

/// Decimetres that the aircraft flies between two fixes, and fixes at most.
const STEP: f64 = 25.0;
const LONGEST: usize = 200_000;

fn turned(along: f64, across: f64) -> [i32; 3] {
    let (sine, cosine) = (ALONG * TAU / 4096.0).sin_cos();
    [(along * cosine - across * sine).round() as i32, (along * sine + across * cosine).round() as i32, -1000]
}

/// Strips up and down, `count` points in all.
pub fn plan(mode: Mode, count: usize) -> State {
    let mut state = State { serial: 7, mode, count: count as u32, index: 2, phase: 1, ..State::EMPTY };
    for i in 0..count {
        let far = i.div_ceil(2) % 2 == 1;
        state.points[i] = turned(if far { STRIP } else { 0.0 }, APART * (i / 2) as f64);
        if mode == Mode::Dubins {
            state.courses[i] = (ALONG as u32 + if i / 2 % 2 == 1 { 2048 } else { 0 }) % 4096;
        }
    }
    if mode != Mode::Lines {
        state.radius = RADIUS;
    }
    assert!(state.is_sound(), "a plan of the benchmark stands");
    state
}

/// A plan of fillets that is checked by the turn at every corner: no bound of a tangent length spares it.
pub fn tight(count: usize) -> State {
    let state = State { radius: TIGHT, ..plan(Mode::Fillets, count) };
    assert!(state.is_sound(), "a tight plan stands");
    state
}

/// The fixes of an aircraft that flies the heading it is given, until the flight is finished.
pub fn simulated(start: &State) -> Vec<[f32; 3]> {
    let mut state = *start;
    let mut fixes = Vec::new();
    let (mut north, mut east) = (f64::from(state.points[0][0]), f64::from(state.points[0][1]));
    while !state.finished {
        let fix = [(north / 10.0) as f32, (east / 10.0) as f32, -100.0];
        fixes.push(fix);
        assert!(fixes.len() < LONGEST, "the flight ends");
        let heading = f64::from(state.fix(state.serial, fix).heading) * TAU / 4096.0;
        north += STEP * heading.cos();
        east += STEP * heading.sin();
    }
    fixes
}
