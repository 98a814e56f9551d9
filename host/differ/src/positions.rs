//! Random position fixes for a state: about the boundary it waits for, and everywhere else.

use crate::chance::Chance;
use reference::course::{direction, off, plus, Level};
use reference::{dubins, fillets, Mode, State};

#[rustfmt::skip] // a line for each sort
const ODD: [u32; 22] = [
    0x7FC0_0000, 0xFFC0_0001, 0x7F80_0001, 0x7F80_0000, 0xFF80_0000, // NaN and infinite
    0x4743_5000, 0xC743_5000, 0x4743_5001, 0xC743_5001, 0x4743_4FFF, // about 50,000
    0x461C_4000, 0xC61C_4000, 0x461C_4001, 0xC61C_4001, 0x461C_3FFF, // about 10,000
    0x0000_0000, 0x8000_0000, 0x0000_0001, 0x807F_FFFF, 0x7F7F_FFFF, // zeros, tiny, huge
    0x3E80_0000, 0xBE80_0000, // a quarter metre
];

pub fn random_fix(c: &mut Chance, state: &State) -> [f32; 3] {
    let mut fix = match c.below(16) {
        0 => [random_float(c), random_float(c), random_float(c)],
        1 => anywhere(c),
        2 | 3 => about_the_plan(c, state),
        4 if has_circle(state) => about_the_circle(c, state),
        // Past the point before the last and perhaps past the last: only the first of them may count.
        5 if ends_in_a_line(state) && state.index + 1 == state.count => about_the_last_point(c, state),
        _ => about_the_boundary(c, state),
    };
    if c.one_in(24) {
        fix[c.below(3)] = f32::from_bits(c.pick(&ODD));
    }
    fix
}

/// Whether the plan's end is the plane through its last point, across the last leg.
fn ends_in_a_line(state: &State) -> bool {
    state.mode != Mode::Dubins
}

fn has_circle(state: &State) -> bool {
    match state.mode {
        Mode::Lines => false,
        Mode::Fillets => !state.on_last_leg(),
        Mode::Dubins => true,
    }
}

/// Any bits, or such as have a size that fits.
fn random_float(c: &mut Chance) -> f32 {
    let bits = c.bits() as u32;
    if c.one_in(2) {
        f32::from_bits(bits)
    } else {
        f32::from_bits((bits % 0x4743_5010) | (bits & 0x8000_0000))
    }
}

fn anywhere(c: &mut Chance) -> [f32; 3] {
    [0, 1, 2].map(|k| to_metres(c, [500_000, 500_000, 100_000][k], 0))
}

/// A decimetre in metres, now and then at or beside the half between two of them.
fn to_metres(c: &mut Chance, spread: i64, from: i64) -> f32 {
    let whole = from + c.between(-spread, spread);
    match c.below(10) {
        0 => (whole as f64 / 10.0 + 0.05) as f32,
        1 => (whole / 10) as f32 + c.pick(&[0.25, 0.75, -0.25]),
        2 => f32::from_bits((whole as f32 / 10.0).to_bits() ^ 1),
        _ => whole as f32 / 10.0,
    }
}

fn about_the_plan(c: &mut Chance, state: &State) -> [f32; 3] {
    let place = 1 + c.below(state.count as usize);
    let spread = c.pick(&[0, 3, 500, 20_000]);
    state.point(place).map(|part| to_metres(c, spread, part))
}

/// At the centre of the circle at hand, beside it, or on the circle.
fn about_the_circle(c: &mut Chance, state: &State) -> [f32; 3] {
    let i = state.index as usize;
    let centre = if state.mode == Mode::Fillets {
        fillets::fillet_at(state, i).centre
    } else {
        let path = dubins::shortest(state, i).expect("a loaded plan has a case for every leg");
        if state.phase <= 3 {
            path.start_centre
        } else {
            path.end_centre
        }
    };
    let arm = c.pick(&[0, 0, 1, i64::from(state.radius)]);
    let (n, e) = plus(centre, off(arm, c.between(0, 4095)));
    let down = state.point(i)[2];
    [n as f32 / 10.0, e as f32 / 10.0, to_metres(c, 500, down)]
}

fn about_the_boundary(c: &mut Chance, state: &State) -> [f32; 3] {
    let i = state.index as usize;
    if ends_in_a_line(state) && state.on_last_leg() {
        return about_the_last_point(c, state);
    }
    if state.mode == Mode::Lines {
        return about_a_line_corner(c, state, i);
    }
    let (anchor, q) = level_boundary(state, i);
    let across = along(primitive_level((-q.1, q.0)), c.pick(&[0, 0, 1, -1, 2, -3]));
    let ahead = forward(q, c.pick(&[0, 0, 0, 1, -1, 300, -300, 2000, -2000]));
    let spread = c.pick(&[0, 0, 1, 2]);
    let down = state.point(i)[2];
    [
        to_metres(c, spread, anchor.0 + across.0 + ahead.0),
        to_metres(c, spread, anchor.1 + across.1 + ahead.1),
        to_metres(c, 500, down),
    ]
}

/// Where the next change of phase waits, and the direction in which it is passed; not for the last leg of a fillet plan.
fn level_boundary(state: &State, i: usize) -> (Level, Level) {
    if state.mode == Mode::Fillets {
        let fillet = fillets::fillet_at(state, i);
        return match state.phase {
            1 => (fillet.z1, state.level_leg(i)),
            _ => (fillet.z2, state.level_leg(i + 1)),
        };
    }
    let path = dubins::shortest(state, i).expect("a loaded plan has a case for every leg");
    match state.phase {
        1 | 2 => (path.z1, direction(path.theta)),
        3 => (path.z2, direction(path.theta)),
        _ => (state.level_point(i), direction(state.course(i))),
    }
}

/// Offsets that lie exactly on the half-plane's edge where the legs have lengths in a whole proportion, and near it otherwise.
fn about_a_line_corner(c: &mut Chance, state: &State, i: usize) -> [f32; 3] {
    let (a, b) = (state.leg(i), state.leg(i + 1));
    let times = c.pick(&[0, 1, -1, 2, -7, 40]);
    let mut d = if c.one_in(2) {
        let (a, b) = (primitive(a), primitive(b));
        [0, 1, 2].map(|k| times * (a[k] - b[k]))
    } else {
        let (a, b) = (unit(a), unit(b));
        [0, 1, 2].map(|k| (times as f64 * 100.0 * (a[k] - b[k])).round() as i64)
    };
    if c.one_in(3) {
        let push = c.pick(&[1, -1, 1000, -1000]);
        let a = unit(a);
        d = [0, 1, 2].map(|k| d[k] + (push as f64 * a[k]).round() as i64);
    }
    let spread = c.pick(&[0, 0, 1, 2]);
    let point = state.point(i);
    [0, 1, 2].map(|k| to_metres(c, spread, point[k] + d[k]))
}

/// On the plane across the last leg through the last point, on the upright one that north and east decide, and before and behind them.
/// Where the leg climbs or sinks, the two planes part, and a lines plan and a fillet plan end at different places.
fn about_the_last_point(c: &mut Chance, state: &State) -> [f32; 3] {
    let i = state.count as usize;
    let (point, leg) = (state.point(i), state.leg(i));
    let d = if c.one_in(2) { balanced(c, leg) } else { beside(c, leg) };
    let way = if c.one_in(2) { leg } else { [leg[0], leg[1], 0] };
    let push = ahead(way, c.pick(&[0, 0, 0, 1, -1, 1, -1, 300, -300]));
    let spread = c.pick(&[0, 0, 0, 1]);
    [0, 1, 2].map(|k| to_metres(c, spread, point[k] + d[k] + push[k]))
}

/// Level across the leg, and so on both planes; or above or below there, and so on the upright one.
fn beside(c: &mut Chance, leg: [i64; 3]) -> [i64; 3] {
    let (n, e) = along(primitive_level((-leg[1], leg[0])), c.pick(&[0, 0, 1, -1, 2, -3]));
    [n, e, c.pick(&[0, 0, 1, -1, 40, -40, 500, -500])]
}

/// On the plane across the leg, exactly or nearly, where the way ahead and the way down balance.
fn balanced(c: &mut Chance, leg: [i64; 3]) -> [i64; 3] {
    let times = c.pick(&[1, -1, 2, -3]);
    if leg[2] == 0 || c.one_in(2) {
        let axis = c.below(2);
        let mut d = [0, 0, leg[axis]];
        d[axis] = -leg[2];
        return primitive(d).map(|part| times * part);
    }
    let (n, e) = forward((leg[0], leg[1]), 10 * times);
    [n, e, -(n * leg[0] + e * leg[1]) / leg[2]]
}

fn common(a: i64, b: i64) -> i64 {
    if b == 0 {
        a.abs()
    } else {
        common(b, a % b)
    }
}

/// The shortest whole vector in the same direction.
fn primitive(v: [i64; 3]) -> [i64; 3] {
    let share = common(common(v[0], v[1]), v[2]).max(1);
    v.map(|part| part / share)
}

fn primitive_level(v: Level) -> Level {
    let [n, e, _] = primitive([v.0, v.1, 0]);
    (n, e)
}

fn unit(v: [i64; 3]) -> [f64; 3] {
    let length = v.iter().map(|part| (part * part) as f64).sum::<f64>().sqrt();
    v.map(|part| part as f64 / length)
}

fn along(v: Level, times: i64) -> Level {
    (v.0 * times, v.1 * times)
}

fn forward(q: Level, distance: i64) -> Level {
    let [n, e, _] = ahead([q.0, q.1, 0], distance);
    (n, e)
}

fn ahead(v: [i64; 3], distance: i64) -> [i64; 3] {
    unit(v).map(|part| (part * distance as f64).round() as i64)
}
