//! The course table and the whole-number geometry that stands on it.

use std::sync::LazyLock;

/// A level vector or position: north, east.
pub type Level = (i64, i64);

pub const CIRCLE: i64 = 4096;
pub const QUARTER: i64 = 1024;
pub const SCALE: i64 = 16_384;

static SINES: LazyLock<[i64; 1025]> = LazyLock::new(sines);

fn sines() -> [i64; 1025] {
    let mut table = [0; 1025];
    for (k, sine) in table.iter_mut().enumerate() {
        let angle = k as f64 * std::f64::consts::TAU / CIRCLE as f64;
        *sine = (SCALE as f64 * angle.sin()).round() as i64;
    }
    assert_table_facts(&table);
    table
}

fn assert_table_facts(table: &[i64; 1025]) {
    assert_eq!((table[0], table[512], table[1024]), (0, 11_585, SCALE));
    for k in 0..1024 {
        assert!(table[k] <= table[k + 1]);
        let here = direction_in(table, k as i64);
        let next = direction_in(table, k as i64 + 1);
        assert!((dot(here, here) - (1 << 28)).abs() <= 23_171);
        assert!((388_000..=435_500).contains(&cross(here, next)));
    }
}

fn direction_in(table: &[i64; 1025], k: i64) -> Level {
    let k = k.rem_euclid(CIRCLE);
    let part = (k % QUARTER) as usize;
    let (c, s) = (table[1024 - part], table[part]);
    match k / QUARTER {
        0 => (c, s),
        1 => (-s, c),
        2 => (-c, -s),
        _ => (s, -c),
    }
}

/// S[k], for k in 0..=1024.
pub fn sine(k: usize) -> i64 {
    SINES[k]
}

/// D(k), with k taken round the circle.
pub fn direction(k: i64) -> Level {
    direction_in(&SINES, k)
}

pub fn cross(a: Level, b: Level) -> i64 {
    a.0 * b.1 - a.1 * b.0
}

pub fn dot(a: Level, b: Level) -> i64 {
    a.0 * b.0 + a.1 * b.1
}

pub fn plus(a: Level, b: Level) -> Level {
    (a.0 + b.0, a.1 + b.1)
}

pub fn less(a: Level, b: Level) -> Level {
    (a.0 - b.0, a.1 - b.1)
}

/// The course of a vector that is not zero, 0..=4095.
pub fn bearing(v: Level) -> i64 {
    assert!(v != (0, 0), "a zero vector has no bearing");
    let mut quarter = 0;
    let mut v = v;
    while !(v.0 > 0 && v.1 >= 0) {
        v = (v.1, -v.0);
        quarter += 1;
    }
    let table = &*SINES;
    let (mut low, mut high) = (0, 1024);
    while high - low > 1 {
        let middle = (low + high) / 2;
        if cross((table[1024 - middle], table[middle]), v) >= 0 {
            low = middle;
        } else {
            high = middle;
        }
    }
    quarter * QUARTER + low as i64
}

/// The bearing as -2048..=2047.
pub fn signed_bearing(v: Level) -> i64 {
    let k = bearing(v);
    if k >= CIRCLE / 2 {
        k - CIRCLE
    } else {
        k
    }
}

/// The vector of length m along course k, to the nearest whole.
pub fn off(m: i64, k: i64) -> Level {
    let (n, e) = direction(k);
    (nearest_scaled(m * n), nearest_scaled(m * e))
}

fn nearest_scaled(x: i64) -> i64 {
    let size = (x.abs() + SCALE / 2) / SCALE;
    if x < 0 {
        -size
    } else {
        size
    }
}

/// The floor of the square root of a number that is not negative.
pub fn root(x: i64) -> i64 {
    let mut r = (x as f64).sqrt() as i64;
    while r * r > x {
        r -= 1;
    }
    while (r + 1) * (r + 1) <= x {
        r += 1;
    }
    r
}

/// The length of an arc, to the lower whole: 355/113 stands for the number pi.
pub fn arc(radius: i64, turn: i64) -> i64 {
    radius * turn * 355 / 231_424
}

/// The lesser way round between two courses, 0..=2048.
pub fn turn_between(a: i64, b: i64) -> i64 {
    let way = (b - a).rem_euclid(CIRCLE);
    way.min(CIRCLE - way)
}

#[cfg(test)]
mod tests {
    use super::*;

    #[test]
    fn bearings_of_the_document() {
        let cases = [((1, 0), 0), ((0, 1), 1024), ((1, 1), 512), ((1000, 2), 1), ((1000, -1), 4095)];
        for (v, k) in cases {
            assert_eq!(bearing(v), k);
        }
    }

    #[test]
    fn bearing_is_the_one_course_of_its_definition() {
        for n in -20..=20 {
            for e in -20..=20 {
                if (n, e) == (0, 0) {
                    continue;
                }
                let fits = |k: &i64| cross(direction(*k), (n, e)) >= 0 && cross(direction(*k + 1), (n, e)) < 0;
                let all: Vec<i64> = (0..CIRCLE).filter(fits).collect();
                assert_eq!(all, [bearing((n, e))]);
            }
        }
    }

    #[test]
    fn offsets_round_halves_away_from_zero() {
        assert_eq!(nearest_scaled(8_192), 1);
        assert_eq!(nearest_scaled(-8_192), -1);
        assert_eq!(nearest_scaled(8_191), 0);
        assert_eq!(off(200, 1024), (0, 200));
        assert_eq!(off(200, -1024), (0, -200));
    }

    #[test]
    fn roots_are_floors() {
        for r in [0i64, 1, 2, 1000, 1_414_213, 2_000_000] {
            assert_eq!(root(r * r), r);
            assert_eq!(root(r * r + 2 * r), r);
        }
    }

    #[test]
    fn arcs_are_floors() {
        // 314.16 and 157.08 of a radius of 200; a whole circle of 113 is 710 exactly.
        assert_eq!((arc(200, 0), arc(200, 512), arc(200, 1024), arc(113, 4096)), (0, 157, 314, 710));
        // A unit less: 709.8.
        assert_eq!(arc(113, 4095), 709);
    }
}
