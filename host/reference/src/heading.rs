//! The heading laws, on level positions.

use crate::course::{bearing, cross, dot, less, root, signed_bearing, Level, CIRCLE, QUARTER};

pub fn line_heading(start: Level, q: Level, p: Level) -> u32 {
    let b = signed_bearing((500 * root(dot(q, q)), cross(q, less(p, start))));
    // The division cuts toward zero before it is subtracted.
    (bearing(q) - 768 * b / 1024).rem_euclid(CIRCLE) as u32
}

pub fn circle_heading(centre: Level, radius: i64, sense: i64, p: Level) -> u32 {
    let from_centre = less(p, centre);
    let phi = if from_centre == (0, 0) { 0 } else { bearing(from_centre) };
    let distance = root(dot(from_centre, from_centre));
    let b = signed_bearing((radius, 4 * (distance - radius)));
    (phi + sense * (QUARTER + b)).rem_euclid(CIRCLE) as u32
}

#[cfg(test)]
mod tests {
    use super::*;

    #[test]
    fn headings_of_the_document() {
        assert_eq!(line_heading((0, 0), (1000, 0), (0, 500)), 3712);
        assert_eq!(circle_heading((0, 0), 1000, 1, (1000, 0)), 1024);
        assert_eq!(circle_heading((0, 0), 1000, 1, (0, 0)), 159);
    }
}
