//! Lines mode: the half-plane at a point, in three dimensions.

/// Legs are exactly opposite when they are parallel and their dot product is negative.
pub fn opposite(a: [i64; 3], b: [i64; 3]) -> bool {
    let parallel = a[1] * b[2] == a[2] * b[1] && a[2] * b[0] == a[0] * b[2] && a[0] * b[1] == a[1] * b[0];
    parallel && dot3(a, b) < 0
}

pub fn dot3(a: [i64; 3], b: [i64; 3]) -> i64 {
    a[0] * b[0] + a[1] * b[1] + a[2] * b[2]
}

/// Whether the offset d from a point has met the half-plane between legs a and b: the sum of the legs, each scaled to length one, has no
/// negative part along d.
pub fn half_plane_met(d: [i64; 3], a: [i64; 3], b: [i64; 3]) -> bool {
    let (x, y) = (i128::from(dot3(d, a)), i128::from(dot3(d, b)));
    let (a2, b2) = (i128::from(dot3(a, a)), i128::from(dot3(b, b)));
    match (x >= 0, y >= 0) {
        (true, true) => true,
        (false, false) => false,
        (false, true) => y * y * a2 >= x * x * b2,
        (true, false) => x * x * b2 >= y * y * a2,
    }
}

#[cfg(test)]
mod tests {
    use super::*;

    #[test]
    fn half_planes_of_the_document() {
        let (a, b) = ([1000, 0, 0], [0, 2000, 0]);
        assert!(half_plane_met([0, 0, 0], a, b));
        assert!(half_plane_met([-1, 1, 0], a, b));
        assert!(!half_plane_met([-3, 2, 0], a, b));
        assert!(half_plane_met([1, -1, 0], a, b));
        assert!(!half_plane_met([2, -3, 0], a, b));
    }

    #[test]
    fn opposite_legs_need_not_be_of_one_length() {
        assert!(opposite([3, -6, 9], [-1, 2, -3]));
        assert!(!opposite([3, -6, 9], [1, -2, 3]));
        assert!(!opposite([3, -6, 9], [-1, 2, -2]));
    }
}
