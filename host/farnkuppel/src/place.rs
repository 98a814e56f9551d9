//! Places on the map, in metres.

use crate::plan::Point;

/// Decimetres in a metre.
const DECIMETRES: f64 = 10.0;

/// A place on the map, in metres.
#[derive(Clone, Copy, PartialEq, Debug)]
pub struct Place {
    pub north: f64,
    pub east: f64,
}

impl Place {
    pub fn metres(decimetres: i32) -> f64 {
        f64::from(decimetres) / DECIMETRES
    }

    pub fn of(point: &Point) -> Place {
        Place { north: Place::metres(point.north), east: Place::metres(point.east) }
    }

    pub fn distance(self, other: Place) -> f64 {
        (self.north - other.north).hypot(self.east - other.east)
    }
}
