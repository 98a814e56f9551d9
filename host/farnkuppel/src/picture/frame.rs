//! The map's frame: where a place in metres stands on the picture.
use super::track::Circle;
use crate::place::Place;

/// Where the map begins, in pixels from the left and the top of the picture.
pub const LEFT: f64 = 64.0;
pub const TOP: f64 = 60.0;

/// How wide and how tall the map is at the most and at the least, and what is left free between its border and what is drawn in it.
const MOST_WIDE: f64 = 660.0;
const MOST_TALL: f64 = 600.0;
const LEAST_WIDE: f64 = 300.0;
const LEAST_TALL: f64 = 320.0;
const MARGIN: f64 = 32.0;

/// What stands to the right of the map and below it.
const BESIDE: f64 = 180.0;
const BELOW: f64 = 40.0;

/// The smallest extent that is drawn, in metres.
const LEAST: f64 = 10.0;

/// The part of the map that has to be seen, in metres.
pub struct Extent {
    low: Place,
    high: Place,
}

impl Extent {
    pub fn around(place: Place) -> Extent {
        Extent { low: place, high: place }
    }

    pub fn include(&mut self, place: Place) {
        self.low = Place { north: self.low.north.min(place.north), east: self.low.east.min(place.east) };
        self.high = Place { north: self.high.north.max(place.north), east: self.high.east.max(place.east) };
    }

    pub fn include_circle(&mut self, circle: &Circle) {
        for by in [-circle.radius, circle.radius] {
            self.include(Place { north: circle.centre.north + by, east: circle.centre.east + by });
        }
    }
}

/// The middle of the map, its scale in pixels a metre, the same in both directions, and its right and lower border.
pub struct Frame {
    middle: Place,
    pub scale: f64,
    pub right: f64,
    pub bottom: f64,
}

impl Frame {
    /// As large as there is room for, and no wider or taller than what has to be seen.
    pub fn of(extent: &Extent) -> Frame {
        let (low, high) = (extent.low, extent.high);
        let middle = Place { north: (low.north + high.north) / 2.0, east: (low.east + high.east) / 2.0 };
        let (wide, tall) = ((high.east - low.east).max(LEAST), (high.north - low.north).max(LEAST));
        let scale = ((MOST_WIDE - 2.0 * MARGIN) / wide).min((MOST_TALL - 2.0 * MARGIN) / tall);
        let right = LEFT + (wide * scale + 2.0 * MARGIN).max(LEAST_WIDE).round();
        let bottom = TOP + (tall * scale + 2.0 * MARGIN).max(LEAST_TALL).round();
        Frame { middle, scale, right, bottom }
    }

    /// The picture's size.
    pub fn picture(&self) -> (f64, f64) {
        (self.right + BESIDE, self.bottom + BELOW)
    }

    /// Pixels from the left of the picture.
    pub fn x(&self, east: f64) -> f64 {
        (LEFT + self.right) / 2.0 + (east - self.middle.east) * self.scale
    }

    /// Pixels from the top of the picture.
    pub fn y(&self, north: f64) -> f64 {
        (TOP + self.bottom) / 2.0 - (north - self.middle.north) * self.scale
    }

    /// Lines through places, as the data of a path.
    pub fn lines_through(&self, places: &[Place]) -> String {
        let at = |(i, place): (usize, &Place)| {
            let letter = if i == 0 { "M" } else { "L" };
            format!("{letter}{:.1} {:.1}", self.x(place.east), self.y(place.north))
        };
        places.iter().enumerate().map(at).collect()
    }

    /// The pixels between two places.
    pub fn pixels(&self, one: Place, other: Place) -> f64 {
        one.distance(other) * self.scale
    }

    /// Whether a place is a number and stands in the frame.
    pub fn shows(&self, place: Place) -> bool {
        (LEFT..=self.right).contains(&self.x(place.east)) && (TOP..=self.bottom).contains(&self.y(place.north))
    }

    /// The numbers in metres at which grid lines along one direction stand: multiples of a step from one end of the frame to the other.
    fn grid(&self, middle: f64, half: f64, step: f64) -> Vec<f64> {
        let first = ((middle - half / self.scale) / step).ceil();
        let last = ((middle + half / self.scale) / step).floor();
        let count = (last - first + 1.0).max(0.0) as usize;
        (0..count).map(|i| (first + i as f64) * step).collect()
    }

    pub fn grid_easts(&self, step: f64) -> Vec<f64> {
        self.grid(self.middle.east, (self.right - LEFT) / 2.0, step)
    }

    pub fn grid_norths(&self, step: f64) -> Vec<f64> {
        self.grid(self.middle.north, (self.bottom - TOP) / 2.0, step)
    }

    /// The least of 1, 2 and 5 times a power of ten metres that is at least so many pixels.
    pub fn round_step(&self, pixels: f64) -> f64 {
        let least = pixels / self.scale;
        let power = 10f64.powf(least.log10().floor());
        let fits = [1.0, 2.0, 5.0].into_iter().find(|digit| digit * power >= least);
        fits.unwrap_or(10.0) * power
    }
}
