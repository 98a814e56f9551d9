//! A flight to draw: the fixes put together with what the library answers them.

use crate::fixes::Fix;
use crate::flight::{Flight, Path};
use crate::place::Place;
use crate::plan::Plan;

/// A circle that was commanded, level: its centre and its radius in metres.
#[derive(Clone, Copy, PartialEq, Debug)]
pub struct Circle {
    pub centre: Place,
    pub radius: f64,
}

/// Where the aircraft was at a fix, and the phase that it was answered.
#[derive(Clone, Copy)]
pub struct Step {
    pub place: Place,
    pub phase: u32,
}

/// The accepted fixes, the places of the refused ones, each commanded circle once, and whether the plan was finished.
#[derive(Default)]
pub struct Track {
    pub steps: Vec<Step>,
    pub refused: Vec<Place>,
    pub circles: Vec<Circle>,
    pub finished: bool,
}

impl Track {
    pub fn of(plan: &Plan, fixes: &[Fix]) -> Track {
        let mut track = Track::default();
        let mut flight = Flight::of(plan);
        for fix in fixes {
            let [north, east, _] = fix.position.map(f64::from);
            let place = Place { north, east };
            let answer = flight.fix(fix);
            track.finished = answer.finished();
            if answer.refusal().is_some() {
                track.refused.push(place);
                continue;
            }
            track.steps.push(Step { place, phase: answer.phase() });
            if let Path::Circle { centre: [north, east, _], radius } = answer.path() {
                let centre = Place { north: f64::from(north), east: f64::from(east) };
                track.keep(Circle { centre, radius: f64::from(radius) });
            }
        }
        track
    }

    /// Keeps a circle that was not there yet.
    fn keep(&mut self, circle: Circle) {
        if !self.circles.contains(&circle) {
            self.circles.push(circle);
        }
    }
}
