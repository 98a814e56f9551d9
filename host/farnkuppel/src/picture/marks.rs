//! The plan on the map: its legs, and its points with their numbers and courses.

use super::frame::Frame;
use crate::place::Place;
use crate::plan::Plan;
use archive::number::CIRCLE;
use std::f64::consts::{FRAC_PI_2, TAU};

/// Points nearer than this many pixels share a label.
const SAME_LABEL: f64 = 9.0;

/// The length of a course's arrow, in pixels.
const ARROW: f64 = 22.0;

/// The pixels from a point to the middle of its label.
const LABEL: f64 = 14.0;

/// A point of the plan. A course is in radians, clockwise from north.
struct Mark {
    place: Place,
    course: Option<f64>,
}

fn marks_of(plan: &Plan) -> Vec<Mark> {
    let radians = |course: i32| f64::from(course) * TAU / f64::from(CIRCLE);
    let mark = |point| Mark { place: Place::of(&point), course: point.course.map(radians) };
    plan.points().into_iter().map(mark).collect()
}

/// The labels: a point and its number, with the numbers of later points that stand as good as where it does.
fn labels(frame: &Frame, marks: &[Mark]) -> Vec<(usize, String)> {
    let mut labels: Vec<(usize, String)> = Vec::new();
    for (i, mark) in marks.iter().enumerate() {
        let near = |of: usize| frame.pixels(marks[of].place, mark.place) < SAME_LABEL;
        match labels.iter_mut().find(|(of, _)| near(*of)) {
            Some((_, text)) => *text += &format!(", {}", i + 1),
            None => labels.push((i, (i + 1).to_string())),
        }
    }
    labels
}

/// The direction from a point to its label, in radians from north: away from the legs there and from the course's arrow.
fn label_direction(marks: &[Mark], of: usize) -> f64 {
    let here = &marks[of];
    let bearing = |there: Place| (there.east - here.place.east).atan2(there.north - here.place.north);
    let neighbours = [of.checked_sub(1), Some(of + 1)];
    let legs = neighbours.into_iter().flatten().filter_map(|i| marks.get(i)).map(|mark| bearing(mark.place));
    let busy: Vec<f64> = legs.chain(here.course).collect();
    let north: f64 = busy.iter().map(|direction| direction.cos()).sum();
    let east: f64 = busy.iter().map(|direction| direction.sin()).sum();
    match north.hypot(east) < 0.01 {
        true => busy.first().map_or(0.0, |direction| direction - FRAC_PI_2),
        false => (-east).atan2(-north),
    }
}

/// A point, with an arrow for its course.
fn drawn(frame: &Frame, mark: &Mark) -> String {
    let (x, y) = (frame.x(mark.place.east), frame.y(mark.place.north));
    let arrow = mark.course.map(|course| {
        let moved = format!("translate({x:.1} {y:.1})rotate({:.1})", course.to_degrees());
        format!("<path class=\"arrow\" transform=\"{moved}\" d=\"M0 0V-{ARROW}m-4 7l4-7l4 7\"/>\n")
    });
    let dot = format!("<circle class=\"point\" cx=\"{x:.1}\" cy=\"{y:.1}\" r=\"3.2\"/>\n");
    arrow.unwrap_or_default() + &dot
}

/// The points, numbered.
pub fn points(frame: &Frame, plan: &Plan) -> String {
    let marks = marks_of(plan);
    let mut svg: String = marks.iter().map(|mark| drawn(frame, mark)).collect();
    for (of, text) in labels(frame, &marks) {
        let (place, away) = (marks[of].place, label_direction(&marks, of));
        let x = frame.x(place.east) + LABEL * away.sin();
        let y = frame.y(place.north) - LABEL * away.cos() + 4.0;
        let at = format!("text-anchor=\"middle\" x=\"{x:.1}\" y=\"{y:.1}\"");
        svg += &format!("<text class=\"label\" {at}>{text}</text>\n");
    }
    svg
}

pub fn legs(frame: &Frame, plan: &Plan) -> String {
    let places: Vec<Place> = plan.points().iter().map(Place::of).collect();
    format!("<path class=\"leg\" d=\"{}\"/>\n", frame.lines_through(&places))
}
