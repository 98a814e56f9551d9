//! The numbers of a strip plan's strips, on the map and in the legend.

use super::frame::Frame;
use crate::place::Place;
use crate::plan::Plan;
use crate::strips::Strip;

/// How these numbers look, other than those of points. It stands in the pictures of strip plans alone.
const STYLE: &str =
    "<style>.strip{font:italic bold 13px sans-serif;fill:#5b2a86;stroke:#fff;stroke-width:3px;paint-order:stroke}</style>\n";

/// The pixels from the middle of a strip's leg to the middle of its number: to the left, where two digits need room, and up.
const LEFTWARD: f64 = 13.0;
const UPWARD: f64 = 9.0;

/// The pixels from a number's middle down to its baseline.
const BASELINE: f64 = 4.5;

/// A number with its middle at these pixels.
pub fn number(x: f64, y: f64, number: u32) -> String {
    let at = format!("text-anchor=\"middle\" x=\"{x:.1}\" y=\"{:.1}\"", y + BASELINE);
    format!("<text class=\"strip\" {at}>{number}</text>\n")
}

/// Where a leg's number stands: beside its middle, on the side of the map's left, or above a leg that is level on the map.
fn beside(frame: &Frame, start: Place, end: Place) -> (f64, f64) {
    let (from, to) = ((frame.x(start.east), frame.y(start.north)), (frame.x(end.east), frame.y(end.north)));
    let (right, down) = (to.0 - from.0, to.1 - from.1);
    let side = if down > 0.0 || (down == 0.0 && right < 0.0) { -1.0 } else { 1.0 };
    let away = side / right.hypot(down);
    ((from.0 + to.0) / 2.0 + LEFTWARD * down * away, (from.1 + to.1) / 2.0 - UPWARD * right * away)
}

/// The number of each strip; nothing where the plan has none.
pub fn numbers(frame: &Frame, plan: &Plan, strips: &[Strip]) -> String {
    if strips.is_empty() {
        return String::new();
    }
    let points = plan.points();
    let placed = strips.iter().zip(points.chunks_exact(2)).map(|(strip, ends)| {
        let (x, y) = beside(frame, Place::of(&ends[0]), Place::of(&ends[1]));
        number(x, y, strip.number)
    });
    STYLE.to_string() + &placed.collect::<String>()
}
