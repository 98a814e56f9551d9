//! A flight as a picture, in SVG.

mod drawing;
mod frame;
mod legend;
mod marks;
mod strips;
mod track;

use crate::fixes::Fix;
use crate::plan::Plan;

/// The picture of a plan and of the flight that fixes along it make.
pub fn svg(plan: &Plan, fixes: &[Fix]) -> String {
    drawing::svg(plan, &track::Track::of(plan, fixes))
}
