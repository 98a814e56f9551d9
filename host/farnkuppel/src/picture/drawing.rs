//! The map, and the whole picture.

use super::frame::{Extent, Frame, LEFT, TOP};
use super::legend::{colour, cross, legend};
use super::marks::{legs, points};
use super::strips::numbers;
use super::track::{Circle, Step, Track};
use crate::place::Place;
use crate::plan::{Mode, Plan};
use crate::strips;

/// The most places that are drawn of a track, and the pixels between two of them: at the least, and where the track is
/// thinned no further.
const MOST_PLACES: usize = 12_000;
const LEAST_PIXELS: f64 = 0.8;
const MOST_PIXELS: f64 = 100.0;

const STYLE: &str = "<style>text{font:12px sans-serif;fill:#222}.small{font-size:10px;fill:#666}.title{font-size:16px;font-weight:bold}\
.label{font-weight:bold;stroke:#fff;stroke-width:3px;paint-order:stroke}path,circle,line,rect{fill:none}.grid{stroke:#e4e4e4}\
.leg{stroke:#888}.circle{stroke:#777;stroke-dasharray:5 4}.track{stroke-width:2.2;stroke-linejoin:round;stroke-linecap:round}\
.cross{stroke:#c00000;stroke-width:1.2}.bar,.arrow{stroke:#222;stroke-width:1.5}.point{fill:#222}</style>\n";

/// The places of a run of one phase.
type Run = (u32, Vec<Place>);

/// The places that are kept, each so many pixels from the one before; the ends of the list always are.
fn thinned(frame: &Frame, run: &[Place], pixels: f64) -> Vec<Place> {
    let mut kept: Vec<Place> = Vec::new();
    for (i, place) in run.iter().enumerate() {
        let near = |last: &Place| frame.pixels(*place, *last) < pixels;
        if i + 1 == run.len() || !kept.last().is_some_and(near) {
            kept.push(*place);
        }
    }
    kept
}

/// The track in runs of one phase. A run goes on to the first place of the next.
fn runs(steps: &[Step]) -> Vec<Run> {
    let mut runs: Vec<Run> = Vec::new();
    for step in steps {
        let same = runs.last().is_some_and(|(phase, _)| *phase == step.phase);
        if let Some((_, places)) = runs.last_mut() {
            places.push(step.place);
        }
        if !same {
            runs.push((step.phase, vec![step.place]));
        }
    }
    runs
}

fn track(frame: &Frame, mode: Mode, steps: &[Step]) -> String {
    let runs = runs(steps);
    let thin = |pixels| -> Vec<Run> { runs.iter().map(|(phase, run)| (*phase, thinned(frame, run, pixels))).collect() };
    let mut pixels = LEAST_PIXELS;
    let mut thin_runs = thin(pixels);
    while thin_runs.iter().map(|(_, run)| run.len()).sum::<usize>() > MOST_PLACES && pixels < MOST_PIXELS {
        pixels *= 2.0;
        thin_runs = thin(pixels);
    }
    let path = |(phase, run): &Run| {
        let data = frame.lines_through(run);
        format!("<path stroke=\"{}\" d=\"{data}\"/>\n", colour(mode, *phase))
    };
    let paths: String = thin_runs.iter().map(path).collect();
    format!("<g class=\"track\">\n{paths}</g>\n")
}

/// A line of the grid, as the data of a path, and the number beside it.
type Grid = (String, String);

fn east_line(frame: &Frame, east: f64) -> Grid {
    let x = frame.x(east);
    let at = format!("text-anchor=\"middle\" x=\"{x:.1}\" y=\"{:.1}\"", frame.bottom + 14.0);
    (format!("M{x:.1} {TOP}V{}", frame.bottom), format!("<text class=\"small\" {at}>{east:.0}</text>\n"))
}

fn north_line(frame: &Frame, north: f64) -> Grid {
    let y = frame.y(north);
    let at = format!("text-anchor=\"end\" x=\"{:.1}\" y=\"{:.1}\"", LEFT - 6.0, y + 3.5);
    (format!("M{LEFT} {y:.1}H{}", frame.right), format!("<text class=\"small\" {at}>{north:.0}</text>\n"))
}

fn grid(frame: &Frame) -> String {
    let step = frame.round_step(45.0);
    let easts = frame.grid_easts(step).into_iter().map(|east| east_line(frame, east));
    let norths = frame.grid_norths(step).into_iter().map(|north| north_line(frame, north));
    let (data, numbers): (String, String) = easts.chain(norths).unzip();
    format!("<path class=\"grid\" d=\"{data}\"/>\n{numbers}")
}

/// The border of the map, and what its two directions are.
fn border(frame: &Frame) -> String {
    let (wide, tall) = (frame.right - LEFT, frame.bottom - TOP);
    format!(
        "<rect x=\"{LEFT}\" y=\"{TOP}\" width=\"{wide}\" height=\"{tall}\" stroke=\"#bbb\"/>\n\
         <text class=\"small\" text-anchor=\"middle\" x=\"{:.0}\" y=\"{:.0}\">east, metres</text>\n\
         <text class=\"small\" text-anchor=\"middle\" transform=\"translate(16 {:.0})rotate(-90)\">north, metres</text>\n",
        LEFT + wide / 2.0,
        frame.bottom + 30.0,
        TOP + tall / 2.0
    )
}

fn circles(frame: &Frame, track: &Track) -> String {
    let drawn = |circle: &Circle| {
        let (x, y) = (frame.x(circle.centre.east), frame.y(circle.centre.north));
        let radius = circle.radius * frame.scale;
        format!("<circle class=\"circle\" cx=\"{x:.1}\" cy=\"{y:.1}\" r=\"{radius:.1}\"/>\n")
    };
    track.circles.iter().map(drawn).collect()
}

/// The refused fixes that have a place in the frame.
fn crosses(frame: &Frame, shown: &[Place]) -> String {
    let places = thinned(frame, shown, LEAST_PIXELS);
    let data: String = places.iter().map(|place| cross(frame.x(place.east), frame.y(place.north))).collect();
    format!("<path class=\"cross\" d=\"{data}\"/>\n")
}

/// What has to be seen: the points, the commanded circles and the track. Refused fixes can be anywhere and do not count.
fn extent(plan: &Plan, track: &Track) -> Extent {
    let places: Vec<Place> = plan.points().iter().map(Place::of).collect();
    let mut extent = Extent::around(places[0]);
    places.iter().for_each(|place| extent.include(*place));
    track.circles.iter().for_each(|circle| extent.include_circle(circle));
    track.steps.iter().for_each(|step| extent.include(step.place));
    extent
}

/// The picture's title, and the line below it on the flight.
fn captions(plan: &Plan, track: &Track) -> (String, String) {
    let count = plan.points().len();
    let title = format!("Plan {}: {}, {count} points", plan.serial(), plan.mode().name());
    let (accepted, refused) = (track.steps.len(), track.refused.len());
    let fixes = match (accepted + refused, refused) {
        (1, 0) => "1 fix, accepted".to_string(),
        (all, 0) => format!("{all} fixes, all accepted"),
        (all, _) => format!("{all} fixes, {refused} of them refused"),
    };
    let end = if track.finished { format!("finished at point {count}") } else { "not finished".to_string() };
    (title, format!("{fixes}; {end}"))
}

/// The picture of a plan and a flight.
pub fn svg(plan: &Plan, flown: &Track) -> String {
    let frame = Frame::of(&extent(plan, flown));
    let shown: Vec<Place> = flown.refused.iter().copied().filter(|place| frame.shows(*place)).collect();
    let strips = strips::of(plan).unwrap_or_default();
    let (title, caption) = captions(plan, flown);
    let (wide, tall) = frame.picture();
    let mut svg = format!(
        "<svg xmlns=\"http://www.w3.org/2000/svg\" width=\"{wide}\" height=\"{tall}\" viewBox=\"0 0 {wide} {tall}\">\n\
         <title>{title}</title>\n<desc>{caption}</desc>\n{STYLE}<rect width=\"{wide}\" height=\"{tall}\" style=\"fill:#fff\"/>\n\
         <text class=\"title\" x=\"{LEFT}\" y=\"26\">{title}</text>\n<text x=\"{LEFT}\" y=\"46\">{caption}</text>\n"
    );
    svg += &grid(&frame);
    svg += &border(&frame);
    svg += &circles(&frame, flown);
    svg += &legs(&frame, plan);
    svg += &track(&frame, plan.mode(), &flown.steps);
    if !shown.is_empty() {
        svg += &crosses(&frame, &shown);
    }
    svg += &points(&frame, plan);
    svg += &numbers(&frame, plan, &strips);
    svg += &legend(&frame, plan, strips.first(), flown, shown.len());
    svg + "</svg>\n"
}
