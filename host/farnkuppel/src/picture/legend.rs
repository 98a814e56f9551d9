//! What stands beside the map: the phases of the plan's mode, the signs, the scale and north.

use super::frame::{Frame, TOP};
use super::strips::number;
use super::track::Track;
use crate::plan::{Mode, Plan};
use crate::strips::Strip;
use archive::number::{
    PHASE_DUBINS_END_FIRST, PHASE_DUBINS_END_LAST, PHASE_DUBINS_LINE, PHASE_DUBINS_START_FIRST,
    PHASE_DUBINS_START_LAST, PHASE_FILLETS_CIRCLE, PHASE_FILLETS_LINE, PHASE_LINES_LINE,
};

/// A phase of a mode: its number, what is flown in it, and its colour.
pub struct Phase {
    number: u32,
    name: &'static str,
    pub colour: &'static str,
}

const BLUE: &str = "#0072b2";
const ORANGE: &str = "#e69f00";
const GREEN: &str = "#009e73";
const PINK: &str = "#cc79a7";
const RED: &str = "#d55e00";

const fn phase(number: u32, name: &'static str, colour: &'static str) -> Phase {
    Phase { number, name, colour }
}

const LINES: &[Phase] = &[phase(PHASE_LINES_LINE, "line", BLUE)];
const FILLETS: &[Phase] =
    &[phase(PHASE_FILLETS_LINE, "line", BLUE), phase(PHASE_FILLETS_CIRCLE, "corner circle", ORANGE)];
const DUBINS: &[Phase] = &[
    phase(PHASE_DUBINS_START_FIRST, "start circle", BLUE),
    phase(PHASE_DUBINS_START_LAST, "start circle", ORANGE),
    phase(PHASE_DUBINS_LINE, "line", GREEN),
    phase(PHASE_DUBINS_END_FIRST, "end circle", PINK),
    phase(PHASE_DUBINS_END_LAST, "end circle", RED),
];

/// The pixels from the map to the legend, from there to its words, and from row to row.
const GAP: f64 = 16.0;
const INDENT: f64 = 38.0;
const ROW: f64 = 22.0;

/// The line that stands for lines, and its middle.
const STROKE: &str = "M0 0H30";
const MIDDLE: f64 = 15.0;

/// Half the size of a cross, in pixels.
const CROSS: f64 = 3.0;

/// The phases that a mode has.
fn phases(mode: Mode) -> &'static [Phase] {
    match mode {
        Mode::Lines => LINES,
        Mode::Fillets => FILLETS,
        Mode::Dubins => DUBINS,
    }
}

/// The colour of a phase. The library answers no other than the mode's.
pub fn colour(mode: Mode, phase: u32) -> &'static str {
    phases(mode).iter().find(|of| of.number == phase).map_or(BLUE, |of| of.colour)
}

/// A cross as the data of a path.
pub fn cross(x: f64, y: f64) -> String {
    let size = 2.0 * CROSS;
    format!("M{:.1} {:.1}l{size} {size}m-{size} 0l{size}-{size}", x - CROSS, y - CROSS)
}

/// Rows from the top of the map down.
struct Rows {
    svg: String,
    x: f64,
    y: f64,
}

impl Rows {
    fn heading(&mut self, text: &str) {
        self.svg += &format!("<text class=\"small\" x=\"{}\" y=\"{:.1}\">{text}</text>\n", self.x, self.y + 4.0);
        self.y += ROW;
    }

    /// What the sign that was drawn last stands for.
    fn meaning(&mut self, text: &str) {
        self.svg += &format!("<text x=\"{}\" y=\"{:.1}\">{text}</text>\n", self.x + INDENT, self.y + 4.0);
        self.y += ROW;
    }

    /// A row: the data of a path with its attributes, and what it stands for.
    fn sign(&mut self, attributes: &str, data: &str, text: &str) {
        let (x, y) = (self.x, self.y);
        self.svg += &format!("<path transform=\"translate({x} {y:.1})\" {attributes} d=\"{data}\"/>\n");
        self.meaning(text);
    }

    /// The mode's phases, each with the number of fixes that were answered it, and refused fixes where there are some.
    fn fixes(&mut self, plan: &Plan, track: &Track, shown: usize) {
        self.heading("fixes by phase");
        for phase in phases(plan.mode()) {
            let count = track.steps.iter().filter(|step| step.phase == phase.number).count();
            let attributes = format!("class=\"track\" stroke=\"{}\"", phase.colour);
            self.sign(&attributes, STROKE, &format!("{} {}: {count}", phase.number, phase.name));
        }
        let refused = track.refused.len();
        if refused != 0 {
            self.sign("class=\"cross\"", &cross(MIDDLE, 0.0), &format!("refused: {refused}"));
        }
        if refused != shown {
            self.heading(&format!("{} of them not on the map", refused - shown));
        }
    }

    /// The signs of the plan that the mode has, and a strip's number where there is one.
    fn plan(&mut self, plan: &Plan, strip: Option<&Strip>) {
        self.y += ROW / 2.0;
        self.heading("the plan");
        self.sign("class=\"leg\"", STROKE, "leg");
        if plan.mode() != Mode::Lines {
            self.sign("class=\"circle\"", STROKE, "circle");
        }
        if plan.mode() == Mode::Dubins {
            self.sign("class=\"arrow\"", "M4 0H26m-7-4l7 4l-7 4", "course");
        }
        if let Some(strip) = strip {
            self.svg += &number(self.x + MIDDLE, self.y, strip.number);
            self.meaning("strip");
        }
    }
}

/// The scale, in metres, and the arrow that points north.
fn scale(frame: &Frame) -> String {
    let metres = frame.round_step(60.0);
    let length = metres * frame.scale;
    let (x, y) = (frame.right + GAP, frame.bottom - 6.0);
    format!(
        "<path class=\"bar\" d=\"M{x} {:.1}v8m0-4h{length:.1}m0-4v8\"/>\n<text x=\"{x}\" y=\"{:.1}\">{metres} metres</text>\n\
         <path class=\"bar\" d=\"M{:.1} {:.1}v-36m-5 9l5-9l5 9\"/>\n<text x=\"{:.1}\" y=\"{:.1}\">north</text>\n",
        y - 4.0,
        y - 9.0,
        x + 6.0,
        y - 34.0,
        x + 18.0,
        y - 48.0
    )
}

/// The legend of a plan, with one of its strips where it has some, and of its flight, of whose refused fixes so many are shown.
pub fn legend(frame: &Frame, plan: &Plan, strip: Option<&Strip>, track: &Track, shown: usize) -> String {
    let mut rows = Rows { svg: String::new(), x: frame.right + GAP, y: TOP + 4.0 };
    rows.fixes(plan, track, shown);
    rows.plan(plan, strip);
    rows.svg + &scale(frame)
}
