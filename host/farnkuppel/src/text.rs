//! Plans as text (docs/TEXT.md): what `list`, `strips` and `text` print, and what `new` reads.

use crate::arguments::{number_of, whole};
use crate::input::Input;
use crate::layout::{self, Draft, COURSE, NOTE, POINT, RADIUS, SPEED};
use crate::names;
use crate::plan::{self, Mode, Plan, Refusal};
use crate::stop::Stop;
use crate::strips::Strip;
use archive::number;

/// The first line of a plan's listing.
fn title(plan: &Plan) -> String {
    let (serial, mode) = (plan.serial(), plan.mode().name());
    format!("plan {serial} version {} mode {mode} points {}", plan.version, plan.points().len())
}

/// The lines of a plan's points.
fn point_lines(plan: &Plan) -> impl Iterator<Item = String> {
    plan.points().into_iter().enumerate().map(|(i, point)| {
        let course = point.course.map_or("-".to_string(), |course| course.to_string());
        format!("{} {} {} {} {course}", i + 1, point.north, point.east, point.down)
    })
}

/// The listing of a plan: the lines that the program `listing` prints.
pub fn listing(plan: &Plan) -> Vec<String> {
    [title(plan)].into_iter().chain(point_lines(plan)).collect()
}

/// The listing of a strip plan: the lines that the program `strip_listing` prints.
pub fn strip_listing(plan: &Plan, strips: &[Strip]) -> Vec<String> {
    let first = format!("{} strips {}", title(plan), strips.len());
    let line = |strip: &Strip| format!("{} {} {}", strip.number, strip.course, strip.length);
    [first].into_iter().chain(strips.iter().map(line)).collect()
}

/// A plan with all that its file has: records that are no part of the plan as comments, where they stand.
pub fn whole_text(plan: &Plan, file: &[u8]) -> Vec<String> {
    let mut lines = vec![title(plan)];
    let mut points = point_lines(plan);
    let mut notes = plan::notes(file).into_iter().enumerate();
    for record in layout::records(file) {
        match (record.kind, record.body) {
            (POINT, _) => lines.extend(points.next()),
            (RADIUS, _) => lines.extend(plan.radius().map(|radius| format!("radius {radius}"))),
            (COURSE, _) => {}
            (NOTE, _) => lines.extend(notes.next().map(|(i, note)| format!("# note {} {}", i + 1, names::note(&note)))),
            (SPEED, [high, low]) => lines.push(format!("# speed {}", u16::from_be_bytes([*high, *low]))),
            (kind, body) => lines.push(format!("# kind {kind}, {} bytes", body.len())),
        }
    }
    lines
}

/// A text as it is read: the file that it makes, what its first line says of it, and the lines that places in it come from.
pub struct Written {
    pub version: u16,
    pub file: Vec<u8>,
    mode: Mode,
    title_line: usize,
    record_lines: Vec<(usize, usize)>,
    point_lines: Vec<usize>,
}

/// What is read of a text while it is read.
struct Reading {
    draft: Draft,
    count: usize,
    written: Written,
}

fn mode_of(word: &str) -> Result<Mode, String> {
    let found = Mode::ALL.into_iter().find(|mode| mode.name() == word);
    found.ok_or_else(|| {
        let all = Mode::ALL.map(Mode::name).join(", ");
        format!("mode {} is none of {all}", names::word(word.as_ref()))
    })
}

/// The first line.
fn read_title(line: usize, words: &[&str]) -> Result<Reading, String> {
    let ["plan", serial, "version", version, "mode", mode, "points", count] = words else {
        return Err("a text starts with 'plan SERIAL version VERSION mode MODE points COUNT'".to_string());
    };
    let serial = number_of("serial", serial, 0, u32::MAX)?;
    let version = number_of("version", version, 0, u16::MAX)?;
    let mode = mode_of(mode)?;
    let count = number_of("count", count, 0, u32::MAX)? as usize;
    let (file, record_lines, point_lines) = (Vec::new(), Vec::new(), Vec::new());
    let written = Written { version, file, mode, title_line: line, record_lines, point_lines };
    Ok(Reading { draft: Draft::new(version, serial), count, written })
}

impl Reading {
    fn put(&mut self, line: usize, kind: u8, body: &[u8]) {
        let offset = self.draft.put(kind, body);
        self.written.record_lines.push((offset, line));
    }

    fn read_point(&mut self, line: usize, words: &[&str]) -> Result<(), String> {
        let [number, north, east, down, course] = words else {
            return Err("neither 'radius R' nor a point 'NUMBER NORTH EAST DOWN COURSE'".to_string());
        };
        let next = self.written.point_lines.len() + 1;
        if whole(number) != Some(next) {
            return Err(format!("point {} stands where point {next} should", names::word(number.as_ref())));
        }
        let mut body = Vec::new();
        for (name, word) in [("north", north), ("east", east), ("down", down)] {
            body.extend(number_of(name, word, i32::MIN, i32::MAX)?.to_be_bytes());
        }
        self.put(line, POINT, &body);
        if *course != "-" {
            self.put(line, COURSE, &number_of("course", course, 0, u16::MAX)?.to_be_bytes());
        }
        self.written.point_lines.push(line);
        Ok(())
    }

    /// A line behind the first.
    fn read_line(&mut self, line: usize, words: &[&str]) -> Result<(), String> {
        match words {
            ["radius", radius] => {
                self.put(line, RADIUS, &number_of("radius", radius, 0, u16::MAX)?.to_be_bytes());
                Ok(())
            }
            _ => self.read_point(line, words),
        }
    }
}

/// Reads a text.
pub fn read(input: &Input) -> Result<Written, Stop> {
    let mut reading: Option<Reading> = None;
    input.each_line(|line, text| {
        let words: Vec<&str> = text.split_whitespace().collect();
        match &mut reading {
            Some(reading) => reading.read_line(line, &words),
            None => read_title(line, &words).map(|title| reading = Some(title)),
        }
    })?;
    let Reading { draft, count, written } = reading.ok_or_else(|| input.wrong(1, "a text without a line"))?;
    let found = written.point_lines.len();
    if found != count {
        return Err(input.wrong(written.title_line, &format!("says {count} points, and {found} follow")));
    }
    Ok(Written { file: draft.file(), ..written })
}

impl Written {
    /// The plan, where its mode is the one that the text says. It is loaded from records, so that the library's rules decide.
    pub fn plan(&self, input: &Input) -> Result<Result<Plan, Refusal>, Stop> {
        let loaded = Plan::load(&self.file, number::NEWEST);
        match loaded.as_ref().map(Plan::mode) {
            Ok(mode) if mode != self.mode => {
                let what = format!("says mode {}, and what follows makes it {}", self.mode.name(), mode.name());
                Err(input.wrong(self.title_line, &what))
            }
            _ => Ok(loaded),
        }
    }

    /// The line of the text that a refusal is about, where there is one.
    pub fn line_of(&self, refusal: Refusal) -> Option<usize> {
        let place = refusal.place as usize;
        match refusal.number {
            number::REFUSED_NO_VERSION | number::REFUSED_NO_SERIAL => Some(self.title_line),
            number::REFUSED_WRONG_RECORD => {
                self.record_lines.iter().find(|(offset, _)| *offset == place).map(|(_, line)| *line)
            }
            number::REFUSED_EQUAL_NEIGHBOURS
            | number::REFUSED_SHARP_CORNER
            | number::REFUSED_SHORT_LEG
            | number::REFUSED_NO_CASE => self.point_lines.get(place.checked_sub(1)?).copied(),
            _ => None,
        }
    }
}
