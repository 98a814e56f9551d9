//! Plan files: reading, writing, notes.

use crate::refusal::Refusal;
use crate::rules::{self, check_plan};
use crate::state::{Mode, State, PLACES};
use std::ops::{Range, RangeInclusive};

pub const HEADER: usize = 11;
pub const NEWEST: u32 = 3;
pub const LARGEST_AREA: usize = 8192;
pub const MARK: [u8; 3] = *b"WPL";

pub const POINT: u8 = 1;
pub const RADIUS: u8 = 2;
pub const COURSE: u8 = 3;
pub const NOTE: u8 = 128;
pub const SPEED: u8 = 129;

/// From here up a reader that lacks a kind leaves it out.
pub const FIRST_OPTIONAL: u8 = 128;

struct Kind {
    kind: u8,
    since: u32,
    lengths: RangeInclusive<usize>,
}

const KINDS: [Kind; 5] = [
    Kind { kind: POINT, since: 1, lengths: 12..=12 },
    Kind { kind: RADIUS, since: 2, lengths: 2..=2 },
    Kind { kind: COURSE, since: 3, lengths: 2..=2 },
    Kind { kind: NOTE, since: 2, lengths: 1..=32 },
    Kind { kind: SPEED, since: 3, lengths: 2..=2 },
];

fn known_kind(kind: u8, reader: u32) -> Option<&'static Kind> {
    KINDS.iter().find(|k| k.kind == kind && k.since <= reader)
}

fn u16_at(bytes: &[u8], at: usize) -> u32 {
    u32::from(u16::from_be_bytes([bytes[at], bytes[at + 1]]))
}

fn u32_at(bytes: &[u8], at: usize) -> u32 {
    u32::from_be_bytes([bytes[at], bytes[at + 1], bytes[at + 2], bytes[at + 3]])
}

/// The header's version and serial.
fn read_header(file: &[u8], reader: u32) -> Result<(u32, u32), Refusal> {
    if !(1..=NEWEST).contains(&reader) {
        return Err(Refusal::plain(3));
    }
    if file.len() < HEADER {
        return Err(Refusal::plain(1));
    }
    if file[..3] != MARK {
        return Err(Refusal::plain(2));
    }
    let (version, serial, area) = (u16_at(file, 3), u32_at(file, 5), u16_at(file, 9) as usize);
    if version == 0 {
        return Err(Refusal::plain(3));
    }
    if serial == 0 {
        return Err(Refusal::plain(4));
    }
    if area != file.len() - HEADER || area > LARGEST_AREA {
        return Err(Refusal::plain(5));
    }
    Ok((version, serial))
}

/// The body of the record at an offset, or none where it is cut short.
fn body_at(file: &[u8], at: usize) -> Option<Range<usize>> {
    let length = *file.get(at + 1)? as usize;
    let body = at + 2..at + 2 + length;
    (body.end <= file.len()).then_some(body)
}

/// What the records have said so far.
struct Draft {
    points: usize,
    courses: usize,
    radius: Option<u32>,
    /// The last record that isn't optional is a point.
    after_point: bool,
    state: State,
}

impl Draft {
    fn new(serial: u32) -> Draft {
        let state = State { serial, index: 2, phase: 1, ..State::EMPTY };
        Draft { points: 0, courses: 0, radius: None, after_point: false, state }
    }

    /// Takes in a known record; false where its value or position is wrong.
    fn take(&mut self, kind: u8, body: &[u8]) -> bool {
        match kind {
            POINT => self.take_point(body),
            RADIUS => self.take_radius(u16_at(body, 0)),
            COURSE => self.take_course(u16_at(body, 0)),
            SPEED => rules::SPEED.contains(&u16_at(body, 0)),
            _ => true,
        }
    }

    fn take_point(&mut self, body: &[u8]) -> bool {
        let point = [u32_at(body, 0) as i32, u32_at(body, 4) as i32, u32_at(body, 8) as i32];
        if self.points < PLACES {
            self.state.points[self.points] = point;
        }
        self.points += 1;
        self.after_point = true;
        rules::point_in_range(point)
    }

    fn take_radius(&mut self, radius: u32) -> bool {
        let first = self.radius.is_none() && self.points == 0;
        self.radius = Some(radius);
        self.after_point = false;
        first && rules::RADIUS.contains(&radius)
    }

    fn take_course(&mut self, course: u32) -> bool {
        let follows_point = self.after_point;
        if follows_point && self.points <= PLACES {
            self.state.courses[self.points - 1] = course;
        }
        self.courses += 1;
        self.after_point = false;
        follows_point && course <= rules::LAST_COURSE
    }

    /// The questions about the plan as a whole.
    fn finish(mut self) -> Result<State, Refusal> {
        if !(3..=PLACES).contains(&self.points) {
            return Err(Refusal::plain(8));
        }
        self.state.count = self.points as u32;
        self.state.radius = self.radius.unwrap_or(0);
        self.state.mode = match (self.radius, self.courses) {
            (None, 0) => Mode::Lines,
            (Some(_), 0) => Mode::Fillets,
            (Some(_), n) if n == self.points => Mode::Dubins,
            _ => return Err(Refusal::plain(9)),
        };
        check_plan(&self.state)?;
        Ok(self.state)
    }
}

pub fn load(file: &[u8], reader: u32) -> Result<State, Refusal> {
    let (version, serial) = read_header(file, reader)?;
    let mut draft = Draft::new(serial);
    let mut at = HEADER;
    while at < file.len() {
        let wrong = Err(Refusal::at(6, at));
        let Some(body) = body_at(file, at) else {
            return wrong;
        };
        let next = body.end;
        match known_kind(file[at], reader) {
            Some(known) => {
                let fits = known.since <= version && known.lengths.contains(&body.len());
                if !fits || !draft.take(file[at], &file[body]) {
                    return wrong;
                }
            }
            None if version <= reader => return wrong,
            None if file[at] < FIRST_OPTIONAL => return Err(Refusal::at(7, at)),
            None => {}
        }
        at = next;
    }
    draft.finish()
}

/// The bytes of a note by its number from 1; empty where there is none or the file doesn't load at version three.
pub fn note(file: &[u8], number: usize) -> Range<usize> {
    if load(file, NEWEST).is_err() {
        return 0..0;
    }
    let (mut at, mut seen) = (HEADER, 0);
    while let Some(body) = body_at(file, at) {
        if file[at] == NOTE {
            seen += 1;
            if seen == number {
                return body;
            }
        }
        at = body.end;
    }
    0..0
}

/// How many notes there are; none where the file doesn't load at version three.
pub fn notes(file: &[u8]) -> usize {
    if load(file, NEWEST).is_err() {
        return 0;
    }
    let (mut at, mut seen) = (HEADER, 0);
    while let Some(body) = body_at(file, at) {
        seen += usize::from(file[at] == NOTE);
        at = body.end;
    }
    seen
}

/// The lowest version that has every kind a mode needs.
pub fn needed_version(mode: Mode) -> u32 {
    match mode {
        Mode::Lines => 1,
        Mode::Fillets => 2,
        Mode::Dubins => 3,
    }
}

pub fn file_length(state: &State) -> usize {
    let points = state.count as usize;
    match state.mode {
        Mode::Lines => HEADER + 14 * points,
        Mode::Fillets => HEADER + 4 + 14 * points,
        Mode::Dubins => HEADER + 4 + 18 * points,
    }
}

pub fn write(state: &State, version: u32, room: usize) -> Result<Vec<u8>, Refusal> {
    if !state.is_sound() {
        return Err(Refusal::plain(14));
    }
    if !(1..=NEWEST).contains(&version) {
        return Err(Refusal::plain(3));
    }
    if version < needed_version(state.mode) {
        return Err(Refusal::plain(7));
    }
    let length = file_length(state);
    if room < length {
        return Err(Refusal::plain(16));
    }
    let mut file = Vec::with_capacity(length);
    file.extend(MARK);
    file.extend((version as u16).to_be_bytes());
    file.extend(state.serial.to_be_bytes());
    file.extend(((length - HEADER) as u16).to_be_bytes());
    write_records(state, &mut file);
    Ok(file)
}

fn write_records(state: &State, file: &mut Vec<u8>) {
    if state.mode != Mode::Lines {
        file.extend([RADIUS, 2]);
        file.extend((state.radius as u16).to_be_bytes());
    }
    for i in 0..state.count as usize {
        file.extend([POINT, 12]);
        for part in state.points[i] {
            file.extend(part.to_be_bytes());
        }
        if state.mode == Mode::Dubins {
            file.extend([COURSE, 2]);
            file.extend((state.courses[i] as u16).to_be_bytes());
        }
    }
}

#[cfg(test)]
mod tests {
    use super::*;

    const EXAMPLE: &str = "57504C000100000007002A\
        010C0000000000000000FFFFFC18\
        010C000003E800000000FFFFFC18\
        010C000003E8000007D0FFFFFC18";

    fn example() -> Vec<u8> {
        let pairs = EXAMPLE.as_bytes().chunks(2);
        pairs.map(|pair| u8::from_str_radix(std::str::from_utf8(pair).unwrap(), 16).unwrap()).collect()
    }

    #[test]
    fn the_example_loads_and_is_written_again() {
        for reader in 1..=3 {
            let state = load(&example(), reader).unwrap();
            assert_eq!((state.serial, state.mode, state.count), (7, Mode::Lines, 3));
            assert_eq!(state.points[2], [1000, 2000, -1000]);
            assert_eq!((state.index, state.phase, state.finished), (2, 1, false));
            assert_eq!(write(&state, 1, 53), Ok(example()));
            assert_eq!(write(&state, 1, 52), Err(Refusal::plain(16)));
            assert_eq!(write(&state, 4, 53), Err(Refusal::plain(3)));
        }
        assert_eq!(load(&example(), 4), Err(Refusal::plain(3)));
    }

    fn with_record(version: u8, record: &[u8]) -> Vec<u8> {
        let mut file = example();
        file[4] = version;
        file.extend(record);
        file[10] = (file.len() - HEADER) as u8;
        file
    }

    #[test]
    fn an_unknown_course_is_too_new_and_an_unknown_note_is_left_out() {
        assert_eq!(load(&with_record(3, &[3, 2, 0, 0]), 1), Err(Refusal::at(7, 53)));
        assert!(load(&with_record(2, &[128, 1, 65]), 1).is_ok());
        assert_eq!(load(&with_record(1, &[128, 1, 65]), 1), Err(Refusal::at(6, 53)));
        assert_eq!(load(&with_record(1, &[128, 1, 65]), 2), Err(Refusal::at(6, 53)));
        assert_eq!(load(&with_record(9, &[200, 1]), 3), Err(Refusal::at(6, 53)));
    }

    #[test]
    fn notes_are_counted_from_one() {
        let file = with_record(2, &[128, 1, 65, 128, 2, 66, 67]);
        assert_eq!(note(&file, 0), 0..0);
        assert_eq!(&file[note(&file, 1)], b"A");
        assert_eq!(&file[note(&file, 2)], b"BC");
        assert_eq!(note(&file, 3), 0..0);
    }

    #[test]
    fn speeds_and_refused_files_count_no_notes() {
        let records = [128, 1, 65, 129, 2, 1, 244, 128, 2, 66, 67];
        assert_eq!(notes(&with_record(3, &records)), 2);
        assert_eq!(notes(&with_record(2, &records)), 0);
        assert_eq!(notes(&with_record(2, &[])), 0);
    }
}
