//! Random plan files: a plan's records with optional ones between, then perhaps damage.

use crate::chance::Chance;
use crate::plans::{random_plan, Plan};
use reference::file::{needed_version, COURSE, HEADER, LARGEST_AREA, MARK, NOTE, POINT, RADIUS, SPEED};
use reference::state::PLACES;
use reference::{load, State};

#[derive(Clone)]
struct Record {
    kind: u8,
    body: Vec<u8>,
}

struct Draft {
    version: u16,
    serial: u32,
    records: Vec<Record>,
}

fn short(kind: u8, value: i64) -> Record {
    Record { kind, body: (value as u16).to_be_bytes().to_vec() }
}

fn point(parts: [i64; 3]) -> Record {
    Record { kind: POINT, body: parts.iter().flat_map(|part| (*part as i32).to_be_bytes()).collect() }
}

fn draft_of(plan: &Plan, version: u16, serial: u32) -> Draft {
    let mut records = Vec::new();
    if plan.radius != 0 {
        records.push(short(RADIUS, plan.radius));
    }
    for (i, parts) in plan.points.iter().enumerate() {
        records.push(point(*parts));
        if let Some(course) = plan.courses.get(i) {
            records.push(short(COURSE, *course));
        }
    }
    Draft { version, serial, records }
}

fn encode(draft: &Draft) -> Vec<u8> {
    let mut file = MARK.to_vec();
    file.extend(draft.version.to_be_bytes());
    file.extend(draft.serial.to_be_bytes());
    file.extend([0, 0]);
    for record in &draft.records {
        file.extend([record.kind, record.body.len() as u8]);
        file.extend(&record.body);
    }
    set_area(&mut file, 0);
    file
}

/// Sets the area length to the bytes after the header, and so much more.
fn set_area(file: &mut [u8], more: i64) {
    let area = file.len() as i64 - HEADER as i64 + more;
    file[9..11].copy_from_slice(&(area as u16).to_be_bytes());
}

fn random_serial(c: &mut Chance) -> u32 {
    match c.below(4) {
        0 => c.pick(&[1, 7, 0x7FFF_FFFF, 0x8000_0000, u32::MAX]),
        _ => (c.bits() as u32).max(1),
    }
}

fn random_version(c: &mut Chance, needed: u32) -> u16 {
    match c.below(20) {
        0..=10 => c.between(i64::from(needed), 3) as u16,
        11..=17 => c.between(4, 6) as u16,
        18 => c.between(0, 6) as u16,
        _ => c.pick(&[255, 256, 257, 32_768, 65_535]),
    }
}

/// A plan file that is mostly valid, or near it.
pub fn random_file(c: &mut Chance) -> Vec<u8> {
    let plan = random_plan(c);
    let version = random_version(c, needed_version(plan.mode));
    let mut draft = draft_of(&plan, version, random_serial(c));
    if c.one_in(2) {
        sprinkle(c, &mut draft);
    }
    let wounds = c.pick(&[0, 0, 0, 1, 1, 2]);
    for _ in 0..wounds {
        damage_records(c, &mut draft);
    }
    let mut file = encode(&draft);
    if c.one_in(4) {
        damage_bytes(c, &mut file);
    }
    file
}

/// A file with notes in it, which the newest reader mostly loads.
pub fn noted_file(c: &mut Chance) -> Vec<u8> {
    let plan = random_plan(c);
    let needed = needed_version(plan.mode).max(2);
    let mut draft = draft_of(&plan, random_version(c, needed), random_serial(c));
    for _ in 0..c.between(1, 6) {
        let at = c.below(draft.records.len() + 1);
        let length = c.between(1, 32) as usize;
        draft.records.insert(at, Record { kind: NOTE, body: random_bytes(c, length) });
    }
    if c.one_in(3) {
        sprinkle(c, &mut draft);
    }
    if c.one_in(8) {
        damage_records(c, &mut draft);
    }
    let mut file = encode(&draft);
    if c.one_in(8) {
        damage_bytes(c, &mut file);
    }
    file
}

/// A file that the newest reader loads, and the state it gives.
pub fn loading_file(c: &mut Chance) -> (Vec<u8>, State) {
    loop {
        let plan = random_plan(c);
        let draft = draft_of(&plan, 3, random_serial(c));
        let file = encode(&draft);
        if let Ok(state) = load(&file, 3) {
            return (file, state);
        }
    }
}

fn random_bytes(c: &mut Chance, length: usize) -> Vec<u8> {
    (0..length).map(|_| c.bits() as u8).collect()
}

fn optional_record(c: &mut Chance, version: u16) -> Record {
    let newest = match version {
        0..=1 => 2,
        2 => 3,
        3 => 6,
        _ => 10,
    };
    match c.below(newest) {
        0..=2 => {
            let length = if c.one_in(20) { c.pick(&[0, 33, 255]) } else { c.pick(&[1, 2, 31, 32]) };
            Record { kind: NOTE, body: random_bytes(c, length) }
        }
        3..=5 => {
            let edge = c.one_in(20);
            short(SPEED, if edge { c.pick(&[0, 1001, 65_535]) } else { c.pick(&[1, 2, 500, 1000]) })
        }
        _ => {
            let length = c.pick(&[0, 1, 2, 12, 33, 255]);
            Record { kind: c.pick(&[130, 131, 200, 255]), body: random_bytes(c, length) }
        }
    }
}

fn sprinkle(c: &mut Chance, draft: &mut Draft) {
    let many = if c.one_in(100) { 300 } else { c.between(1, 4) };
    for _ in 0..many {
        let at = c.below(draft.records.len() + 1);
        let record = optional_record(c, draft.version);
        draft.records.insert(at, record);
    }
}

fn set_value(c: &mut Chance, record: &mut Record) {
    let edges = [49, 50, 10_000, 10_001, 0, 1, 4095, 4096, 1000, 1001, 65_535];
    match (record.kind, record.body.len()) {
        (POINT, 12) => {
            let axis = c.below(3);
            let limit = if axis == 2 { 100_000 } else { 500_000 };
            let edges = [limit, limit + 1, -limit, -limit - 1, i32::MAX, i32::MIN, 0];
            record.body[4 * axis..4 * axis + 4].copy_from_slice(&c.pick(&edges).to_be_bytes());
        }
        (_, 2) => record.body = (c.pick(&edges) as u16).to_be_bytes().to_vec(),
        _ => record.body = random_bytes(c, 2),
    }
}

fn set_length(c: &mut Chance, record: &mut Record) {
    let lengths = [0, 1, 2, 3, 11, 12, 13, 14, 31, 32, 33, 255];
    record.body.resize(c.pick(&lengths), 0);
}

fn random_record(c: &mut Chance, version: u16) -> Record {
    match c.below(6) {
        0 => short(RADIUS, c.pick(&[50, 49, 10_000, 10_001, 100])),
        1 => short(COURSE, c.pick(&[0, 4095, 4096, 100])),
        2 => Record { kind: c.pick(&[0, 4, 5, 64, 127]), body: random_bytes(c, 2) },
        3 => Record { kind: c.pick(&[128, 129, 130, 255]), body: random_bytes(c, 2) },
        4 => point([c.between(-9000, 9000), c.between(-9000, 9000), 0]),
        _ => optional_record(c, version),
    }
}

fn damage_records(c: &mut Chance, draft: &mut Draft) {
    if draft.records.is_empty() {
        return;
    }
    let at = c.below(draft.records.len());
    match c.below(12) {
        0 => drop(draft.records.remove(at)),
        1 => draft.records.insert(at, draft.records[at].clone()),
        2 => {
            let other = c.below(draft.records.len());
            draft.records.swap(at, other);
        }
        3 => draft.records[at].kind = c.pick(&[0, 1, 2, 3, 4, 127, 128, 129, 130, 255]),
        4 => set_length(c, &mut draft.records[at]),
        5 | 6 => set_value(c, &mut draft.records[at]),
        7 => {
            let record = random_record(c, draft.version);
            draft.records.insert(at, record);
        }
        8 => drop_kind(c, draft),
        9 => set_count(c, draft),
        10 => repeat_point(c, draft, at),
        _ => draft.version = c.between(0, 6) as u16,
    }
}

fn drop_kind(c: &mut Chance, draft: &mut Draft) {
    let kind = c.pick(&[RADIUS, COURSE, RADIUS, POINT]);
    let first_only = c.one_in(2);
    let first = draft.records.iter().position(|record| record.kind == kind);
    match first {
        Some(at) if first_only => drop(draft.records.remove(at)),
        _ => draft.records.retain(|record| record.kind != kind),
    }
}

/// Cuts or fills the plan to a number of points near a limit.
fn set_count(c: &mut Chance, draft: &mut Draft) {
    let wanted = c.pick(&[2, 3, PLACES, PLACES + 1, PLACES + 2, PLACES + 3]);
    let is_point = |record: &Record| record.kind == POINT;
    while draft.records.iter().filter(|record| is_point(record)).count() > wanted {
        let last = draft.records.iter().rposition(is_point).expect("there is a point");
        draft.records.truncate(last);
    }
    let with_courses = draft.records.iter().any(|record| record.kind == COURSE);
    let mut north = 400_000;
    while draft.records.iter().filter(|record| is_point(record)).count() < wanted {
        north = -north - 500;
        draft.records.push(point([north / 2, c.between(-300_000, 300_000), 0]));
        if with_courses {
            draft.records.push(short(COURSE, 100));
        }
    }
}

/// A point once more in north and east, with another down.
fn repeat_point(c: &mut Chance, draft: &mut Draft, at: usize) {
    let before = draft.records[..at].iter().rposition(|record| record.kind == POINT);
    let after = draft.records[at..].iter().position(|record| record.kind == POINT);
    if let (Some(before), Some(after)) = (before, after) {
        let level = draft.records[before].body.clone();
        let target = &mut draft.records[at + after];
        if level.len() == 12 && target.body.len() == 12 {
            let parts = if c.one_in(4) { 4 } else { 8 };
            target.body[..parts].copy_from_slice(&level[..parts]);
        }
    }
}

fn damage_bytes(c: &mut Chance, file: &mut Vec<u8>) {
    match c.below(12) {
        0 => file.truncate(c.below(HEADER + 1)),
        1 => file[c.below(3)] ^= 1 << c.below(8),
        2 => file[3..5].fill(0),
        3 => file[5..9].fill(0),
        4 => set_area(file, c.pick(&[-1, 1, 256, -256, 8192, 65_535])),
        5 => file.truncate(c.below(file.len() + 1)),
        6 | 7 => cut_short(c, file),
        8 => fill_to_the_limit(c, file),
        9 => file.extend(vec![c.bits() as u8; c.below(3)]),
        _ => {
            let at = c.below(file.len());
            let any = c.bits() as u8;
            file[at] = c.pick(&[0, 1, 2, 127, 128, 129, 255, any, any]);
        }
    }
}

/// Cuts the file anywhere after the header, with an area length that fits.
fn cut_short(c: &mut Chance, file: &mut Vec<u8>) {
    let keep = HEADER + c.below(file.len() - HEADER + 1);
    file.truncate(keep);
    set_area(file, 0);
}

/// Fills the file with notes up to an area length around the limit.
fn fill_to_the_limit(c: &mut Chance, file: &mut Vec<u8>) {
    let wanted = HEADER + LARGEST_AREA + c.pick(&[0, 1, 2]) - c.pick(&[0, 1]);
    while file.len() < wanted {
        let left = wanted - file.len();
        let body = if left > 40 { 32 } else { left.saturating_sub(2).min(32) };
        file.extend([NOTE, body as u8]);
        file.extend(vec![b'.'; body]);
    }
    file.truncate(wanted);
    set_area(file, 0);
}
