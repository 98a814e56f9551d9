//! The expected answers of a corpus folder, named by the environment variable CORPUS; skipped where that is unset or empty.
//!
//! Its folder requests/04 decides the last leg of lines and fillets, requests/01 the strips, requests/02 the distances to go, and the folder itself
//! all else.

use reference::state::PLACES;
use reference::{distance, load, note, strips, write, Answer, Command, Mode, State};
use std::collections::BTreeMap;
use std::path::{Path, PathBuf};

/// The cells of a row by the names of their columns.
type Row = BTreeMap<String, String>;

/// The columns of a fix's answer.
const ANSWER: [&str; 14] =
    ["refusal", "place", "kind", "c1", "c2", "c3", "c4", "c5", "c6", "sense", "heading", "index", "phase", "finished"];

fn corpus() -> Option<PathBuf> {
    let folder = std::env::var_os("CORPUS").filter(|name| !name.is_empty()).map(PathBuf::from);
    if folder.is_none() {
        eprintln!("CORPUS names none: skipped");
    }
    folder
}

fn last_leg_corpus() -> Option<PathBuf> {
    corpus().map(|folder| folder.join("requests/04"))
}

fn strips_corpus() -> Option<PathBuf> {
    corpus().map(|folder| folder.join("requests/01"))
}

fn distances_corpus() -> Option<PathBuf> {
    corpus().map(|folder| folder.join("requests/02"))
}

/// The rows of a table, some at least.
fn rows(folder: &Path, name: &str) -> Vec<Row> {
    let text = std::fs::read_to_string(folder.join(name)).unwrap();
    let mut lines = text.lines().map(|line| line.split('\t').map(String::from));
    let names: Vec<String> = lines.next().unwrap().collect();
    let rows: Vec<Row> = lines.map(|cells| names.iter().cloned().zip(cells).collect()).collect();
    assert!(!rows.is_empty(), "{name} has rows");
    rows
}

fn plan(folder: &Path, name: &str) -> Vec<u8> {
    std::fs::read(folder.join("plans").join(format!("{name}.wpl"))).unwrap()
}

fn float(hex: &str) -> f32 {
    f32::from_bits(u32::from_str_radix(hex, 16).unwrap())
}

fn whole(text: &str) -> u32 {
    text.parse().unwrap()
}

#[test]
fn loads() {
    let Some(folder) = corpus() else { return };
    for row in rows(&folder, "loads.tsv") {
        let answer = load(&plan(&folder, &row["file"]), whole(&row["reader"]));
        let got = answer.map_or_else(|r| (r.number, r.place), |_| (0, 0));
        assert_eq!(got, (whole(&row["refusal"]), whole(&row["place"])), "{row:?}");
    }
}

#[test]
fn notes() {
    let Some(folder) = corpus() else { return };
    for row in rows(&folder, "notes.tsv") {
        let part = note(&plan(&folder, &row["file"]), row["number"].parse().unwrap());
        assert_eq!((part.start as u32, part.len() as u32), (whole(&row["offset"]), whole(&row["length"])), "{row:?}");
    }
}

/// A write's refusal, place and file, which is empty where it is refused.
fn written(state: &State, version: &str, room: &str) -> (u32, u32, Vec<u8>) {
    match write(state, whole(version), room.parse().unwrap()) {
        Ok(file) => (0, 0, file),
        Err(r) => (r.number, r.place, Vec::new()),
    }
}

#[test]
fn writes() {
    let Some(folder) = corpus() else { return };
    for row in rows(&folder, "writes.tsv") {
        let state = load(&plan(&folder, &row["file"]), 3).unwrap_or(State::EMPTY);
        let (number, place, file) = written(&state, &row["version"], &row["buffer"]);
        let hex: String = if file.is_empty() { "-".into() } else { file.iter().map(|b| format!("{b:02X}")).collect() };
        let got = [number.to_string(), place.to_string(), file.len().to_string(), hex];
        assert_eq!(got, ["refusal", "place", "length", "hex"].map(|name| row[name].clone()), "{row:?}");
    }
}

/// An answer in the columns of the corpus.
fn columns(answer: &Answer) -> Vec<String> {
    let (number, place) = answer.refusal.map_or((0, 0), |r| (r.number, r.place));
    let (kind, numbers, sense) = match answer.command {
        Command::None => ("none", [0.0; 6], 0),
        Command::Line { start: s, direction: d } => ("line", [s[0], s[1], s[2], d[0], d[1], d[2]], 0),
        Command::Circle { centre: c, radius, sense } => ("circle", [c[0], c[1], c[2], radius, 0.0, 0.0], sense),
    };
    let mut all = vec![number.to_string(), place.to_string(), kind.to_string()];
    all.extend(numbers.iter().map(|x| format!("{:08X}", x.to_bits())));
    all.push(sense.to_string());
    all.extend([answer.heading, answer.index, answer.phase, u32::from(answer.finished)].map(|x| x.to_string()));
    all
}

/// Makes the fix of a row; the answer's columns have a prefix before their names.
fn compare_fix(state: &mut State, row: &Row, prefix: &str) {
    let answer = state.fix(whole(&row["named"]), ["n", "e", "d"].map(|name| float(&row[name])));
    let expected = ANSWER.map(|name| row[&format!("{prefix}{name}")].clone());
    assert_eq!(columns(&answer), expected, "{row:?}");
}

/// How many rows were compared, by mode.
#[derive(Default, Debug)]
struct Compared([usize; 3]);

impl Compared {
    fn count(&mut self, mode: Mode) {
        self.0[mode as usize] += 1;
    }

    fn assert_some(&self, modes: &[Mode]) {
        println!("lines, fillets, Dubins: {:?}", self.0);
        assert!(modes.iter().all(|mode| self.0[*mode as usize] > 0), "{self:?}");
    }
}

/// Flies the flights as far as their rows decide, which the state before the fix and the row tell.
fn compare_flights(folder: &Path, decides: impl Fn(&State, &Row) -> bool) -> Compared {
    let mut compared = Compared::default();
    let mut state = State::EMPTY;
    for row in rows(folder, "flights.tsv") {
        if row["fix"] == "1" {
            state = load(&plan(folder, &row["file"]), whole(&row["reader"])).unwrap_or(State::EMPTY);
        }
        if decides(&state, &row) {
            compare_fix(&mut state, &row, "");
            compared.count(state.mode);
        }
    }
    compared
}

/// The parts of a list, none where it is a dash.
fn listed(text: &str) -> impl Iterator<Item = &str> {
    text.split(';').filter(|part| *part != "-")
}

fn state_of(row: &Row) -> State {
    let number = |name: &str| whole(&row[name]);
    let mut state =
        State { serial: number("serial"), radius: number("radius"), count: number("count"), ..State::EMPTY };
    state.mode = [Mode::Lines, Mode::Fillets, Mode::Dubins][number("mode") as usize];
    for (place, text) in listed(&row["points"]).enumerate() {
        let parts: Vec<i32> = text.split(',').map(|t| t.parse().unwrap()).collect();
        state.points[place] = [parts[0], parts[1], parts[2]];
    }
    for (place, text) in listed(&row["courses"]).enumerate() {
        state.courses[place] = whole(text);
    }
    (state.index, state.phase, state.finished) = (number("index"), number("phase"), row["finished"] == "1");
    state
}

/// Compares the states whose rows decide.
fn compare_states(folder: &Path, decides: impl Fn(&State, &Row) -> bool) -> Compared {
    let mut compared = Compared::default();
    for row in rows(folder, "states.tsv") {
        let given = state_of(&row);
        if !decides(&given, &row) {
            continue;
        }
        assert_eq!(given.is_sound(), row["sound"] == "1", "{row:?}");
        let mut state = given;
        compare_fix(&mut state, &row, "a_");
        let (number, place, file) = written(&given, &row["w_version"], &row["w_buffer"]);
        let expected = ["w_refusal", "w_place", "w_length"].map(|name| whole(&row[name]));
        assert_eq!([number, place, file.len() as u32], expected, "{row:?}");
        compared.count(given.mode);
    }
    compared
}

/// The end of lines and fillets is decided in requests/04: their flights decide here as long as they expect no end.
#[test]
fn flights() {
    let Some(folder) = corpus() else { return };
    let compared = compare_flights(&folder, |state, row| state.mode == Mode::Dubins || row["finished"] == "0");
    compared.assert_some(&[Mode::Lines, Mode::Fillets, Mode::Dubins]);
}

/// The last leg of lines and fillets is decided in requests/04: their states decide here before it, where no end is given or expected.
#[test]
fn states() {
    let Some(folder) = corpus() else { return };
    let compared = compare_states(&folder, |state, row| {
        let unfinished = !state.finished && row["a_finished"] == "0";
        state.mode == Mode::Dubins || !state.on_last_leg() && unfinished
    });
    compared.assert_some(&[Mode::Lines, Mode::Fillets, Mode::Dubins]);
}

#[test]
fn last_leg_flights() {
    let Some(folder) = last_leg_corpus() else { return };
    compare_flights(&folder, |_, _| true).assert_some(&[Mode::Lines, Mode::Fillets]);
}

#[test]
fn last_leg_states() {
    let Some(folder) = last_leg_corpus() else { return };
    compare_states(&folder, |_, _| true).assert_some(&[Mode::Lines, Mode::Fillets]);
}

/// The rows of the strips with these numbers in the column of the corpus, a dash where there is none.
fn listed_strips(state: &State, numbers: impl Iterator<Item = u32>) -> String {
    let found = numbers.filter_map(|number| strips::row(state, number));
    let rows: Vec<String> = found.map(|row| format!("{},{},{}", row.number, row.course, row.length)).collect();
    if rows.is_empty() {
        "-".into()
    } else {
        rows.join(";")
    }
}

#[test]
fn strip_plans() {
    let Some(folder) = strips_corpus() else { return };
    for row in rows(&folder, "strips.tsv") {
        let state = state_of(&row);
        let checked = strips::check(&state);
        let got = checked.map_or_else(|fault| [fault.refusal.number, fault.refusal.place, fault.rule], |_| [0; 3]);
        assert_eq!(got, ["refusal", "place", "rule"].map(|name| whole(&row[name])), "{row:?}");
        assert_eq!(checked.unwrap_or(0) as usize, listed(&row["rows"]).count(), "{row:?}");
        // Numbers that no strip has are asked too.
        assert_eq!(listed_strips(&state, 0..=state.count.saturating_add(1)), row["rows"], "{row:?}");
    }
}

/// What a table holds before it is filled, and so many entries on both sides of the part that is lent.
const UNTOUCHED: u32 = 0xA5A5_A5A5;
const BESIDE: usize = 3;

/// A table of so many entries, with those beside it, that has these from entry 2 on.
fn table_with(length: usize, entries: &[u32]) -> Vec<u32> {
    let mut table = vec![UNTOUCHED; length + 2 * BESIDE];
    table[BESIDE + 2..][..entries.len()].copy_from_slice(entries);
    table
}

/// The distance at a state is the entry at its index of a table that has room for every plan, and refused where that is.
fn assert_entry_is_left(state: &State) {
    let mut table = [UNTOUCHED; PLACES + 1];
    let made = distance::distances(state, &mut table);
    assert_eq!(distance::distance(state), made.map(|()| table[state.index as usize]), "{state:?}");
}

#[test]
fn distances_to_go() {
    let Some(folder) = distances_corpus() else { return };
    let mut compared = Compared::default();
    for row in rows(&folder, "distances.tsv") {
        let (state, length) = (state_of(&row), whole(&row["table"]) as usize);
        let entries: Vec<u32> = listed(&row["entries"]).map(whole).collect();
        let mut table = table_with(length, &[]);
        let answer = distance::distances(&state, &mut table[BESIDE..][..length]);
        let got = answer.map_or_else(|r| [r.number, r.place], |()| [0; 2]);
        assert_eq!(got, ["refusal", "place"].map(|name| whole(&row[name])), "{row:?}");
        assert_eq!(table, table_with(length, &entries), "{row:?}");
        assert_entry_is_left(&state);
        if answer.is_ok() {
            assert_eq!(entries.len() + 1, state.count as usize, "{row:?}");
            compared.count(state.mode);
        }
    }
    compared.assert_some(&[Mode::Lines, Mode::Fillets, Mode::Dubins]);
}
