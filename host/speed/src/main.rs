//! Fixes, loads, tables of distances and checks for strips timed against the reference, both in one run on the same bytes: `speed [FIXES [LOADS]]`,
//! and as many tables and checks as loads. The rows `tight` are of fillets whose every turn is worked out to check them.

mod plans;
mod timing;

use plans::{plan, simulated, tight};
use reference::state::PLACES;
use reference::{write, Mode, State};
use std::process::ExitCode;
use timing::{distances, fixes, loads, strips, Times};

const MODES: [(Mode, &str); 3] = [(Mode::Lines, "lines"), (Mode::Fillets, "fillets"), (Mode::Dubins, "dubins")];
const COUNTS: [usize; 3] = [3, 16, PLACES];

/// A strip plan has an even number of points.
const STRIP_COUNTS: [usize; 3] = [4, 16, PLACES];

fn row(name: &str, count: usize, what: &str, times: Times) {
    let Times { compiled, words, native } = times;
    let (by_words, by_native) = (compiled / words, compiled / native);
    println!("{name:8} {count:3} {what:6} {compiled:9.1} {words:9.1} {by_words:6.2} {native:9.1} {by_native:6.2}");
}

/// A fix, a load and a table of a plan.
fn rows(name: &str, state: &State, fix_count: u64, load_count: u64) {
    let count = state.count as usize;
    let file = write(state, 3, usize::MAX).expect("the plan is sound");
    row(name, count, "fix", fixes(state, &simulated(state), fix_count));
    row(name, count, "load", loads(&file, load_count));
    row(name, count, "table", distances(state, load_count));
}

fn main() -> ExitCode {
    let given: Result<Vec<u64>, _> = std::env::args().skip(1).map(|text| text.parse()).collect();
    let (fix_count, load_count) = match given.as_deref() {
        Ok([]) => (1_000_000, 100_000),
        Ok([fixes]) => (*fixes, 100_000),
        Ok([fixes, loads]) => (*fixes, *loads),
        _ => {
            eprintln!("usage: speed [FIXES [LOADS]]");
            return ExitCode::from(2);
        }
    };
    println!("mode       N        proved ns  words ns  ratio native ns  ratio");
    for (mode, name) in MODES {
        for count in COUNTS {
            rows(name, &plan(mode, count), fix_count, load_count);
        }
    }
    for count in COUNTS {
        rows("tight", &tight(count), fix_count, load_count);
    }
    for count in STRIP_COUNTS {
        row("dubins", count, "strips", strips(&plan(Mode::Dubins, count), load_count));
    }
    ExitCode::SUCCESS
}
