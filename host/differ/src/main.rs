//! Differential tests of the compiled path manager against the reference.
//!
//! differ loads|fixes|writes|states|notes|strips|distances|all N SEED

mod chance;
mod compare;
mod distance_counts;
mod distances;
mod files;
mod notes;
mod plans;
mod positions;
mod runs;
mod strip_plans;
mod strips;
mod turns;

use compare::Tally;
use compiled::calls::{interfaces, INTERFACE};
use std::fmt::{Debug, Display};
use std::process::ExitCode;

/// From this many loads, fixes, writes, checks for strips or states asked for distances on, all that must come of them must have come.
const FULL_RUN: u64 = 100_000;

/// The refusals that must come. 17 is none of them: with ends three radii apart every Dubins leg has a case.
const OF_LOADS: [usize; 12] = [1, 2, 3, 4, 5, 6, 7, 8, 9, 10, 11, 12];
const OF_FIXES: [usize; 3] = [13, 14, 15];
const OF_WRITES: [usize; 4] = [3, 7, 14, 16];

const MODES: [&str; 3] = ["lines", "fillets", "dubins"];

fn run(part: &str, n: u64, seed: u64, tally: &mut Tally) -> bool {
    match part {
        "loads" => runs::loads(tally, n, seed),
        "fixes" => runs::fixes(tally, n, seed),
        "writes" => runs::writes(tally, n, seed),
        "states" => runs::states(tally, n, seed),
        "notes" => notes::run(tally, n, seed),
        "strips" => strips::run(tally, n, seed),
        "distances" => distances::run(tally, n, seed),
        "all" => ["loads", "fixes", "writes", "states", "notes", "strips", "distances"].iter().for_each(|part| {
            run(part, n, seed, tally);
        }),
        _ => return false,
    }
    true
}

fn counts<T: Display>(name: &str, of: impl IntoIterator<Item = T>, times: &[u64]) -> String {
    let each: Vec<String> = of.into_iter().zip(times).map(|(which, times)| format!("{which}:{times}")).collect();
    format!("{name} {}", each.join(" "))
}

fn print_counts(tally: &Tally) {
    println!("{}", counts("load refusals", 0.., &tally.load_refusals));
    println!("{}", tally.turns.counts());
    println!("{}", counts("fix refusals", 0.., &tally.fix_refusals));
    println!("{}", counts("write refusals", 0.., &tally.write_refusals));
    for (mode, phases) in MODES.iter().zip(&tally.phases) {
        println!("{}", counts(&format!("{mode} phases"), 0.., phases));
    }
    println!("steps {}", tally.steps);
    println!("{}", counts("last leg", MODES, &tally.last_legs));
    println!("{}", counts("ends", MODES, &tally.ends));
    println!("{}", tally.notes.counts());
    println!("{}", tally.strips.counts());
    println!("{}", tally.distances.counts());
}

/// False where something is missing in a full run, which is said.
fn all_came<T: Debug>(calls: u64, what: &str, missing: Vec<T>) -> bool {
    let whole = calls < FULL_RUN || missing.is_empty();
    if !whole {
        println!("{what}: {missing:?}");
    }
    whole
}

fn missing_refusals(wanted: &[usize], came: &[u64]) -> Vec<usize> {
    wanted.iter().copied().filter(|number| came[*number] == 0).collect()
}

fn missing_modes(came: &[u64; 3]) -> Vec<&'static str> {
    MODES.into_iter().zip(came).filter(|(_, times)| **times == 0).map(|(mode, _)| mode).collect()
}

/// Prints what came; false where something is missing in a full run.
fn report(tally: &Tally) -> bool {
    print_counts(tally);
    let Tally { loads, fixes, writes, load_refusals, fix_refusals, write_refusals, last_legs, ends, .. } = tally;
    let Tally { turns, strips, distances, .. } = tally;
    let each = [
        all_came(*loads, "refusals that never came in loads", missing_refusals(&OF_LOADS, load_refusals)),
        all_came(*loads, "plans of fillets that never loaded", turns.missing()),
        all_came(*fixes, "refusals that never came in fixes", missing_refusals(&OF_FIXES, fix_refusals)),
        all_came(*writes, "refusals that never came in writes", missing_refusals(&OF_WRITES, write_refusals)),
        all_came(*fixes, "modes whose last leg never came in fixes", missing_modes(last_legs)),
        all_came(*fixes, "modes that no fix ended", missing_modes(ends)),
        all_came(strips.checks, "what never came of strips", strips.missing()),
        all_came(strips.checks, "numbers of strips that no strip plan had", strips.missing_plans()),
        all_came(distances.states, "what never came of distances", distances.missing()),
    ];
    each.iter().all(|whole| *whole)
}

fn main() -> ExitCode {
    if interfaces() != [INTERFACE; 2] {
        eprintln!("differ: the archives have the interfaces {:?}, not {INTERFACE}", interfaces());
        return ExitCode::FAILURE;
    }
    let arguments: Vec<String> = std::env::args().skip(1).collect();
    let numbers: Vec<u64> = arguments.iter().skip(1).filter_map(|text| text.parse().ok()).collect();
    let mut tally = Tally::default();
    if arguments.len() != 3 || numbers.len() != 2 || !run(&arguments[0], numbers[0], numbers[1], &mut tally) {
        eprintln!("usage: differ loads|fixes|writes|states|notes|strips|distances|all N SEED");
        return ExitCode::from(2);
    }
    let whole = report(&tally);
    let Tally { loads, fixes, writes, notes, strips, distances, disagreements, .. } = tally;
    let (notes, strips, distances) = (notes.asked, strips.checks, distances.states);
    println!("loads {loads} fixes {fixes} writes {writes} notes {notes} strips {strips} distances {distances} disagreements {disagreements}");
    if whole && disagreements == 0 {
        ExitCode::SUCCESS
    } else {
        ExitCode::FAILURE
    }
}
