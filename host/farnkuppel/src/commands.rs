//! The commands, and which of them the words name.

use crate::arguments::{Asked, Call, Command};
use crate::distance;
use crate::fixes::{self, Fix};
use crate::flight::{Flight, Numbers, COLUMNS};
use crate::help;
use crate::input::Input;
use crate::names;
use crate::output::Target;
use crate::picture;
use crate::plan::{self, Plan, Refusal};
use crate::simulation::{self, End};
use crate::stop::{trouble, Answered, Status, Stop};
use crate::strips;
use crate::text;
use archive::number::{INTERFACE, NEWEST};
use archive::{calls, RELEASE};
use std::ffi::OsString;
use std::fmt::Display;
use std::io::Write;

pub const COMMANDS: [Command; 11] = [
    Command {
        name: "check",
        files: &["PLAN"],
        options: &["--reader V"],
        does: "say whether a plan loads",
        help: help::CHECK,
        run: check,
    },
    Command { name: "list", files: &["PLAN"], options: &[], does: "list a plan's points", help: help::LIST, run: list },
    Command {
        name: "strips",
        files: &["PLAN"],
        options: &[],
        does: "list the strips of a strip plan",
        help: help::STRIPS,
        run: list_strips,
    },
    Command {
        name: "distance",
        files: &["PLAN"],
        options: &[],
        does: "print the metres to go from each leg of a plan on",
        help: help::DISTANCE,
        run: print_distance,
    },
    Command {
        name: "notes",
        files: &["PLAN"],
        options: &[],
        does: "print a plan's notes",
        help: help::NOTES,
        run: notes,
    },
    Command {
        name: "text",
        files: &["PLAN"],
        options: &[],
        does: "print a plan as text that `new` reads",
        help: help::TEXT,
        run: print_text,
    },
    Command {
        name: "new",
        files: &["TEXT", "PLAN"],
        options: &[],
        does: "make a plan from text",
        help: help::NEW,
        run: new,
    },
    Command {
        name: "fixes",
        files: &["TEXT", "FIXES"],
        options: &[],
        does: "make a file of fixes from text",
        help: help::FIXES,
        run: make_fixes,
    },
    Command {
        name: "fly",
        files: &["PLAN", "FIXES"],
        options: &["--reader V", "--bits"],
        does: "fly fixes along a plan, a line for each",
        help: help::FLY,
        run: fly,
    },
    Command {
        name: "simulate",
        files: &["PLAN", "FIXES"],
        options: &["--refused"],
        does: "fly a simulated aircraft along a plan, and write its fixes",
        help: help::SIMULATE,
        run: simulate,
    },
    Command {
        name: "draw",
        files: &["PLAN", "FIXES", "PICTURE"],
        options: &[],
        does: "draw a plan and the flight of its fixes, as SVG",
        help: help::DRAW,
        run: draw,
    },
];

/// A plan, or the line of its refusal on standard output.
fn loaded(file: &[u8], reader: u32, out: &mut dyn Write) -> Result<Option<Plan>, Stop> {
    match Plan::load(file, reader) {
        Ok(plan) => Ok(Some(plan)),
        Err(refusal) => refuse(refusal, out).map(|_| None),
    }
}

/// The line of a refusal on standard output.
fn refuse(refusal: impl Display, out: &mut dyn Write) -> Answered {
    writeln!(out, "{refusal}")?;
    Ok(Status::Refused)
}

fn lines(out: &mut dyn Write, lines: impl IntoIterator<Item = String>) -> Answered {
    for line in lines {
        writeln!(out, "{line}")?;
    }
    Ok(Status::Done)
}

fn check(call: &Call, out: &mut dyn Write) -> Answered {
    let file = Input::open(&call.files[0])?.plan()?;
    let Some(plan) = loaded(&file, call.reader, out)? else {
        return Ok(Status::Refused);
    };
    let (serial, mode, points) = (plan.serial(), plan.mode().name(), plan.points().len());
    writeln!(out, "loads: serial {serial}, version {}, mode {mode}, {points} points", plan.version)?;
    Ok(Status::Done)
}

fn list(call: &Call, out: &mut dyn Write) -> Answered {
    let file = Input::open(&call.files[0])?.plan()?;
    match loaded(&file, NEWEST, out)? {
        Some(plan) => lines(out, text::listing(&plan)),
        None => Ok(Status::Refused),
    }
}

fn list_strips(call: &Call, out: &mut dyn Write) -> Answered {
    let file = Input::open(&call.files[0])?.plan()?;
    let Some(plan) = loaded(&file, NEWEST, out)? else {
        return Ok(Status::Refused);
    };
    match strips::of(&plan) {
        Ok(strips) => lines(out, text::strip_listing(&plan, &strips)),
        Err(refusal) => refuse(refusal, out),
    }
}

fn print_distance(call: &Call, out: &mut dyn Write) -> Answered {
    let file = Input::open(&call.files[0])?.plan()?;
    let Some(plan) = loaded(&file, NEWEST, out)? else {
        return Ok(Status::Refused);
    };
    match distance::of(&plan) {
        Ok(table) => lines(out, table.iter().map(ToString::to_string)),
        Err(refusal) => refuse(refusal, out),
    }
}

fn notes(call: &Call, out: &mut dyn Write) -> Answered {
    let file = Input::open(&call.files[0])?.plan()?;
    if loaded(&file, NEWEST, out)?.is_none() {
        return Ok(Status::Refused);
    }
    let numbered = plan::notes(&file).into_iter().enumerate();
    lines(out, numbered.map(|(i, note)| format!("{} {}", i + 1, names::note(&note))))
}

fn print_text(call: &Call, out: &mut dyn Write) -> Answered {
    let file = Input::open(&call.files[0])?.plan()?;
    match loaded(&file, NEWEST, out)? {
        Some(plan) => lines(out, text::whole_text(&plan, &file)),
        None => Ok(Status::Refused),
    }
}

fn new(call: &Call, out: &mut dyn Write) -> Answered {
    let input = Input::open(&call.files[0])?;
    let target = Target::new(&call.files[1], &[&input])?;
    let written = text::read(&input)?;
    let version = u32::from(written.version);
    let file = written.plan(&input)?.and_then(|plan| plan.write(version));
    let refused = |refusal: Refusal| match written.line_of(refusal) {
        Some(line) => format!("{refusal} ({}:{line})", input.name),
        None => refusal.to_string(),
    };
    match file {
        Ok(file) => {
            target.write(&file)?;
            writeln!(out, "written: {}, {} bytes", target.name, file.len())?;
            Ok(Status::Done)
        }
        Err(refusal) => refuse(refused(refusal), out),
    }
}

/// How many fixes there are, in words.
fn counted(fixes: &[Fix]) -> String {
    match fixes.len() {
        1 => "1 fix".to_string(),
        count => format!("{count} fixes"),
    }
}

fn make_fixes(call: &Call, out: &mut dyn Write) -> Answered {
    let input = Input::open(&call.files[0])?;
    let target = Target::new(&call.files[1], &[&input])?;
    let fixes = fixes::of_text(&input)?;
    target.write(&fixes::file(&fixes))?;
    writeln!(out, "written: {}, {}", target.name, counted(&fixes))?;
    Ok(Status::Done)
}

fn fly(call: &Call, out: &mut dyn Write) -> Answered {
    let file = Input::open(&call.files[0])?.plan()?;
    let fixes = fixes::read(&Input::open(&call.files[1])?)?;
    let Some(plan) = loaded(&file, call.reader, out)? else {
        return Ok(Status::Refused);
    };
    let numbers = if call.bits { Numbers::Bits } else { Numbers::Metres };
    if !call.bits {
        writeln!(out, "{COLUMNS}")?;
    }
    let mut flight = Flight::of(&plan);
    lines(out, fixes.iter().enumerate().map(|(i, fix)| flight.fix(fix).line(i + 1, numbers)))
}

fn simulate(call: &Call, out: &mut dyn Write) -> Answered {
    let input = Input::open(&call.files[0])?;
    let target = Target::new(&call.files[1], &[&input])?;
    let Some(plan) = loaded(&input.plan()?, NEWEST, out)? else {
        return Ok(Status::Refused);
    };
    let flown = simulation::fly(&plan, call.refused);
    target.write(&fixes::file(&flown.fixes))?;
    let end = match flown.end {
        End::Finished => "finished".to_string(),
        End::GivenUp => "not finished".to_string(),
        End::Refused(refusal) => format!("not finished: the last fix is {refusal}"),
    };
    writeln!(out, "written: {}, {}, {end}", target.name, counted(&flown.fixes))?;
    Ok(Status::Done)
}

fn draw(call: &Call, out: &mut dyn Write) -> Answered {
    let inputs = [Input::open(&call.files[0])?, Input::open(&call.files[1])?];
    let target = Target::new(&call.files[2], &[&inputs[0], &inputs[1]])?;
    let file = inputs[0].plan()?;
    let fixes = fixes::read(&inputs[1])?;
    let Some(plan) = loaded(&file, NEWEST, out)? else {
        return Ok(Status::Refused);
    };
    target.write(picture::svg(&plan, &fixes).as_bytes())?;
    writeln!(out, "written: {}", target.name)?;
    Ok(Status::Done)
}

fn version(out: &mut dyn Write) -> Answered {
    let [autopilot, desk] = calls::interfaces();
    writeln!(out, "farnkuppel {RELEASE}")?;
    writeln!(out, "interface {INTERFACE} (libautopilot.a {autopilot}, libdesk.a {desk})")?;
    writeln!(out, "plan files of versions 1 to {NEWEST}")?;
    Ok(Status::Done)
}

/// Trouble where the archives are not those of the header that this program was made with.
fn same_interface() -> Result<(), Stop> {
    let [autopilot, desk] = calls::interfaces();
    match [autopilot, desk] == [INTERFACE; 2] {
        true => Ok(()),
        false => Err(trouble(&format!(
            "libautopilot.a has interface {autopilot}, libdesk.a {desk}; the header has {INTERFACE}"
        ))),
    }
}

fn command(name: &OsString) -> Result<&'static Command, Stop> {
    let found = COMMANDS.iter().find(|command| name.to_str() == Some(command.name));
    found.ok_or_else(|| trouble(&format!("no command {}; farnkuppel --help lists them", names::word(name))))
}

fn print(text: &str, out: &mut dyn Write) -> Answered {
    write!(out, "{text}")?;
    Ok(Status::Done)
}

/// Does what the words ask for.
pub fn run(words: &[OsString], out: &mut dyn Write) -> Answered {
    let Some((first, rest)) = words.split_first() else {
        return Err(trouble("no command; farnkuppel --help lists them"));
    };
    match (first.to_str(), rest) {
        (Some("--help" | "-h" | "help"), []) => print(&help::all(&COMMANDS), out),
        (Some("help"), [name]) => print(&help::one(command(name)?), out),
        (Some("--version"), []) => version(out),
        (Some("--help" | "-h" | "help" | "--version"), [.., spare]) => {
            Err(trouble(&format!("{} is one too many", names::word(spare))))
        }
        _ => {
            let command = command(first)?;
            match command.asked(rest)? {
                Asked::Help => print(&help::one(command), out),
                Asked::Call(call) => same_interface().and_then(|()| (command.run)(&call, out)),
            }
        }
    }
}
