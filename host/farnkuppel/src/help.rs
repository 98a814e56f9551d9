//! The texts of --help.

use crate::arguments::Command;

const INTRODUCTION: &str = "\
farnkuppel: plans of survey aircraft, by the proved path manager

";

const COMMON: &str = "
  farnkuppel COMMAND --help    more on a command
  farnkuppel --version         the release, the interface and the newest version of plan files

Units: points and radii are whole decimetres; north, east and down. Courses and headings are 1/4096 of a circle, clockwise from north.
Fixes, commands and the distance to go are in metres.
Exit status: 0 done; 1 the plan is refused, and the answer says why: refused NUMBER at PLACE: REASON; 2 usage or file trouble, one line
on standard error. Files are written whole or not at all, and never over an input. Options end at --; a file's name can be -.
";

pub const CHECK: &str = "\
Says in one line whether PLAN loads: its serial, version, mode and points, or the refusal.

  --reader V    by the reader of version V, any number; without it the newest
";

pub const LIST: &str = "\
Lists PLAN as the newest reader loads it: a line 'plan SERIAL version VERSION mode MODE points COUNT', then a line for each point,
'NUMBER NORTH EAST DOWN COURSE': decimetres, and a course in 1/4096 of a circle, clockwise from north, or - where the plan has none.
";

pub const STRIPS: &str = "\
Lists the strips of PLAN as the newest reader loads it: a line 'plan SERIAL version VERSION mode dubins points COUNT strips STRIPS', then
a line for each strip, 'NUMBER COURSE LENGTH': its course, and its length over ground in decimetres, rounded down.

A strip plan is a dubins plan with an even number of points: 1 and 2, 3 and 4 and so on are its strips, each of which keeps three rules:

  1  its two courses are equal
  2  they equal the bearing of its leg, in whole units of 1/4096 of a circle, rounded down
  3  they are half a circle, 2048, from those of the strip before; the first strip has none

Any other plan is refused, 'refused 18 at STRIP rule RULE: no strip plan: FAULT', by the first strip at fault and the first rule that it
breaks, which FAULT says in words: 0 and 0 where it is no dubins plan or has an odd number of points, and FAULT says which.
";

pub const DISTANCE: &str = "\
Prints a line 'INDEX METRES' for each index of PLAN, from 2 to the number of its points, as the newest reader loads it: the metres to go
from there on, over ground, which are the leg to that point and all that follows. The leg counts whole, wherever on it an aircraft with
that index is ('fly' prints the index after each fix), so that the line of the last index has the last leg, and not 0.

In lines a leg goes from point to point. In fillets it is the straight part between the circles at its ends, and the arc at the point that
it leads to counts with it. In dubins it is the whole path from course to course. Roots and arcs are rounded down to whole decimetres.
";

pub const NOTES: &str = "\
Prints a line 'NUMBER TEXT' for each note of PLAN. Bytes that are not printable ASCII, and the backslash, are written \\xNN.
";

pub const TEXT: &str = "\
Prints PLAN as text: the lines of 'list', a line 'radius R' in decimetres where the plan has one, and its notes and speeds as comments,
where they stand. 'farnkuppel new' makes the plan from such a text; docs/TEXT.md has the whole form.
";

pub const NEW: &str = "\
Writes the plan file of a text to PLAN, at the version that the text says. The text:

  # A line that starts with # is a comment. Blank lines are free.
  plan 7 version 2 mode fillets points 3
  radius 200
  1 0 0 -1000 -
  2 1000 0 -1000 -
  3 1000 2000 -1000 -

The first line has the serial, the version, the mode (lines, fillets or dubins) and the number of points. A radius, for fillets and
dubins, is in decimetres. A point has its number, north, east and down in decimetres, and its course in 1/4096 of a circle, clockwise
from north: in dubins at every point, else -. Notes and speeds are no part of a plan, and are not written.
What the library refuses is answered so, with the line of the text where one is to blame; a line that is none of these is trouble.
";

pub const FIXES: &str = "\
Writes the fixes of a text to FIXES. A line of the text is a fix, 'SERIAL NORTH EAST DOWN': the serial of the plan that it is for, and
three numbers in metres; nan and inf can be tried. Blank lines, and lines that start with #, are free.
In FIXES a fix is 16 bytes, big-endian: the serial, then north, east and down as the bits of an f32.
";

pub const FLY: &str = "\
Flies the fixes along the plan from its start, and prints a line for each: the line or circle to follow in metres, the heading in 1/4096
of a circle, and the index, phase and finished after the fix; or the refusal of the fix. The first line names the columns.
The exit status is 0 where the plan loads, whatever its fixes are answered. A FIXES that ends within a fix is trouble, and none is flown.

  --reader V    by the reader of version V, any number; without it the newest
  --bits        numbers as the eight hexadecimal digits of an f32, without the first line: what target/bin/fly prints
";

pub const SIMULATE: &str = "\
Flies a simulated aircraft along PLAN, from its first point until the plan is finished, and writes its fixes to FIXES. The answer says
whether the plan was finished: a flight ends early where the aircraft leaves the range of fixes, and is given up after many times the
length of the plan's legs. The exit status is 0 all the same.

  --refused     puts fixes among them that are refused: some name another plan, some have a north that is no number
";

pub const DRAW: &str = "\
Draws PLAN and the flight that FIXES make along it, as SVG, into PICTURE: the plan's legs, points, circles and courses, the numbers of its
strips where it is a strip plan, the track by phase, and crosses where fixes were refused.
";

/// The help of the whole: a line for each command.
pub fn all(commands: &[Command]) -> String {
    let usages: Vec<String> = commands.iter().map(Command::usage).collect();
    let wide = usages.iter().map(String::len).max().unwrap_or(0);
    let rows = usages.iter().zip(commands).map(|(usage, command)| format!("  {usage:wide$}  {}\n", command.does));
    INTRODUCTION.to_string() + &rows.collect::<String>() + COMMON
}

/// The help of a command.
pub fn one(command: &Command) -> String {
    format!("usage: {}\n\n{}", command.usage(), command.help)
}
