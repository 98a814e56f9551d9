//! A simulated aircraft, which flies a plan from its first point as it is told: it keeps its speed, turns at a limited rate toward the heading
//! that it is answered, and takes the height of the line or circle that it is commanded.

use crate::fixes::{Fix, MOST_FIXES};
use crate::flight::{Flight, Path};
use crate::place::Place;
use crate::plan::{Plan, Point, Refusal};
use archive::number::CIRCLE;
use std::f64::consts::{PI, TAU};

/// Metres a second, radians a second at most, and fixes a second.
const SPEED: f64 = 25.0;
const TURN: f64 = 0.6;
const FIXES_A_SECOND: f64 = 10.0;

/// Where the plan's circles are smaller than the aircraft's, it turns so much faster than they ask for.
const SPARE_TURN: f64 = 1.5;

/// A flight is given up after this many times the plan's legs, and so many metres more. A Dubins leg of three radii with two whole circles is about
/// five times as long as the leg.
const MOST_LEGS: f64 = 8.0;
const SPARE_METRES: f64 = 2000.0;

/// After so many fixes one follows that names another serial; after so many, one whose north is no number.
const OTHER_SERIAL: usize = 97;
const NO_NUMBER: usize = 131;

/// Metres, radians clockwise from north, and radians to turn by until the next fix.
struct Aircraft {
    north: f64,
    east: f64,
    down: f64,
    heading: f64,
    turn: f64,
}

/// How a flight ends: with the plan, with a fix that is refused because the aircraft left the range of fixes, or given up.
pub enum End {
    Finished,
    Refused(Refusal),
    GivenUp,
}

/// The fixes of a flight, and its end.
pub struct Simulated {
    pub fixes: Vec<Fix>,
    pub end: End,
}

/// The height of a path where the aircraft is over it. A line's is that of the leg, from its start to its end.
fn height(path: &Path, plane: &Aircraft) -> f64 {
    match path {
        Path::Nothing => plane.down,
        Path::Circle { centre: [_, _, down], .. } => f64::from(*down),
        Path::Line { start, direction } => {
            let ([north, east, down], [by_north, by_east, by_down]) = (start.map(f64::from), direction.map(f64::from));
            let along = (plane.north - north) * by_north + (plane.east - east) * by_east;
            let part = along / (by_north * by_north + by_east * by_east);
            down + by_down * part.clamp(0.0, 1.0)
        }
    }
}

impl Aircraft {
    /// Over the first point, heading for the second.
    fn over(places: &[(Place, f64)]) -> Aircraft {
        let ((first, down), (second, _)) = (places[0], places[1]);
        let heading = (second.east - first.east).atan2(second.north - first.north);
        Aircraft { north: first.north, east: first.east, down, heading, turn: 0.0 }
    }

    fn fix(&self, serial: u32) -> Fix {
        Fix { serial, position: [self.north, self.east, self.down].map(|metres| metres as f32) }
    }

    /// Turns toward a heading the short way, by so much at most.
    fn turn_to(&mut self, heading: u32, most: f64) {
        let wanted = f64::from(heading) * TAU / f64::from(CIRCLE);
        let turn = (wanted - self.heading + PI).rem_euclid(TAU) - PI;
        self.turn = turn.clamp(-most, most);
    }

    /// Goes on to the next fix.
    fn advance(&mut self) {
        self.heading += self.turn;
        self.north += SPEED / FIXES_A_SECOND * self.heading.cos();
        self.east += SPEED / FIXES_A_SECOND * self.heading.sin();
    }
}

/// The radians between two fixes that the aircraft can turn by.
fn most_turn(plan: &Plan) -> f64 {
    let asked = plan.radius().map_or(0.0, |radius| SPARE_TURN * SPEED / Place::metres(radius));
    TURN.max(asked) / FIXES_A_SECOND
}

/// How many fixes a flight has at the most, without strays, which are fewer.
fn most_fixes(places: &[(Place, f64)]) -> usize {
    let legs: f64 = places.windows(2).map(|leg| leg[0].0.distance(leg[1].0)).sum();
    let fixes = (MOST_LEGS * legs + SPARE_METRES) / SPEED * FIXES_A_SECOND;
    (fixes as usize).min(MOST_FIXES / 2)
}

/// The fixes that are refused on purpose behind an accepted one.
fn strays(count: usize, fix: Fix) -> impl Iterator<Item = Fix> {
    let [_, east, down] = fix.position;
    let other = Fix { serial: fix.serial.wrapping_add(1), ..fix };
    let none = Fix { position: [f32::NAN, east, down], ..fix };
    [(OTHER_SERIAL, other), (NO_NUMBER, none)]
        .into_iter()
        .filter(move |(every, _)| count % every == 0)
        .map(|(_, stray)| stray)
}

/// Flies until the library says finished, with strays among the fixes where they are asked for.
pub fn fly(plan: &Plan, with_strays: bool) -> Simulated {
    let place = |point: &Point| (Place::of(point), Place::metres(point.down));
    let places: Vec<(Place, f64)> = plan.points().iter().map(place).collect();
    let (mut plane, mut flight) = (Aircraft::over(&places), Flight::of(plan));
    let mut simulated = Simulated { fixes: Vec::new(), end: End::GivenUp };
    for count in 1..=most_fixes(&places) {
        let fix = plane.fix(plan.serial());
        simulated.fixes.push(fix);
        simulated.fixes.extend(strays(count, fix).filter(|_| with_strays));
        let answer = flight.fix(&fix);
        if let Some(end) = answer.refusal().map(End::Refused).or(answer.finished().then_some(End::Finished)) {
            simulated.end = end;
            break;
        }
        plane.turn_to(answer.heading(), most_turn(plan));
        plane.down = height(&answer.path(), &plane);
        plane.advance();
    }
    simulated
}
