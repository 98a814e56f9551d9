//! The strips of a plan, as the library finds them, and the refusal of a plan that is no strip plan.

use crate::plan::{Mode, Plan};
use archive::number::{ACCEPTED, RULE_BEARING, RULE_EQUAL, RULE_OPPOSITE};
use archive::size::{
    STRIPS_COUNT, STRIPS_PLACE, STRIPS_RULE, STRIPS_WORDS, STRIP_COURSE, STRIP_LENGTH, STRIP_NUMBER, STRIP_WORDS,
};
use archive::{calls, refusal_words};
use std::fmt::{self, Display};

/// A strip: its number, its course, and its length over ground in decimetres.
pub struct Strip {
    pub number: u32,
    pub course: u32,
    pub length: u32,
}

/// Why a plan is no strip plan: the place is the strip at fault, with the rule that it breaks; both are 0 where the whole plan is at fault.
pub struct NoStrips {
    number: u32,
    place: u32,
    rule: u32,
    fault: &'static str,
}

impl Display for NoStrips {
    fn fmt(&self, f: &mut fmt::Formatter) -> fmt::Result {
        let NoStrips { number, place, rule, fault } = self;
        write!(f, "refused {number} at {place} rule {rule}: {}: {fault}", refusal_words(*number))
    }
}

/// The fault of a plan that is no strip plan, in words: by the rule that is named, and without one by the plan.
fn fault(plan: &Plan, rule: u32) -> &'static str {
    match rule {
        RULE_EQUAL => "its two courses differ",
        RULE_BEARING => "its courses are not the bearing of its leg",
        RULE_OPPOSITE => "its courses are not opposite to those of the strip before",
        _ if plan.mode() != Mode::Dubins => "not a dubins plan",
        _ => "an odd number of points",
    }
}

fn strip(plan: &Plan, number: u32) -> Strip {
    let mut answer = [0; STRIP_WORDS];
    calls::strip(&plan.state, number, &mut answer);
    Strip { number: answer[STRIP_NUMBER], course: answer[STRIP_COURSE], length: answer[STRIP_LENGTH] }
}

/// The strips of a plan, in their order. Its state is that of a load, so the check for strips has no other refusal than that of a plan that is none.
pub fn of(plan: &Plan) -> Result<Vec<Strip>, NoStrips> {
    let mut answer = [0; STRIPS_WORDS];
    match calls::strips(&plan.state, &mut answer) {
        ACCEPTED => Ok((1..=answer[STRIPS_COUNT]).map(|number| strip(plan, number)).collect()),
        number => {
            let (place, rule) = (answer[STRIPS_PLACE], answer[STRIPS_RULE]);
            Err(NoStrips { number, place, rule, fault: fault(plan, rule) })
        }
    }
}
