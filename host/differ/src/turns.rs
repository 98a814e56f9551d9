//! Which plans of fillets loaded. Where all turns are easy and all legs long, as products tell, the library works out no bearing of a plan to check it;
//! so plans on both sides of that, and close to it, have to come.

use reference::course::{cross, dot};
use reference::{Mode, State};

const KINDS: [&str; 3] = ["easy", "but_for_one", "other"];

/// Plans by how many of their turns and legs are not easy: none, one, more.
#[derive(Default)]
pub struct Turns {
    plans: [u64; 3],
}

impl Turns {
    pub fn count(&mut self, state: &State) {
        if state.mode == Mode::Fillets {
            self.plans[hard(state).min(2)] += 1;
        }
    }

    pub fn counts(&self) -> String {
        crate::counts("loaded fillets", KINDS, &self.plans)
    }

    pub fn missing(&self) -> Vec<&'static str> {
        KINDS.into_iter().zip(self.plans).filter(|(_, times)| *times == 0).map(|(kind, _)| kind).collect()
    }
}

/// How many legs are shorter than 5/2 radii, and how many turns are wider than the angle whose tangent is -5.
fn hard(state: &State) -> usize {
    let legs: Vec<_> = (2..=state.count as usize).map(|i| state.level_leg(i)).collect();
    let room = i64::from(state.radius) * 5 / 2;
    let short = legs.iter().filter(|leg| dot(**leg, **leg) < room * room).count();
    let wide = legs.windows(2).filter(|pair| 5 * dot(pair[0], pair[1]) + cross(pair[0], pair[1]).abs() <= 0).count();
    short + wide
}
