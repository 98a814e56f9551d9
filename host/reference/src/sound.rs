//! When a state is sound: refusal 14.

use crate::rules;
use crate::state::{Mode, State, PLACES};

impl State {
    /// False exactly where refusal 14 is given.
    pub fn is_sound(&self) -> bool {
        self.serial != 0
            && (3..=PLACES as u32).contains(&self.count)
            && self.radius_is_allowed()
            && self.places_are_allowed()
            && self.progress_is_allowed()
            && rules::check_plan(self).is_ok()
    }

    fn radius_is_allowed(&self) -> bool {
        match self.mode {
            Mode::Lines => self.radius == 0,
            _ => rules::RADIUS.contains(&self.radius),
        }
    }

    fn places_are_allowed(&self) -> bool {
        for i in 0..PLACES {
            let used = i < self.count as usize;
            if used && !rules::point_in_range(self.points[i]) || !used && self.points[i] != [0; 3] {
                return false;
            }
            let has_course = used && self.mode == Mode::Dubins;
            if has_course && self.courses[i] > rules::LAST_COURSE || !has_course && self.courses[i] != 0 {
                return false;
            }
        }
        true
    }

    fn progress_is_allowed(&self) -> bool {
        let allowed = (2..=self.count).contains(&self.index) && (1..=self.last_phase()).contains(&self.phase);
        allowed && (!self.finished || self.at_last_place())
    }
}
