//! How far is left of a plan from each index on, as the library has it.

use crate::plan::{Plan, Refusal};
use archive::calls;
use archive::number::ACCEPTED;
use archive::size::{DISTANCES_PLACE, DISTANCES_WORDS, STATE_COUNT, TABLE_ENTRIES};
use std::fmt::{self, Display};

/// The first index that a plan has.
const FIRST: usize = 2;

/// What is left from an index on: the leg to its point, and all that follows.
pub struct Left {
    index: usize,
    decimetres: u32,
}

/// The index, and metres with one decimal, which is exact.
impl Display for Left {
    fn fmt(&self, f: &mut fmt::Formatter) -> fmt::Result {
        write!(f, "{} {}.{}", self.index, self.decimetres / 10, self.decimetres % 10)
    }
}

/// What is left from each index of a plan on. Its state is that of a load and the table is the longest, so the library refuses neither.
pub fn of(plan: &Plan) -> Result<Vec<Left>, Refusal> {
    let mut table = [0; TABLE_ENTRIES];
    let mut answer = [0; DISTANCES_WORDS];
    match calls::distances(&plan.state, &mut table, &mut answer) {
        ACCEPTED => {
            let left = |index: usize| Left { index, decimetres: table[index] };
            Ok((FIRST..=plan.state[STATE_COUNT] as usize).map(left).collect())
        }
        number => Err(Refusal { number, place: answer[DISTANCES_PLACE] }),
    }
}

#[cfg(test)]
mod tests {
    use super::*;

    #[test]
    fn metres_are_exact() {
        for (decimetres, metres) in
            [(0, "2 0.0"), (9, "2 0.9"), (10, "2 1.0"), (50029, "2 5002.9"), (u32::MAX, "2 429496729.5")]
        {
            assert_eq!(Left { index: 2, decimetres }.to_string(), metres);
        }
    }
}
