//! What is refused, by its number.

/// A refusal number and the place it is about, 0 where it is about no place.
#[derive(Clone, Copy, Debug, PartialEq, Eq)]
pub struct Refusal {
    pub number: u32,
    pub place: u32,
}

impl Refusal {
    pub fn at(number: u32, place: usize) -> Refusal {
        Refusal { number, place: place as u32 }
    }

    pub fn plain(number: u32) -> Refusal {
        Refusal { number, place: 0 }
    }
}
