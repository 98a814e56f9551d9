//! A second reading of the path manager's rules, in the plainest Rust: plan files, plan rules, fixes.
//!
//! Whole numbers are decimetres; courses and turns are 1/4096 of a circle, clockwise from north.
//!
//! The modules stand in layers: one uses modules of the layers above it alone, which `tests/layers.rs` checks.

// Numbers and vectors.
pub mod course;
pub mod lines;
pub mod refusal;

// A plan and the place on it, and the heading at a position.
pub mod heading;
pub mod state;

// The parts of a path.
pub mod dubins;
pub mod fillets;

// Which plans are flown.
pub mod rules;

// Which states are flown.
pub mod sound;

// What is asked from outside.
pub mod distance;
pub mod file;
pub mod fix;
pub mod strips;

pub use file::{load, note, notes, write};
pub use fix::{Answer, Command};
pub use refusal::Refusal;
pub use state::{Mode, State};
