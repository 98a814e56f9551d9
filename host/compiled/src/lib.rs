//! The compiled path manager behind its C interface, and the reference's states and answers as the words of that interface.

pub mod calls;
pub mod words;
