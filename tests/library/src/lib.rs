//! The calls of the static library, demand 3's laws tested on them, and tables that are timed.

pub mod calls;
pub mod laws;
pub mod tables;
