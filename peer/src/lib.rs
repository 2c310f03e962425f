//! The day engine and the reader of document 01 in plain Rust: independent evidence for the tape, and a measure of speed.
//! One module a section of the document. No allocation per line or print. `dice` and `random` are for tests and generated
//! days.

pub mod announcements;
pub mod conditions;
pub mod corrections;
pub mod day;
pub mod dice;
pub mod facts;
pub mod lines;
pub mod names;
pub mod price;
pub mod program;
pub mod random;
pub mod reader;
pub mod refusals;
pub mod tape;
pub mod trades;
pub mod volume;
