//! Programs in writing: an assembler from text to code, and a lister from code to text.
//!
//! A text is lines, and a line is a label with a colon or one instruction. Reading a line and
//! writing one are kept apart on purpose: each is a plain match over the forms, so a slip in one
//! shows when the other comes back.

mod assembler;
mod line;
mod lister;
mod value;
mod words;

pub use assembler::assemble;
pub use lister::list;
