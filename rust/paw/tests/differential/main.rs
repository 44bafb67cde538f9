//! The proved library, through the safe wrapper, against the reference engine.
//!
//! One test program keeps the link time low. `PAW_LONG=1` in the environment makes the random
//! tests twenty times longer, lets two runs spend the largest budget, and adds every halfword to
//! every sum.

mod assembler;
mod face;
mod faults;
mod forms;
mod images;
mod instructions;
mod labels;
mod lister;
mod loader;
mod notes;
mod packer;
mod runs;
mod sources;
mod steps;
mod sums;
mod support;
mod traffic;
mod verifier;
mod words;
