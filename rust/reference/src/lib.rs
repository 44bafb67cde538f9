//! An independent engine of the PAW service board: decoder and encoder, cpu, image reader and
//! packer, verifier and loader, assembler and lister, together with inputs and checks for testing
//! engines.
//!
//! It is written from the manual and the scope alone, so that agreement with another engine means
//! something.

#![forbid(unsafe_code)]

pub mod audit;
pub mod condition;
pub mod cpu;
pub mod domain;
pub mod generate;
pub mod image;
pub mod instruction;
pub mod loader;
pub mod program;
pub mod refusal;
pub mod source;
pub mod table;
pub mod traffic;
pub mod verifier;
