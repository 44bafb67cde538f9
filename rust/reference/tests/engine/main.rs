//! Tests of the reference engine, one module for each of its parts.

mod assembler;
mod audit;
mod busy;
mod cpu;
mod domain;
mod footprint;
mod forms;
mod generate;
mod image;
mod instruction;
mod lister;
mod loader;
mod naive;
mod note;
mod table;
mod traffic;
mod verifier;
