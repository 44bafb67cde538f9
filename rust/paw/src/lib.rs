//! Safe functions over `libpaw.a`, the proved firmware of the PAW service board.
//!
//! Every function here calls one exported function of the library and turns its answer, which is
//! a plain number, into a type. What each function answers is proved in the library; this crate
//! only carries it over. An answer that the library cannot give makes the function panic: then
//! this crate and the library do not belong together.
//!
//! It needs no standard library and no allocator. It links the `libpaw.a` that `tools/library`
//! writes in its repository, or the one in the folder that the environment variable `PAW_LIB_DIR`
//! names when it is built. That library is for x86-64 and Linux.
//!
//! A program travels as an image file: [`pack`] makes one, [`check`] reads what it says of itself,
//! [`verify`] decides whether it can be run without harm, [`load`] puts it into memory if so, and
//! [`run`] runs it. A program that ends by HALT may say why in a byte, which [`Machine::note`] then
//! holds. Each completed step tells as [`Traffic`] which data it touched, and a run what its last
//! one told. A driver that delivers a block's last halfword first sums the block on the way with
//! [`add_to_sum`].
//!
//! Code need not be put together by hand: [`assemble`] makes it from a program in writing, with
//! labels, and [`list`] writes code as such a text again.
//!
//! ```
//! use paw::{Condition, Instruction, Machine, RunOutcome, Traffic};
//!
//! // Counts R0 down from 3.
//! let program = [
//!     Instruction::MovImm { rd: 0, imm: 3 },
//!     Instruction::MovImm { rd: 1, imm: 1 },
//!     Instruction::Neg { rs: 1, rd: 1 },
//!     Instruction::AddHigh { rs: 1, rd: 0 },
//!     Instruction::Branch { cond: Condition::Ne, offset: -1 },
//!     Instruction::Halt { note: 7 },
//! ];
//! let mut code = [0; 6];
//! for (halfword, instruction) in code.iter_mut().zip(program) {
//!     *halfword = paw::encode(instruction)?;
//! }
//! let mut file = [0; paw::image_bytes(6)];
//! paw::pack(&code, 256, 64, &mut file)?;
//!
//! let mut memory = vec![0; paw::MEMORY_BYTES];
//! paw::load(&file, &mut memory)?;
//! let mut machine = Machine::default();
//! let run = paw::run(&mut machine, &mut memory, 1_000)?;
//! match run.outcome {
//!     RunOutcome::Halted => assert_eq!((run.steps, machine.regs[0], machine.note), (9, 0, 7)),
//!     RunOutcome::Spent => panic!("a thousand steps are not enough"),
//!     RunOutcome::Stopped(stop) => panic!("{stop}"), // never, after a load
//! }
//! assert_eq!(run.traffic, Traffic::NoData); // of the last step, a branch
//! # Ok::<(), paw::Refusal>(())
//! ```

#![no_std]
#![deny(unsafe_code)]

mod assembler;
mod condition;
mod cpu;
mod date;
mod ffi;
mod image;
mod instruction;
mod lister;
mod loader;
mod refusal;
mod source;
mod traffic;
mod verifier;
mod version;

pub use assembler::assemble;
pub use condition::Condition;
pub use cpu::{MEMORY_BYTES, Machine, PC, Run, RunOutcome, StepOutcome, Stop, run, step};
pub use date::{ManualDate, manual_date};
pub use image::{
    BLOCK_BYTES, BLOCK_CODE, BLOCK_HALFWORDS, BlockReader, Layout, MAX_BLOCKS, MAX_CODE,
    add_to_sum, block, check, image_bytes, pack,
};
pub use instruction::{Instruction, decode, encode};
pub use lister::{MAX_LISTING, list, listing_bytes};
pub use loader::load;
pub use refusal::{Check, Place, Refusal};
pub use source::{SourceCheck, SourceRefusal};
pub use traffic::Traffic;
pub use verifier::verify;
pub use version::{VERSION, Version, version};
