//! Starts with much memory traffic, and the kinds of traffic, to see that none is missing.

use reference::cpu::{Machine, MEMORY_BYTES};
use reference::generate::{self, Rng};
use reference::loader::load;
use reference::traffic::Touched;

/// A machine and a memory from which accesses of all kinds are likely.
pub fn start_of_accesses(rng: &mut Rng) -> (Machine, Vec<u8>) {
    match rng.below(3) {
        0 => (generate::machine(rng), generate::executable_memory(rng)),
        1 => (aligned_machine(rng), memory_of_accesses(rng)),
        _ => (generate::start(rng), memory_of_fit_program(rng)),
    }
}

fn aligned_machine(rng: &mut Rng) -> Machine {
    let mut machine = generate::machine(rng);
    machine.regs = machine.regs.map(|value| value & !3);
    machine
}

/// Half of the instructions are loads and stores.
fn memory_of_accesses(rng: &mut Rng) -> Vec<u8> {
    (0..MEMORY_BYTES / 2).flat_map(|_| likely_access(rng).to_le_bytes()).collect()
}

fn likely_access(rng: &mut Rng) -> u16 {
    if rng.flip() {
        // Bits 15 to 13 make it a load or a store, whatever the others are.
        0b011 << 13 | rng.u16() >> 3
    } else {
        generate::defined_halfword(rng)
    }
}

fn memory_of_fit_program(rng: &mut Rng) -> Vec<u8> {
    let mut memory = generate::memory(rng);
    let length = rng.between(2, 60);
    let file = generate::fit_program(rng, length).file().expect("its window is good");
    load(&file, &mut memory).expect("it is fit");
    memory
}

/// All that a step can do, wherever it does it.
pub const KINDS: [Touched; 5] = [
    Touched::NoData,
    Touched::Read { address: 0, bytes: 1 },
    Touched::Read { address: 0, bytes: 2 },
    Touched::Wrote { address: 0, bytes: 1 },
    Touched::Wrote { address: 0, bytes: 2 },
];

/// The one of [`KINDS`] that is told.
pub fn kind_of(touched: Touched) -> Touched {
    match touched {
        Touched::NoData => Touched::NoData,
        Touched::Read { bytes, .. } => Touched::Read { address: 0, bytes },
        Touched::Wrote { bytes, .. } => Touched::Wrote { address: 0, bytes },
    }
}
