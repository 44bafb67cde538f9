//! Programs: fit ones, ones that fail a chosen check, and arbitrary ones.

use crate::generate::builder::Builder;
use crate::generate::{defined_halfword, window, Rng};
use crate::program::Program;
use crate::refusal::{BRANCH_TARGET, LAST_NOT_HALT};

/// Defined instructions in any order.
pub fn random_program(rng: &mut Rng, length: usize) -> Program {
    let (w, l) = window(rng, length);
    let code = (0..length).map(|_| defined_halfword(rng)).collect();
    Program { code, w, l }
}

/// A program of `length` (at least 1) halfwords that passes every check.
pub fn fit_program(rng: &mut Rng, length: usize) -> Program {
    let mut builder = Builder::new(rng, length);
    while builder.room() > 0 {
        builder.emit_chunk();
    }
    builder.finish()
}

/// A program of `length` halfwords made to fail check `number`, 9 to 14, and no other. A short
/// one may have no room for its fault.
pub fn refused_program(rng: &mut Rng, length: usize, number: u8) -> Program {
    let latest = length.saturating_sub(40);
    let at = match number {
        // Only from near an end can a branch leave the code.
        BRANCH_TARGET if rng.flip() => rng.between(0, latest.min(100)),
        BRANCH_TARGET => latest,
        _ => rng.between(0, latest),
    };
    let mut builder = Builder::new(rng, length);
    while builder.code.len() < at {
        builder.emit_chunk();
    }
    builder.emit_fault(number);
    while builder.room() > 0 {
        builder.emit_chunk();
    }
    let mut program = builder.finish();
    if number == LAST_NOT_HALT {
        if let Some(last) = program.code.last_mut() {
            *last = rng.pick(&[0x2000, 0x4000, 0x4548, 0xA001, 0xD100]);
        }
    }
    program
}

/// A program with one small change to its code or window.
pub fn mutate(rng: &mut Rng, program: &Program) -> Program {
    let mut changed = program.clone();
    let place = rng.below(changed.code.len());
    match rng.below(6) {
        0 => changed.code[place] ^= 1 << rng.below(16),
        1 => changed.code[place] = rng.u16(),
        2 => changed.code[place] = defined_halfword(rng),
        3 => changed.code.swap(place, 0),
        4 if changed.l > 4 => changed.l -= 4,
        _ if u32::from(changed.w) + u32::from(changed.l) < 65_536 => changed.w += 4,
        _ => changed.code[place] ^= 1 << rng.below(16),
    }
    changed
}
