//! Image files that pass checks 2 to 8.

use crate::generate::{defined_halfword, fit_program, window, Rng};
use crate::image::{pack_file, BLOCK_CODE};

/// A length of code that takes `blocks` blocks, often one at which the last block is full or
/// almost empty.
pub fn code_length(rng: &mut Rng, blocks: usize) -> usize {
    let shortest = (blocks - 1) * BLOCK_CODE + 1;
    let longest = blocks * BLOCK_CODE;
    match rng.below(4) {
        0 => shortest,
        1 => longest,
        _ => rng.between(shortest, longest),
    }
}

/// An image of `blocks` (1 to 64) blocks that the verifier accepts.
pub fn fit_image(rng: &mut Rng, blocks: usize) -> Vec<u8> {
    let length = code_length(rng, blocks);
    let program = fit_program(rng, length);
    program.file().expect("generated windows pass check 8")
}

/// An image of `blocks` (1 to 64) blocks whose code the verifier has yet to judge: any halfwords,
/// or defined ones.
pub fn image(rng: &mut Rng, blocks: usize) -> Vec<u8> {
    let length = code_length(rng, blocks);
    let (w, l) = window(rng, length);
    let defined = rng.flip();
    let code: Vec<u16> =
        (0..length).map(|_| if defined { defined_halfword(rng) } else { rng.u16() }).collect();
    pack_file(&code, w, l).expect("generated windows pass check 8")
}
