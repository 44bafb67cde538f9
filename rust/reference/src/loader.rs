//! The loader: puts a verified image into memory.

use crate::cpu::MEMORY_BYTES;
use crate::image::{code, set_halfword, Layout};
use crate::refusal::{Refusal, MEMORY_SIZE};
use crate::verifier::verify;

/// Puts check 1 to a memory and the verifier's checks to a file. A program that passes is stored from
/// byte 0 on, and its window is filled with zeros; any other leaves the memory alone.
pub fn load(file: &[u8], memory: &mut [u8]) -> Result<Layout, Refusal> {
    if memory.len() != MEMORY_BYTES {
        return Err(Refusal::of(MEMORY_SIZE));
    }
    let layout = verify(file)?;
    place_code(&code(file), memory);
    window_mut(memory, layout).fill(0);
    Ok(layout)
}

/// Writes code halfwords from address 0 upward.
pub fn place_code(code: &[u16], memory: &mut [u8]) {
    for (number, &halfword) in code.iter().enumerate() {
        set_halfword(memory, number, halfword);
    }
}

/// The part of a memory that is an image's window.
pub fn window_mut(memory: &mut [u8], layout: Layout) -> &mut [u8] {
    let start = usize::from(layout.w);
    &mut memory[start..start + usize::from(layout.l)]
}
