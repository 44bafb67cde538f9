//! The loader: puts a verified image into memory.

use crate::{Layout, Refusal, ffi};

/// Puts checks 1 to 14 to a memory and a file. If all pass, memory gets the code from its first
/// byte on and zeros in the window, and every other byte stays; a refusal changes no byte.
///
/// ```
/// use paw::{Machine, Run, RunOutcome, Traffic};
///
/// // Masks R0, adds 256 and stores R1 there.
/// let code = [0x21FC, 0x4008, 0x2280, 0x4412, 0x4410, 0x6001, 0x0000];
/// let mut file = vec![0; paw::image_bytes(code.len())];
/// paw::pack(&code, 256, 256, &mut file)?;
/// let mut memory = vec![0; paw::MEMORY_BYTES];
/// let layout = paw::load(&file, &mut memory)?;
/// let ended = paw::run(&mut Machine::default(), &mut memory, 1_000)?;
/// let traffic = Traffic::WroteHalfword(256);
/// assert_eq!(ended, Run { outcome: RunOutcome::Halted, steps: 6, traffic });
/// assert_eq!(memory[layout.window()][0], 0xFC);
/// # Ok::<(), paw::Refusal>(())
/// ```
pub fn load(file: &[u8], memory: &mut [u8]) -> Result<Layout, Refusal> {
    Layout::from_answer(ffi::load(file, memory))
}
