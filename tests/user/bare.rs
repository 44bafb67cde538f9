//! Firmware with no standard library. It has a panic handler of its own, which is refused where
//! any crate that it uses brings the standard library along.
#![no_std]

use core::panic::PanicInfo;

use paw::{Machine, Run, RunOutcome, Traffic};

/// Packs and runs `MOV R0, #7`, `HALT #3`, and answers R0, or 0 if anything else came of it.
#[unsafe(no_mangle)]
pub extern "C" fn bare(memory: &mut [u8; paw::MEMORY_BYTES]) -> u16 {
    let mut file = [0; paw::BLOCK_BYTES];
    let mut machine = Machine::default();
    let ended = paw::pack(&[0x2007, 0x0003], 256, 64, &mut file)
        .and_then(|()| paw::load(&file, memory))
        .and_then(|_| paw::run(&mut machine, memory, 10));
    let expected = Run { outcome: RunOutcome::Halted, steps: 1, traffic: Traffic::NoData };
    match ended {
        Ok(run) if run == expected && machine.note == 3 => machine.regs[0],
        _ => 0,
    }
}

#[panic_handler]
fn halt(_: &PanicInfo<'_>) -> ! {
    loop {}
}
