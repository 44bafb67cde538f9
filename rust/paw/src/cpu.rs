//! The machine: one step, and a run with a budget of steps.

use core::error::Error;
use core::fmt;
use core::mem::{align_of, offset_of, size_of};

use crate::{Refusal, Traffic, ffi};

/// Bytes in the address space.
pub const MEMORY_BYTES: usize = 65_536;

/// Index of the program counter among the registers.
pub const PC: usize = 15;

/// Registers, flags and note. A fresh one is all zeros, so its program counter is at address 0.
///
/// The note may be anything at a start. A step or a run that ends by HALT sets it to the low byte
/// of that HALT's halfword, each time anew. Nothing else changes it: no completed step, no stop, no
/// refusal, and no budget that is spent with HALT next. So it tells why a program ended only where
/// the outcome is [`StepOutcome::Halted`] or [`RunOutcome::Halted`].
///
/// ```
/// use paw::{Machine, RunOutcome};
///
/// let mut memory = vec![0; paw::MEMORY_BYTES];
/// memory[..2].copy_from_slice(&0x0007_u16.to_le_bytes()); // HALT #7
/// let mut machine = Machine { note: 99, ..Machine::default() };
/// assert_eq!(paw::run(&mut machine, &mut memory, 0).unwrap().outcome, RunOutcome::Spent);
/// assert_eq!(machine.note, 99);
/// assert_eq!(paw::run(&mut machine, &mut memory, 1).unwrap().outcome, RunOutcome::Halted);
/// assert_eq!(machine.note, 7);
/// ```
#[repr(C)]
#[derive(Clone, Copy, Debug, Default, PartialEq, Eq, Hash)]
pub struct Machine {
    /// R0 to R15; R15 is the program counter.
    pub regs: [u16; 16],
    /// Negative.
    pub n: bool,
    /// Zero.
    pub z: bool,
    /// Carry, or no borrow.
    pub c: bool,
    /// Signed overflow.
    pub v: bool,
    /// What the last HALT that ended a step or a run said, or what stood here before.
    pub note: u8,
}

// The library reads and writes this very record, so it must lie as it does there. The byte behind
// the note is padding on both sides: whatever it holds, no answer depends on it, and no comparison
// or hash here sees it.
const _: () = {
    assert!(size_of::<Machine>() == 38);
    assert!(align_of::<Machine>() == 2);
    assert!(offset_of!(Machine, regs) == 0);
    assert!(offset_of!(Machine, n) == 32);
    assert!(offset_of!(Machine, z) == 33);
    assert!(offset_of!(Machine, c) == 34);
    assert!(offset_of!(Machine, v) == 35);
    assert!(offset_of!(Machine, note) == 36);
};

/// Why the next instruction cannot be executed; its number is the one that the board's papers
/// give it.
#[derive(Clone, Copy, Debug, PartialEq, Eq, Hash)]
#[repr(u8)]
pub enum Stop {
    /// The program counter is odd.
    OddPc = 18,
    /// The halfword at the program counter is undefined.
    Undefined = 19,
    /// A halfword load or store at an address that 4 does not divide.
    Misaligned = 20,
}

impl Stop {
    /// The stop's number.
    #[must_use]
    pub const fn number(self) -> u8 {
        self as u8
    }

    /// What is wrong, without the number.
    #[must_use]
    pub const fn complaint(self) -> &'static str {
        match self {
            Stop::OddPc => "the program counter is odd",
            Stop::Undefined => "the halfword at the program counter is no instruction",
            Stop::Misaligned => "the address of a halfword is not a multiple of 4",
        }
    }
}

impl fmt::Display for Stop {
    fn fmt(&self, f: &mut fmt::Formatter<'_>) -> fmt::Result {
        write!(f, "stop {}: {}", self.number(), self.complaint())
    }
}

impl Error for Stop {}

/// What became of one step.
#[must_use = "a step may have halted or stopped"]
#[derive(Clone, Copy, Debug, PartialEq, Eq, Hash)]
pub enum StepOutcome {
    /// One instruction was executed, and this is the data that it touched.
    Completed(Traffic),
    /// The program counter is at HALT. Nothing changed but the machine's note, which is HALT's.
    Halted,
    /// The next instruction cannot be executed; nothing changed.
    Stopped(Stop),
}

impl fmt::Display for StepOutcome {
    fn fmt(&self, f: &mut fmt::Formatter<'_>) -> fmt::Result {
        match self {
            StepOutcome::Completed(Traffic::NoData) => f.write_str("completed"),
            StepOutcome::Completed(traffic) => write!(f, "completed, {traffic}"),
            StepOutcome::Halted => f.write_str("halted"),
            StepOutcome::Stopped(stop) => stop.fmt(f),
        }
    }
}

/// Why a run ended.
#[must_use = "a run may have spent its budget or stopped"]
#[derive(Clone, Copy, Debug, PartialEq, Eq, Hash)]
pub enum RunOutcome {
    /// The budget is used up, whatever would have come next; the machine's note is as before.
    Spent,
    /// The program counter is at HALT, and the machine's note is that HALT's.
    Halted,
    /// The next instruction cannot be executed; the machine's note is as before.
    Stopped(Stop),
}

impl fmt::Display for RunOutcome {
    fn fmt(&self, f: &mut fmt::Formatter<'_>) -> fmt::Result {
        match self {
            RunOutcome::Spent => f.write_str("the budget is spent"),
            RunOutcome::Halted => f.write_str("halted"),
            RunOutcome::Stopped(stop) => stop.fmt(f),
        }
    }
}

/// The end of a run.
#[must_use = "a run may have spent its budget or stopped"]
#[derive(Clone, Copy, Debug, PartialEq, Eq, Hash)]
pub struct Run {
    /// Why it ended.
    pub outcome: RunOutcome,
    /// How many steps were completed.
    pub steps: u32,
    /// What the last completed step touched; no data if none was completed.
    pub traffic: Traffic,
}

/// Takes apart what a step answers, and a run in its low half: the number that says how it ended,
/// and the traffic of the last completed step.
fn parts_of(answer: u32) -> (u8, Traffic) {
    let [number, kind, low, high] = answer.to_le_bytes();
    (number, Traffic::from_numbers(kind, u16::from_le_bytes([low, high])))
}

/// What an answer's number says, apart from 0, which a step and a run read differently.
enum Ending {
    Halted,
    Stopped(Stop),
    Refused(Refusal),
}

impl Ending {
    fn from_number(number: u8) -> Self {
        match number {
            18 => Ending::Stopped(Stop::OddPc),
            19 => Ending::Stopped(Stop::Undefined),
            20 => Ending::Stopped(Stop::Misaligned),
            255 => Ending::Halted,
            1 => Ending::Refused(Refusal::from_numbers(1, 0)),
            _ => panic!("libpaw.a answers a step or run with {number}"),
        }
    }
}

/// Executes the instruction at the program counter, changing this very machine and memory. Check 1
/// refuses a memory that does not have [`MEMORY_BYTES`].
///
/// A completed step tells which data it touched. A step that meets HALT changes the machine's note,
/// and nothing else.
///
/// ```
/// use paw::{Machine, StepOutcome, Traffic};
///
/// let mut memory = vec![0; paw::MEMORY_BYTES];
/// memory[..2].copy_from_slice(&0x2307_u16.to_le_bytes()); // MOV R3, #7
/// memory[2..4].copy_from_slice(&0x705B_u16.to_le_bytes()); // STRB R3, [R3, #1]
/// memory[4..6].copy_from_slice(&0x000C_u16.to_le_bytes()); // HALT #12
/// let mut machine = Machine::default();
/// let moved = StepOutcome::Completed(Traffic::NoData);
/// assert_eq!(paw::step(&mut machine, &mut memory), Ok(moved));
/// assert_eq!((machine.regs[3], machine.regs[paw::PC]), (7, 2));
/// let stored = StepOutcome::Completed(Traffic::WroteByte(8));
/// assert_eq!(paw::step(&mut machine, &mut memory), Ok(stored));
/// assert_eq!((memory[8], machine.regs[paw::PC]), (7, 4));
/// assert_eq!(paw::step(&mut machine, &mut memory), Ok(StepOutcome::Halted));
/// assert_eq!((machine.note, machine.regs[paw::PC]), (12, 4));
/// ```
pub fn step(machine: &mut Machine, memory: &mut [u8]) -> Result<StepOutcome, Refusal> {
    match parts_of(ffi::step(machine, memory)) {
        (0, traffic) => Ok(StepOutcome::Completed(traffic)),
        (number, Traffic::NoData) => match Ending::from_number(number) {
            Ending::Halted => Ok(StepOutcome::Halted),
            Ending::Stopped(stop) => Ok(StepOutcome::Stopped(stop)),
            Ending::Refused(refusal) => Err(refusal),
        },
        (number, traffic) => panic!("libpaw.a answers a step with {number} and {traffic}"),
    }
}

/// Executes up to `budget` instructions, changing this very machine and memory. Check 1 refuses a
/// memory that does not have [`MEMORY_BYTES`].
///
/// A run that has completed `budget` steps, be it none, is [`RunOutcome::Spent`], whatever the
/// next one would do: the program may not have come to its end. One that is [`RunOutcome::Halted`]
/// has left its HALT's note in the machine.
///
/// However it ended, it tells the data that the last of its completed steps touched. The HALT or
/// stop that ended it is no completed step, and no step of an earlier run counts.
///
/// ```
/// use paw::{Machine, Run, RunOutcome, Traffic};
///
/// let mut memory = vec![0; paw::MEMORY_BYTES];
/// memory[..2].copy_from_slice(&0x6903_u16.to_le_bytes()); // LDR R3, [R0, #16]
/// memory[2..4].copy_from_slice(&0x000C_u16.to_le_bytes()); // HALT #12
/// let mut machine = Machine::default();
/// let traffic = Traffic::ReadHalfword(16);
/// let spent = Run { outcome: RunOutcome::Spent, steps: 1, traffic };
/// assert_eq!(paw::run(&mut machine, &mut memory, 1), Ok(spent));
/// assert_eq!(machine.note, 0); // HALT is next, but was not met
/// let halted = Run { outcome: RunOutcome::Halted, steps: 0, traffic: Traffic::NoData };
/// assert_eq!(paw::run(&mut machine, &mut memory, 1), Ok(halted));
/// assert_eq!(machine.note, 12);
/// let both = Run { outcome: RunOutcome::Halted, steps: 1, traffic };
/// assert_eq!(paw::run(&mut Machine::default(), &mut memory, 2), Ok(both));
/// ```
pub fn run(machine: &mut Machine, memory: &mut [u8], budget: u32) -> Result<Run, Refusal> {
    let answer = ffi::run(machine, memory, budget);
    let steps = (answer >> 32) as u32;
    let (number, traffic) = parts_of(answer as u32);
    if steps == 0 && traffic != Traffic::NoData {
        panic!("libpaw.a answers a run of no steps with {traffic}");
    }
    let outcome = match number {
        0 => RunOutcome::Spent,
        _ => match Ending::from_number(number) {
            Ending::Halted => RunOutcome::Halted,
            Ending::Stopped(stop) => RunOutcome::Stopped(stop),
            Ending::Refused(refusal) => return Err(refusal),
        },
    };
    Ok(Run { outcome, steps, traffic })
}
