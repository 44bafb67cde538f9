//! What the tests share: how much to do, buffers to lend, and both engines side by side.

use std::ops::{Deref, DerefMut};

use reference::cpu::{Machine, PC, RunOutcome, RunResult, StepOutcome};
use reference::generate::Rng;
use reference::image::Layout;
use reference::refusal::{Refusal, SourceRefusal};
use reference::traffic::Touched;

/// Whether `PAW_LONG=1` asks for long tests.
pub fn long() -> bool {
    std::env::var_os("PAW_LONG").is_some_and(|value| value == "1")
}

/// Rounds of a random test: many more of a long one.
pub fn rounds(usual: usize) -> usize {
    usual * if long() { 20 } else { 1 }
}

/// Any machine, made in a fraction of the time of `generate::machine`, since the tests of single
/// steps need tens of millions: a quarter of the registers each is anything, aligned, a small
/// number, or near a place where carries, borrows, signs and addresses change.
pub fn quick_machine(rng: &mut Rng) -> Machine {
    const EDGES: [u16; 8] = [0, 0x00FF, 0x0100, 0x4000, 0x7FFF, 0x8000, 0xFF00, 0xFFFC];
    const MASKS: [u16; 4] = [0xFFFF, 0xFFFC, 0x001F, 0];
    let mut regs = [0; 16];
    let shapes = rng.next_u64();
    for (index, four) in regs.chunks_exact_mut(4).enumerate() {
        let bits = rng.next_u64();
        for (place, register) in four.iter_mut().enumerate() {
            let value = (bits >> (16 * place)) as u16;
            let shape = (shapes >> (8 * index + 2 * place)) as usize % 4;
            let near = EDGES[usize::from(value >> 13)].wrapping_add(value & 15).wrapping_sub(8);
            *register = if shape == 3 { near } else { value & MASKS[shape] };
        }
    }
    let flag = |bit: u32| shapes >> bit & 1 != 0;
    // One in 32 may be odd.
    if shapes >> 32 & 31 != 0 {
        regs[PC] &= !1;
    }
    let note = (shapes >> 40) as u8;
    Machine { regs, n: flag(60), z: flag(61), c: flag(62), v: flag(63), note }
}

/// Values around powers of two, zero and all ones: where carries, borrows and signs change.
pub fn edges() -> Vec<u16> {
    let powers = (0..16).map(|bit| 1u16 << bit);
    let near = |power: u16| [power.wrapping_sub(1), power, power.wrapping_add(1)];
    let low = powers.flat_map(near);
    let high = low.clone().map(|value| value.wrapping_neg());
    low.chain(high).collect()
}

/// A buffer to lend to the library, between guard bytes that no call may change. It begins at an
/// odd address, so nothing may count on alignment either.
pub struct Guarded {
    bytes: Vec<u8>,
}

const GUARD: usize = 65;
const GUARD_BYTE: u8 = 0xA7;

impl Guarded {
    pub fn new(content: &[u8]) -> Self {
        let guard = [GUARD_BYTE; GUARD];
        Guarded { bytes: [&guard, content, &guard].concat() }
    }

    pub fn assert_guards(&self) {
        let (before, rest) = self.bytes.split_at(GUARD);
        let after = &rest[rest.len() - GUARD..];
        assert_eq!([before, after], [[GUARD_BYTE; GUARD]; 2], "bytes that were not lent changed");
    }
}

impl Deref for Guarded {
    type Target = [u8];

    fn deref(&self) -> &[u8] {
        &self.bytes[GUARD..self.bytes.len() - GUARD]
    }
}

impl DerefMut for Guarded {
    fn deref_mut(&mut self) -> &mut [u8] {
        let end = self.bytes.len() - GUARD;
        &mut self.bytes[GUARD..end]
    }
}

/// A library's refusal as the reference writes it.
pub fn refusal(refusal: paw::Refusal) -> Refusal {
    Refusal { number: refusal.number(), place: refusal.place_number() }
}

/// A library's refusal of a text as the reference writes it.
pub fn source_refusal(refusal: paw::SourceRefusal) -> SourceRefusal {
    SourceRefusal { number: refusal.number(), line: refusal.line_number() }
}

/// A library's answer to a file as the reference writes it.
pub fn answer(answer: Result<paw::Layout, paw::Refusal>) -> Result<Layout, Refusal> {
    match answer {
        Ok(paw::Layout { c, w, l }) => Ok(Layout { c, w, l }),
        Err(refused) => Err(refusal(refused)),
    }
}

/// A library's traffic as the reference writes it.
pub fn touched(traffic: paw::Traffic) -> Touched {
    match traffic {
        paw::Traffic::NoData => Touched::NoData,
        paw::Traffic::ReadByte(address) => Touched::Read { address, bytes: 1 },
        paw::Traffic::ReadHalfword(address) => Touched::Read { address, bytes: 2 },
        paw::Traffic::WroteByte(address) => Touched::Wrote { address, bytes: 1 },
        paw::Traffic::WroteHalfword(address) => Touched::Wrote { address, bytes: 2 },
    }
}

/// The number that an answer carries, 0 for a pass.
pub fn number<T>(answer: &Result<T, Refusal>) -> usize {
    match answer {
        Ok(_) => 0,
        Err(refusal) => refusal.number.into(),
    }
}

pub fn library_machine(machine: &Machine) -> paw::Machine {
    let Machine { regs, n, z, c, v, note } = *machine;
    paw::Machine { regs, n, z, c, v, note }
}

pub fn reference_machine(machine: &paw::Machine) -> Machine {
    let paw::Machine { regs, n, z, c, v, note } = *machine;
    Machine { regs, n, z, c, v, note }
}

/// A step by the library on a reference machine.
pub fn library_step(machine: &mut Machine, memory: &mut [u8]) -> StepOutcome {
    let mut record = library_machine(machine);
    let outcome = paw::step(&mut record, memory);
    *machine = reference_machine(&record);
    match outcome {
        Ok(paw::StepOutcome::Completed(traffic)) => StepOutcome::Completed(touched(traffic)),
        Ok(paw::StepOutcome::Halted) => StepOutcome::Halted,
        Ok(paw::StepOutcome::Stopped(stop)) => StepOutcome::Stopped(stop.number()),
        Err(refused) => StepOutcome::Refused(refusal(refused)),
    }
}

/// A run by the library on a reference machine.
pub fn library_run(machine: &mut Machine, memory: &mut [u8], budget: u32) -> RunResult {
    let mut record = library_machine(machine);
    let ended = paw::run(&mut record, memory, budget);
    *machine = reference_machine(&record);
    match ended {
        Ok(paw::Run { outcome, steps, traffic }) => {
            RunResult { outcome: run_outcome(outcome), count: steps, touched: touched(traffic) }
        }
        Err(refused) => without_data(RunOutcome::Refused(refusal(refused)), 0),
    }
}

/// A run whose last completed step, if there was one, touched no data.
pub const fn without_data(outcome: RunOutcome, count: u32) -> RunResult {
    RunResult { outcome, count, touched: Touched::NoData }
}

fn run_outcome(outcome: paw::RunOutcome) -> RunOutcome {
    match outcome {
        paw::RunOutcome::Spent => RunOutcome::Spent,
        paw::RunOutcome::Halted => RunOutcome::Halted,
        paw::RunOutcome::Stopped(stop) => RunOutcome::Stopped(stop.number()),
    }
}

/// Both engines, each with a memory of its own; the memories must stay alike.
pub struct Twins {
    pub library: Guarded,
    pub reference: Vec<u8>,
}

impl Twins {
    pub fn new(memory: &[u8]) -> Self {
        Twins { library: Guarded::new(memory), reference: memory.to_vec() }
    }

    /// One step of both from the same machine. Compares outcome, traffic, registers, flags and
    /// note.
    pub fn step(&mut self, machine: &mut Machine) -> StepOutcome {
        let before = *machine;
        let mut other = before;
        let outcome = library_step(&mut other, &mut self.library);
        let expected = reference::cpu::step(machine, &mut self.reference);
        assert_eq!(outcome, expected, "from {before:x?}");
        assert_eq!(other, *machine, "from {before:x?}");
        self.assert_note(outcome == StepOutcome::Halted, &before, &other);
        outcome
    }

    /// One run of both from the same machine. Compares outcome, count, traffic, registers, flags,
    /// note and every byte of memory.
    pub fn run(&mut self, machine: &mut Machine, budget: u32) -> RunResult {
        let before = *machine;
        let mut other = before;
        let ended = library_run(&mut other, &mut self.library, budget);
        let expected = reference::cpu::run(machine, &mut self.reference, budget);
        assert_eq!(ended, expected, "{budget} steps from {before:x?}");
        assert_eq!(other, *machine, "{budget} steps from {before:x?}");
        self.assert_note(ended.outcome == RunOutcome::Halted, &before, &other);
        self.assert_alike();
        ended
    }

    /// Asserts the note without asking an engine: after HALT, at which the program counter then is,
    /// it is the byte there, and after anything else the one from before.
    fn assert_note(&self, halted: bool, before: &Machine, after: &Machine) {
        let at_pc = self.library[usize::from(after.regs[PC])];
        let note = if halted { at_pc } else { before.note };
        assert_eq!(after.note, note, "the note after {before:x?}, halted: {halted}");
    }

    /// Compares every byte of the two memories, and the bytes around the library's.
    pub fn assert_alike(&self) {
        if self.library[..] != self.reference {
            let differs = |&at: &usize| self.library[at] != self.reference[at];
            let different: Vec<usize> = (0..self.reference.len()).filter(differs).collect();
            panic!("memories differ at {different:x?}");
        }
        self.library.assert_guards();
    }

    /// Writes a halfword into both memories.
    pub fn plant(&mut self, address: usize, halfword: u16) {
        for memory in [&mut self.library[..], &mut self.reference] {
            memory[address..address + 2].copy_from_slice(&halfword.to_le_bytes());
        }
    }
}
