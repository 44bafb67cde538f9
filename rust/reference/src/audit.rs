//! Watches a run of an accepted program and reports the first thing it should not do.
//!
//! It looks at the machine before the first step and again behind each step that completes, also
//! behind the one with which the budget runs out.

use crate::cpu::{self, Machine, RunOutcome, RunResult, StepOutcome, MEMORY_BYTES, PC};
use crate::image::halfword;
use crate::instruction::{decode, Instruction};
use crate::program::Program;
use crate::traffic::Touched;

/// Runs a program on this crate's cpu for at most `budget` steps. The machine starts at address 0
/// and the memory holds the code.
pub fn audit(
    program: &Program,
    machine: &mut Machine,
    memory: &mut [u8],
    budget: u32,
) -> Result<RunResult, String> {
    audit_with(cpu::step, program, machine, memory, budget)
}

/// [`audit`] with any step function.
pub fn audit_with(
    mut step: impl FnMut(&mut Machine, &mut [u8]) -> StepOutcome,
    program: &Program,
    machine: &mut Machine,
    memory: &mut [u8],
    budget: u32,
) -> Result<RunResult, String> {
    let limits = Limits::new(program);
    check_start(program, machine, memory)?;
    let original = memory.to_vec();
    let (mut count, mut touched) = (0, Touched::NoData);
    loop {
        let instruction = limits
            .check_state(machine, memory)
            .map_err(|what| format!("after {count} steps: {what}"))?;
        if count == budget {
            return Ok(RunResult { outcome: RunOutcome::Spent, count, touched });
        }
        let due = expected(instruction, machine);
        let got = (step(machine, memory), machine.note);
        limits
            .check_unchanged(&original, memory)
            .map_err(|what| format!("in step {count}: {what}"))?;
        if got != due {
            return Err(format!("after {count} steps: {instruction:?} gives {got:?}, not {due:?}"));
        }
        // What is due is either a completed step or HALT.
        let StepOutcome::Completed(data) = got.0 else {
            return Ok(RunResult { outcome: RunOutcome::Halted, count, touched });
        };
        touched = data;
        count += 1;
    }
}

/// What a step of an accepted program answers, and the note after it: HALT ends the run and leaves
/// its own, and any other instruction is completed, tells its data and leaves the note from before.
fn expected(instruction: Instruction, before: &Machine) -> (StepOutcome, u8) {
    match instruction {
        Instruction::Halt { note } => (StepOutcome::Halted, note),
        _ => (StepOutcome::Completed(data_access(before, instruction)), before.note),
    }
}

/// What must hold before a run, or its audit says nothing.
fn check_start(program: &Program, machine: &Machine, memory: &[u8]) -> Result<(), String> {
    if memory.len() != MEMORY_BYTES {
        return Err(format!("the memory has {} bytes", memory.len()));
    }
    if machine.regs[PC] != 0 {
        return Err(format!("the run starts at {}", machine.regs[PC]));
    }
    let held = (0..program.code.len()).all(|i| halfword(memory, i) == program.code[i]);
    if !held {
        return Err("the memory does not hold the code".to_string());
    }
    Ok(())
}

/// Ends of code and window, in bytes.
struct Limits {
    code_end: usize,
    window_start: usize,
    window_end: usize,
}

impl Limits {
    fn new(program: &Program) -> Self {
        let window_start = usize::from(program.w);
        Limits {
            code_end: 2 * program.code.len(),
            window_start,
            window_end: window_start + usize::from(program.l),
        }
    }

    /// Examines the fetch and the data access due in this state. Answers the instruction.
    fn check_state(&self, machine: &Machine, memory: &[u8]) -> Result<Instruction, String> {
        let pc = usize::from(machine.regs[PC]);
        if pc % 2 != 0 {
            return Err(format!("odd fetch at {pc}"));
        }
        if pc + 2 > self.code_end {
            return Err(format!("fetch outside the code at {pc}"));
        }
        let Some(instruction) = decode(halfword(memory, pc / 2)) else {
            return Err(format!("undefined instruction at {pc}"));
        };
        self.check_access(machine, instruction)
            .map_err(|what| format!("{what} by {instruction:?} at {pc}"))?;
        Ok(instruction)
    }

    fn check_access(&self, machine: &Machine, instruction: Instruction) -> Result<(), String> {
        let (address, size) = match data_access(machine, instruction) {
            Touched::NoData => return Ok(()),
            Touched::Read { address, bytes } | Touched::Wrote { address, bytes } => {
                (usize::from(address), usize::from(bytes))
            }
        };
        if size == 2 && address % 4 != 0 {
            return Err(format!("misaligned access to {address}"));
        }
        if address < self.window_start || address + size > self.window_end {
            return Err(format!("access outside the window to {address}"));
        }
        Ok(())
    }

    fn check_unchanged(&self, original: &[u8], memory: &[u8]) -> Result<(), String> {
        let (start, end) = (self.window_start, self.window_end);
        if original[..start] == memory[..start] && original[end..] == memory[end..] {
            return Ok(());
        }
        let outside = (0..start).chain(end..original.len());
        let changed: Vec<usize> = outside.filter(|&i| original[i] != memory[i]).collect();
        Err(format!("bytes outside the window changed: {changed:?}"))
    }
}

/// The data that an instruction loads or stores, unless it is stopped.
fn data_access(machine: &Machine, instruction: Instruction) -> Touched {
    use Instruction::*;
    let (rb, offset, bytes) = match instruction {
        Str { offset, rb, .. } | Ldr { offset, rb, .. } => (rb, 4 * u16::from(offset), 2),
        Strb { offset, rb, .. } | Ldrb { offset, rb, .. } => (rb, u16::from(offset), 1),
        _ => return Touched::NoData,
    };
    let address = machine.regs[usize::from(rb)].wrapping_add(offset);
    match instruction {
        Str { .. } | Strb { .. } => Touched::Wrote { address, bytes },
        _ => Touched::Read { address, bytes },
    }
}
