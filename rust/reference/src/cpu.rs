//! The machine: one step, and a run with a budget of steps.

use crate::condition::holds_fast;
use crate::instruction::{branch_target, lookup, pc_relative, Instruction};
use crate::refusal::{Refusal, MEMORY_SIZE};
use crate::traffic::Touched;

/// Bytes in the address space.
pub const MEMORY_BYTES: usize = 65_536;

/// All of the memory a machine addresses.
pub type Memory = [u8; MEMORY_BYTES];

/// Index of the program counter among the registers.
pub const PC: usize = 15;

/// Stop: the program counter is odd.
pub const STOP_ODD_PC: u8 = 18;
/// Stop: the halfword at the program counter is undefined.
pub const STOP_UNDEFINED: u8 = 19;
/// Stop: a halfword access at an address that 4 does not divide.
pub const STOP_MISALIGNED: u8 = 20;

/// Registers, flags and note. R15 is the program counter.
#[derive(Clone, Copy, Debug, Default, PartialEq, Eq)]
pub struct Machine {
    /// R0 to R15.
    pub regs: [u16; 16],
    /// Negative: bit 15 of the last result.
    pub n: bool,
    /// Zero: the last result was 0.
    pub z: bool,
    /// Carry, absence of a borrow, or the last bit shifted out.
    pub c: bool,
    /// Signed overflow.
    pub v: bool,
    /// What the HALT that was last met has noted, or whatever stood here before. Nothing else
    /// changes it, and no instruction reads it.
    pub note: u8,
}

/// What became of one step.
#[derive(Clone, Copy, Debug, PartialEq, Eq)]
pub enum StepOutcome {
    /// One instruction was executed, and this is the data it touched.
    Completed(Touched),
    /// The program counter is at HALT; nothing changed but the note, which is now HALT's.
    Halted,
    /// Stop 18, 19 or 20; nothing changed.
    Stopped(u8),
    /// The memory has the wrong size; nothing changed.
    Refused(Refusal),
}

/// Why a run ended.
#[derive(Clone, Copy, Debug, PartialEq, Eq)]
pub enum RunOutcome {
    /// The budget is used up, whatever would have come next: a HALT there has noted nothing.
    Spent,
    /// The program counter is at HALT, whose note the machine now has.
    Halted,
    /// Stop 18, 19 or 20.
    Stopped(u8),
    /// The memory has the wrong size; nothing changed.
    Refused(Refusal),
}

/// The end of a run.
#[derive(Clone, Copy, Debug, PartialEq, Eq)]
pub struct RunResult {
    /// Why the run ended.
    pub outcome: RunOutcome,
    /// Steps completed.
    pub count: u32,
    /// The data that the last of them touched; no data if there was none.
    pub touched: Touched,
}

/// Executes the instruction at the program counter.
pub fn step(machine: &mut Machine, memory: &mut [u8]) -> StepOutcome {
    match <&mut Memory>::try_from(memory) {
        Ok(memory) => match execute_next(machine, memory, machine.regs[PC]) {
            Ok(done) => StepOutcome::Completed(done.touched),
            Err(Ending::Halt) => StepOutcome::Halted,
            Err(Ending::Stop(number)) => StepOutcome::Stopped(number),
        },
        Err(_) => StepOutcome::Refused(Refusal::of(MEMORY_SIZE)),
    }
}

/// Executes up to `budget` instructions.
pub fn run(machine: &mut Machine, memory: &mut [u8], budget: u32) -> RunResult {
    match <&mut Memory>::try_from(memory) {
        Ok(memory) => run_in(machine, memory, budget),
        Err(_) => ended(RunOutcome::Refused(Refusal::of(MEMORY_SIZE)), 0, Touched::NoData),
    }
}

fn run_in(machine: &mut Machine, memory: &mut Memory, budget: u32) -> RunResult {
    // The program counter is carried beside its register, so that a fetch need not wait for
    // the register file.
    let mut pc = machine.regs[PC];
    let mut touched = Touched::NoData;
    for count in 0..budget {
        match execute_next(machine, memory, pc) {
            Ok(done) => Completed { next: pc, touched } = done,
            Err(Ending::Halt) => return ended(RunOutcome::Halted, count, touched),
            Err(Ending::Stop(number)) => return ended(RunOutcome::Stopped(number), count, touched),
        }
    }
    ended(RunOutcome::Spent, budget, touched)
}

fn ended(outcome: RunOutcome, count: u32, touched: Touched) -> RunResult {
    RunResult { outcome, count, touched }
}

/// What a completed step leaves besides its effects.
struct Completed {
    /// The next value of R15.
    next: u16,
    touched: Touched,
}

impl Completed {
    #[inline(always)]
    fn without_data(next: u16) -> Self {
        Completed { next, touched: Touched::NoData }
    }
}

/// Why no step was completed.
enum Ending {
    Halt,
    Stop(u8),
}

/// Executes the instruction at `pc`, which is also the value of R15, and stores the next value of
/// R15. Every check comes before the first effect.
#[inline(always)]
fn execute_next(machine: &mut Machine, memory: &mut Memory, pc: u16) -> Result<Completed, Ending> {
    if !pc.is_multiple_of(2) {
        return Err(Ending::Stop(STOP_ODD_PC));
    }
    let Some(instruction) = lookup(load_halfword(memory, pc)) else {
        return Err(Ending::Stop(STOP_UNDEFINED));
    };
    let done = execute(machine, memory, pc, instruction)?;
    machine.regs[PC] = done.next;
    Ok(done)
}

/// Executes one instruction, but leaves it to the caller to store the next program counter.
#[inline(always)]
fn execute(
    machine: &mut Machine,
    memory: &mut Memory,
    pc: u16,
    instruction: Instruction,
) -> Result<Completed, Ending> {
    use Instruction::*;
    let next = pc.wrapping_add(2);
    match instruction {
        MovImm { rd, imm } => machine.set_result(rd, imm.into()),
        CmpImm { rd, imm } => {
            let left = machine.get(rd);
            machine.subtract(left, imm.into());
        }
        And { rs, rd } => machine.set_result(rd, machine.get(rd) & machine.get(rs)),
        Eor { rs, rd } => machine.set_result(rd, machine.get(rd) ^ machine.get(rs)),
        Asr { rs, rd } => machine.shift_right(rd, machine.get(rs) as u8),
        Tst { rs, rd } => machine.set_sign_and_zero(machine.get(rd) & machine.get(rs)),
        Neg { rs, rd } => {
            let difference = machine.subtract(0, machine.get(rs));
            machine.set(rd, difference);
        }
        Cmp { rs, rd } | CmpHigh { rs, rd } => {
            machine.subtract(machine.get(rd), machine.get(rs));
        }
        AddHigh { rs, rd } => {
            let sum = machine.add(machine.get(rd), machine.get(rs));
            return Ok(Completed::without_data(machine.set_or_jump(rd, sum, next)));
        }
        MovHigh { rs, rd } => {
            let value = machine.get(rs);
            machine.set_sign_and_zero(value);
            return Ok(Completed::without_data(machine.set_or_jump(rd, value, next)));
        }
        Str { offset, rb, rd } => {
            let address = machine.word_address(rb, offset)?;
            store_halfword(memory, address, machine.get(rd));
            return Ok(Completed { next, touched: Touched::Wrote { address, bytes: 2 } });
        }
        Ldr { offset, rb, rd } => {
            let address = machine.word_address(rb, offset)?;
            machine.set(rd, load_halfword(memory, address));
            return Ok(Completed { next, touched: Touched::Read { address, bytes: 2 } });
        }
        Strb { offset, rb, rd } => {
            let address = machine.byte_address(rb, offset);
            memory[usize::from(address)] = machine.get(rd) as u8;
            return Ok(Completed { next, touched: Touched::Wrote { address, bytes: 1 } });
        }
        Ldrb { offset, rb, rd } => {
            let address = machine.byte_address(rb, offset);
            machine.set(rd, memory[usize::from(address)].into());
            return Ok(Completed { next, touched: Touched::Read { address, bytes: 1 } });
        }
        AddPc { rd, imm } => machine.set(rd, pc_relative(pc, imm)),
        Branch { cond, offset } if machine.holds(cond) => {
            return Ok(Completed::without_data(branch_target(pc, offset)));
        }
        Branch { .. } => {}
        Halt { note } => {
            machine.note = note;
            return Err(Ending::Halt);
        }
    }
    Ok(Completed::without_data(next))
}

impl Machine {
    #[inline(always)]
    fn get(&self, register: u8) -> u16 {
        self.regs[usize::from(register & 15)]
    }

    #[inline(always)]
    fn set(&mut self, register: u8, value: u16) {
        self.regs[usize::from(register & 15)] = value;
    }

    /// Writes any register. Answers the next program counter, which is the value itself if the
    /// register is R15, and `next` otherwise.
    #[inline(always)]
    fn set_or_jump(&mut self, register: u8, value: u16, next: u16) -> u16 {
        self.set(register, value);
        if usize::from(register) == PC {
            value
        } else {
            next
        }
    }

    /// Writes a register and sets N and Z by the value.
    #[inline(always)]
    fn set_result(&mut self, register: u8, value: u16) {
        self.set(register, value);
        self.set_sign_and_zero(value);
    }

    #[inline(always)]
    fn set_sign_and_zero(&mut self, result: u16) {
        self.n = (result as i16) < 0;
        self.z = result == 0;
    }

    /// Sum of two values; sets all flags.
    #[inline(always)]
    fn add(&mut self, left: u16, right: u16) -> u16 {
        let (sum, carry) = left.overflowing_add(right);
        self.set_sign_and_zero(sum);
        self.c = carry;
        self.v = (left as i16).overflowing_add(right as i16).1;
        sum
    }

    /// Difference of two values; sets all flags. C tells that there was no borrow.
    #[inline(always)]
    fn subtract(&mut self, left: u16, right: u16) -> u16 {
        let (difference, borrow) = left.overflowing_sub(right);
        self.set_sign_and_zero(difference);
        self.c = !borrow;
        self.v = (left as i16).overflowing_sub(right as i16).1;
        difference
    }

    /// Arithmetic shift right; sets N and Z, and C unless nothing is shifted out.
    #[inline(always)]
    fn shift_right(&mut self, rd: u8, amount: u8) {
        let value = self.get(rd) as i16;
        if amount != 0 {
            // From 16 on, every bit is a copy of the sign, and so is the last one shifted out.
            let all_but_last = u32::from(amount - 1).min(15);
            let before_last = value >> all_but_last;
            self.c = before_last & 1 != 0;
            self.set(rd, (before_last >> 1) as u16);
        }
        self.set_sign_and_zero(self.get(rd));
    }

    #[inline(always)]
    fn byte_address(&self, rb: u8, offset: u8) -> u16 {
        self.get(rb).wrapping_add(offset.into())
    }

    #[inline(always)]
    fn word_address(&self, rb: u8, offset: u8) -> Result<u16, Ending> {
        let address = self.get(rb).wrapping_add(4 * u16::from(offset));
        if address.is_multiple_of(4) {
            Ok(address)
        } else {
            Err(Ending::Stop(STOP_MISALIGNED))
        }
    }

    #[inline(always)]
    fn holds(&self, cond: u8) -> bool {
        holds_fast(cond, self.n, self.z, self.c, self.v)
    }
}

/// Reads the halfword at `address`, low byte first.
#[inline(always)]
fn load_halfword(memory: &Memory, address: u16) -> u16 {
    let low = memory[usize::from(address)];
    let high = memory[usize::from(address.wrapping_add(1))];
    u16::from_le_bytes([low, high])
}

/// Writes the halfword at `address`, low byte first.
#[inline(always)]
fn store_halfword(memory: &mut Memory, address: u16, value: u16) {
    let [low, high] = value.to_le_bytes();
    memory[usize::from(address)] = low;
    memory[usize::from(address.wrapping_add(1))] = high;
}
