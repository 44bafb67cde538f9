//! Halfwords, instructions, machines and memories.

use crate::cpu::{Machine, MEMORY_BYTES, PC};
use crate::generate::Rng;
use crate::instruction::{decode, encode, Instruction, LAST_CONDITION};

/// Any halfword.
pub fn halfword(rng: &mut Rng) -> u16 {
    rng.u16()
}

/// A value near the places where carries, borrows, signs and addresses change.
pub fn edge_value(rng: &mut Rng) -> u16 {
    let edge = rng.pick(&[0u16, 0x00FF, 0x0100, 0x7FFF, 0x8000, 0xFF00, 0xFFFC]);
    edge.wrapping_add(rng.below(9) as u16).wrapping_sub(4)
}

/// A defined instruction, each kind equally often.
pub fn instruction(rng: &mut Rng) -> Instruction {
    let mut low = || rng.below(8) as u8;
    let (rs, rd) = (low(), low());
    let offset = rng.below(32) as u8;
    let cond = rng.below(usize::from(LAST_CONDITION) + 1) as u8;
    let (high_rs, high_rd) = (rng.below(16) as u8, rng.below(16) as u8);
    // CMP needs one of its registers high.
    let compared = if high_rs < 8 { high_rd | 8 } else { high_rd };
    let kind = rng.below(KINDS);
    match make(kind, rs, rd, offset, rng.u8()) {
        Instruction::AddHigh { .. } => Instruction::AddHigh { rs: high_rs, rd: high_rd },
        Instruction::CmpHigh { .. } => Instruction::CmpHigh { rs: high_rs, rd: compared },
        Instruction::MovHigh { .. } => Instruction::MovHigh { rs: high_rs, rd: high_rd },
        Instruction::Branch { offset, .. } => Instruction::Branch { cond, offset },
        other => other,
    }
}

/// An instruction whose fields may or may not be in range.
pub fn any_fields(rng: &mut Rng) -> Instruction {
    let mut field = || {
        let limit = rng.pick(&[8, 16, 32, 64, 256]);
        rng.below(limit) as u8
    };
    let (rs, rd, offset) = (field(), field(), field());
    let kind = rng.below(KINDS);
    make(kind, rs, rd, offset, rng.u8())
}

/// Number of kinds of instruction.
const KINDS: usize = 18;

/// The kind of instruction with a number, given its fields; `rs` serves as base register and as
/// condition, too.
fn make(kind: usize, rs: u8, rd: u8, offset: u8, imm: u8) -> Instruction {
    use Instruction::*;
    let rb = rs;
    match kind {
        0 => MovImm { rd, imm },
        1 => CmpImm { rd, imm },
        2 => And { rs, rd },
        3 => Eor { rs, rd },
        4 => Asr { rs, rd },
        5 => Tst { rs, rd },
        6 => Neg { rs, rd },
        7 => Cmp { rs, rd },
        8 => AddHigh { rs, rd },
        9 => CmpHigh { rs, rd },
        10 => MovHigh { rs, rd },
        11 => Str { offset, rb, rd },
        12 => Ldr { offset, rb, rd },
        13 => Strb { offset, rb, rd },
        14 => Ldrb { offset, rb, rd },
        15 => AddPc { rd, imm },
        16 => Branch { cond: rs, offset: imm },
        _ => Halt { note: imm },
    }
}

/// A halfword that is an instruction.
pub fn defined_halfword(rng: &mut Rng) -> u16 {
    encode(instruction(rng)).expect("generated fields are in range")
}

/// A halfword that is no instruction.
pub fn undefined_halfword(rng: &mut Rng) -> u16 {
    loop {
        let halfword = rng.u16();
        if decode(halfword).is_none() {
            return halfword;
        }
    }
}

/// Any machine; its program counter is seldom odd.
pub fn machine(rng: &mut Rng) -> Machine {
    let mut regs = [0; 16];
    for register in &mut regs {
        *register = match rng.below(4) {
            0 => edge_value(rng),
            1 => rng.u16() & !3,
            2 => rng.below(24) as u16, // Shift amounts that matter.
            _ => rng.u16(),
        };
    }
    if !rng.one_in(16) {
        regs[PC] &= !1;
    }
    Machine { regs, n: rng.flip(), z: rng.flip(), c: rng.flip(), v: rng.flip(), note: rng.u8() }
}

/// Any machine with its program counter at 0.
pub fn start(rng: &mut Rng) -> Machine {
    let mut machine = machine(rng);
    machine.regs[PC] = 0;
    machine
}

/// A memory of random bytes.
pub fn memory(rng: &mut Rng) -> Vec<u8> {
    let mut memory = Vec::with_capacity(MEMORY_BYTES);
    while memory.len() < MEMORY_BYTES {
        memory.extend(rng.next_u64().to_le_bytes());
    }
    memory
}

/// A memory of defined instructions. HALT, and accesses that are likely to be misaligned, are
/// rare, so that a run goes on for long.
pub fn executable_memory(rng: &mut Rng) -> Vec<u8> {
    let halfwords = MEMORY_BYTES / 2;
    (0..halfwords).flat_map(|_| lasting_halfword(rng).to_le_bytes()).collect()
}

fn lasting_halfword(rng: &mut Rng) -> u16 {
    use Instruction::{Halt, Ldr, Str};
    let first = instruction(rng);
    let chosen = match first {
        Halt { .. } | Ldr { .. } | Str { .. } if !rng.one_in(16) => {
            Instruction::And { rs: 0, rd: 1 }
        }
        kept => kept,
    };
    encode(chosen).expect("generated fields are in range")
}
