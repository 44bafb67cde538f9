//! Instructions and their 16-bit encodings.

use crate::refusal::{Refusal, BAD_FIELDS};

/// One instruction with its encoded fields, unscaled and unsigned.
///
/// Registers of the immediate, arithmetic and transfer forms are 0 to 7; those of the `High`
/// forms are 0 to 15, the H bits joined to the register fields.
#[derive(Clone, Copy, Debug, PartialEq, Eq, Hash)]
#[allow(missing_docs)] // The fields are described above, once for all variants.
pub enum Instruction {
    /// Move an immediate into a register.
    MovImm { rd: u8, imm: u8 },
    /// Compare a register with an immediate.
    CmpImm { rd: u8, imm: u8 },
    /// Bitwise and.
    And { rs: u8, rd: u8 },
    /// Bitwise exclusive or.
    Eor { rs: u8, rd: u8 },
    /// Arithmetic shift right of `rd` by `rs`.
    Asr { rs: u8, rd: u8 },
    /// Flags of the bitwise and.
    Tst { rs: u8, rd: u8 },
    /// Negation of `rs` into `rd`.
    Neg { rs: u8, rd: u8 },
    /// Compare two low registers.
    Cmp { rs: u8, rd: u8 },
    /// Add any two registers.
    AddHigh { rs: u8, rd: u8 },
    /// Compare two registers, at least one of them 8 or higher.
    CmpHigh { rs: u8, rd: u8 },
    /// Move between any two registers.
    MovHigh { rs: u8, rd: u8 },
    /// Store a halfword at `rb` + 4 * `offset`.
    Str { offset: u8, rb: u8, rd: u8 },
    /// Load a halfword from `rb` + 4 * `offset`.
    Ldr { offset: u8, rb: u8, rd: u8 },
    /// Store a byte at `rb` + `offset`.
    Strb { offset: u8, rb: u8, rd: u8 },
    /// Load a byte from `rb` + `offset`.
    Ldrb { offset: u8, rb: u8, rd: u8 },
    /// Add 4 * `imm` to the word-aligned PC.
    AddPc { rd: u8, imm: u8 },
    /// Branch by a signed count of halfwords if condition `cond` (0 to 13) holds.
    Branch { cond: u8, offset: u8 },
    /// Stop executing, for a reason that any byte may note.
    Halt { note: u8 },
}

/// Highest branch condition that has a meaning.
pub const LAST_CONDITION: u8 = 13;

use Instruction::*;

/// Takes a halfword apart. `None` if it is undefined.
pub const fn decode(halfword: u16) -> Option<Instruction> {
    match halfword >> 12 {
        0b0000 if bits(halfword, 8, 4) == 0 => Some(Halt { note: bits(halfword, 0, 8) }),
        0b0010 => Some(decode_immediate(halfword)),
        0b0100 => decode_registers(halfword),
        0b0110 | 0b0111 => Some(decode_transfer(halfword)),
        0b1010 if bits(halfword, 11, 1) == 0 => Some(decode_add_pc(halfword)),
        0b1101 => decode_branch(halfword),
        _ => None,
    }
}

/// The same answer as [`decode`], looked up: for loops in which a chain of decisions for each
/// halfword would be felt.
#[inline(always)]
pub fn lookup(halfword: u16) -> Option<Instruction> {
    DECODED[usize::from(halfword)]
}

static DECODED: [Option<Instruction>; 65_536] = decode_all();

#[allow(long_running_const_eval)] // A fixed 65,536 rounds.
const fn decode_all() -> [Option<Instruction>; 65_536] {
    let mut table = [None; 65_536];
    let mut halfword = 0;
    while halfword < table.len() {
        table[halfword] = decode(halfword as u16);
        halfword += 1;
    }
    table
}

/// The field of `width` bits that starts at bit `low`.
const fn bits(halfword: u16, low: u32, width: u32) -> u8 {
    ((halfword >> low) & ((1 << width) - 1)) as u8
}

const fn decode_immediate(halfword: u16) -> Instruction {
    let rd = bits(halfword, 8, 3);
    let imm = bits(halfword, 0, 8);
    if bits(halfword, 11, 1) == 0 {
        MovImm { rd, imm }
    } else {
        CmpImm { rd, imm }
    }
}

const fn decode_registers(halfword: u16) -> Option<Instruction> {
    match bits(halfword, 10, 2) {
        0b00 => decode_low(halfword),
        0b01 => decode_high(halfword),
        _ => None,
    }
}

const fn decode_low(halfword: u16) -> Option<Instruction> {
    let rs = bits(halfword, 3, 3);
    let rd = bits(halfword, 0, 3);
    match bits(halfword, 6, 4) {
        0 => Some(And { rs, rd }),
        1 => Some(Eor { rs, rd }),
        2 => Some(Asr { rs, rd }),
        3 => Some(Tst { rs, rd }),
        4 => Some(Neg { rs, rd }),
        5 => Some(Cmp { rs, rd }),
        _ => None,
    }
}

const fn decode_high(halfword: u16) -> Option<Instruction> {
    let rs = bits(halfword, 3, 4); // H2 stands right above Rs.
    let rd = bits(halfword, 7, 1) << 3 | bits(halfword, 0, 3);
    match bits(halfword, 8, 2) {
        0 => Some(AddHigh { rs, rd }),
        1 if is_high(rs) || is_high(rd) => Some(CmpHigh { rs, rd }),
        2 => Some(MovHigh { rs, rd }),
        _ => None,
    }
}

const fn decode_transfer(halfword: u16) -> Instruction {
    let offset = bits(halfword, 6, 5);
    let rb = bits(halfword, 3, 3);
    let rd = bits(halfword, 0, 3);
    match bits(halfword, 11, 2) {
        0b00 => Str { offset, rb, rd },
        0b01 => Ldr { offset, rb, rd },
        0b10 => Strb { offset, rb, rd },
        _ => Ldrb { offset, rb, rd },
    }
}

const fn decode_add_pc(halfword: u16) -> Instruction {
    AddPc { rd: bits(halfword, 8, 3), imm: bits(halfword, 0, 8) }
}

const fn decode_branch(halfword: u16) -> Option<Instruction> {
    let cond = bits(halfword, 8, 4);
    let offset = bits(halfword, 0, 8);
    if cond > LAST_CONDITION {
        return None;
    }
    Some(Branch { cond, offset })
}

/// Puts an instruction together. Refused by check 17 if its fields form no defined instruction.
pub const fn encode(instruction: Instruction) -> Result<u16, Refusal> {
    match try_encode(instruction) {
        Some(halfword) => Ok(halfword),
        None => Err(Refusal::of(BAD_FIELDS)),
    }
}

const fn try_encode(instruction: Instruction) -> Option<u16> {
    match instruction {
        MovImm { rd, imm } => encode_immediate(0b00100, rd, imm),
        CmpImm { rd, imm } => encode_immediate(0b00101, rd, imm),
        And { rs, rd } => encode_low(0, rs, rd),
        Eor { rs, rd } => encode_low(1, rs, rd),
        Asr { rs, rd } => encode_low(2, rs, rd),
        Tst { rs, rd } => encode_low(3, rs, rd),
        Neg { rs, rd } => encode_low(4, rs, rd),
        Cmp { rs, rd } => encode_low(5, rs, rd),
        AddHigh { rs, rd } => encode_high(0, rs, rd),
        CmpHigh { rs, rd } if is_high(rs) || is_high(rd) => encode_high(1, rs, rd),
        CmpHigh { .. } => None,
        MovHigh { rs, rd } => encode_high(2, rs, rd),
        Str { offset, rb, rd } => encode_transfer(0b00, offset, rb, rd),
        Ldr { offset, rb, rd } => encode_transfer(0b01, offset, rb, rd),
        Strb { offset, rb, rd } => encode_transfer(0b10, offset, rb, rd),
        Ldrb { offset, rb, rd } => encode_transfer(0b11, offset, rb, rd),
        AddPc { rd, imm } => encode_immediate(0b10100, rd, imm),
        Branch { cond, offset } => encode_branch(cond, offset),
        Halt { note } => Some(note as u16),
    }
}

/// `prefix` is bits 15 to 11.
const fn encode_immediate(prefix: u16, rd: u8, imm: u8) -> Option<u16> {
    if is_high(rd) {
        return None;
    }
    Some(prefix << 11 | (rd as u16) << 8 | imm as u16)
}

const fn encode_low(operation: u16, rs: u8, rd: u8) -> Option<u16> {
    if is_high(rs) || is_high(rd) {
        return None;
    }
    Some(0b010000 << 10 | operation << 6 | (rs as u16) << 3 | rd as u16)
}

const fn encode_high(operation: u16, rs: u8, rd: u8) -> Option<u16> {
    if rs > 15 || rd > 15 {
        return None;
    }
    let h1 = (rd >> 3) as u16;
    let low_rd = (rd & 7) as u16;
    Some(0b010001 << 10 | operation << 8 | h1 << 7 | (rs as u16) << 3 | low_rd)
}

/// `kind` is B and L, bits 12 and 11.
const fn encode_transfer(kind: u16, offset: u8, rb: u8, rd: u8) -> Option<u16> {
    if offset > 31 || is_high(rb) || is_high(rd) {
        return None;
    }
    Some(0b011 << 13 | kind << 11 | (offset as u16) << 6 | (rb as u16) << 3 | rd as u16)
}

const fn encode_branch(cond: u8, offset: u8) -> Option<u16> {
    if cond > LAST_CONDITION {
        return None;
    }
    Some(0b1101 << 12 | (cond as u16) << 8 | offset as u16)
}

/// Whether a register number needs more than three bits.
const fn is_high(register: u8) -> bool {
    register > 7
}

/// Where a branch at byte address `pc` with raw offset `offset` goes when taken.
pub const fn branch_target(pc: u16, offset: u8) -> u16 {
    let halfwords = offset as i8 as i16;
    pc.wrapping_add((2 * halfwords) as u16)
}

/// What ADD Rd, PC at byte address `pc` puts in its register.
pub const fn pc_relative(pc: u16, imm: u8) -> u16 {
    (pc & !3).wrapping_add(4 * imm as u16)
}
