//! One line of a text: a label, or an instruction whose value or label is yet to be looked at.

use crate::instruction::Instruction;
use crate::source::value::Value;
use crate::source::words::{condition, is_low, label, low_register, register};

/// What a line says.
#[derive(Clone, Copy, Debug)]
pub enum Line<'a> {
    /// The definition of a label.
    Label(&'a str),
    /// An instruction.
    Instruction(Statement<'a>),
}

/// An instruction as it is written: its registers suit its form, but its value may be too large,
/// and its label may be far away or nowhere.
#[derive(Clone, Copy, Debug)]
pub enum Statement<'a> {
    /// Any form that has nothing but registers.
    Registers(Instruction),
    /// `MOV Rd, #imm`
    MovImm { rd: u8, imm: Value<'a> },
    /// `CMP Rd, #imm`
    CmpImm { rd: u8, imm: Value<'a> },
    /// `STR Rd, [Rb, #offset]`
    Str { rd: u8, rb: u8, offset: Value<'a> },
    /// `LDR Rd, [Rb, #offset]`
    Ldr { rd: u8, rb: u8, offset: Value<'a> },
    /// `STRB Rd, [Rb, #offset]`
    Strb { rd: u8, rb: u8, offset: Value<'a> },
    /// `LDRB Rd, [Rb, #offset]`
    Ldrb { rd: u8, rb: u8, offset: Value<'a> },
    /// `ADD Rd, PC, #offset`
    AddPc { rd: u8, offset: Value<'a> },
    /// `HALT #note`
    Halt { note: Value<'a> },
    /// `B`, the condition, and a label.
    Branch { cond: u8, label: &'a str },
}

/// Reads a line without its line feed. `None` if it is neither kind, or has a register that its
/// form does not hold.
pub fn read_line(line: &[u8]) -> Option<Line<'_>> {
    // All words are ASCII, so what is no UTF-8 is no line either.
    let text = std::str::from_utf8(line).ok()?;
    match text.strip_suffix(':') {
        Some(name) => label(name).map(Line::Label),
        None => read_statement(text).map(Line::Instruction),
    }
}

/// A space too many stays in a word, and one too few joins two: neither is a word of any form.
fn read_statement(text: &str) -> Option<Statement<'_>> {
    let (name, operands) = text.split_once(' ')?;
    let operands: Vec<&str> = operands.split(", ").collect();
    match operands[..] {
        [only] => read_one(name, only),
        [first, second] if second.starts_with('#') => read_immediate(name, first, second),
        [first, second] => read_registers(name, first, second),
        [first, "PC", third] => read_add_pc(name, first, third),
        [first, second, third] => read_transfer(name, first, second, third),
        _ => None,
    }
}

fn read_one<'a>(name: &str, operand: &'a str) -> Option<Statement<'a>> {
    if name == "HALT" {
        return Some(Statement::Halt { note: Value::read(operand)? });
    }
    let cond = condition(name.strip_prefix('B')?)?;
    Some(Statement::Branch { cond, label: label(operand)? })
}

fn read_immediate<'a>(name: &str, first: &str, second: &'a str) -> Option<Statement<'a>> {
    let rd = low_register(first)?;
    let imm = Value::read(second)?;
    match name {
        "MOV" => Some(Statement::MovImm { rd, imm }),
        "CMP" => Some(Statement::CmpImm { rd, imm }),
        _ => None,
    }
}

/// CMP has two forms, and the registers decide between them. ADD and MOV have one, for any two.
fn read_registers<'a>(name: &str, first: &str, second: &str) -> Option<Statement<'a>> {
    use Instruction::*;
    let (rd, rs) = (register(first)?, register(second)?);
    let low = is_low(rd) && is_low(rs);
    let instruction = match name {
        "AND" if low => And { rs, rd },
        "EOR" if low => Eor { rs, rd },
        "ASR" if low => Asr { rs, rd },
        "TST" if low => Tst { rs, rd },
        "NEG" if low => Neg { rs, rd },
        "CMP" if low => Cmp { rs, rd },
        "CMP" => CmpHigh { rs, rd },
        "ADD" => AddHigh { rs, rd },
        "MOV" => MovHigh { rs, rd },
        _ => return None,
    };
    Some(Statement::Registers(instruction))
}

fn read_add_pc<'a>(name: &str, first: &str, third: &'a str) -> Option<Statement<'a>> {
    let rd = low_register(first)?;
    let offset = Value::read(third)?;
    (name == "ADD").then_some(Statement::AddPc { rd, offset })
}

/// The comma within the brackets has parted them: one stands before the base, one behind the value.
fn read_transfer<'a>(
    name: &str,
    first: &str,
    second: &str,
    third: &'a str,
) -> Option<Statement<'a>> {
    let rd = low_register(first)?;
    let rb = low_register(second.strip_prefix('[')?)?;
    let offset = Value::read(third.strip_suffix(']')?)?;
    match name {
        "STR" => Some(Statement::Str { rd, rb, offset }),
        "LDR" => Some(Statement::Ldr { rd, rb, offset }),
        "STRB" => Some(Statement::Strb { rd, rb, offset }),
        "LDRB" => Some(Statement::Ldrb { rd, rb, offset }),
        _ => None,
    }
}
