//! The assembler: from text to code.

use std::collections::HashMap;

use crate::image::MAX_CODE;
use crate::instruction::{encode, Instruction};
use crate::refusal::{
    SourceRefusal, CODE_LENGTH, OUTPUT_LENGTH, SOURCE_LABEL, SOURCE_LINE, SOURCE_VALUE,
};
use crate::source::line::{read_line, Line, Statement};
use crate::source::value::Value;

/// Puts checks 21, 15, 22 and 23, and 16 to a text and an output of `room` halfwords. A text that
/// passes gives its code, which is what such an output then starts with.
pub fn assemble(text: &[u8], room: usize) -> Result<Vec<u16>, SourceRefusal> {
    let lines = read_lines(text)?;
    check_length(&lines)?;
    let code = translate(&lines)?;
    if room < code.len() {
        return Err(SourceRefusal::of(OUTPUT_LENGTH));
    }
    Ok(code)
}

/// Check 21, put to every line before anything else is asked.
fn read_lines(text: &[u8]) -> Result<Vec<Line<'_>>, SourceRefusal> {
    // Each piece keeps its line feed, so that a last line without one is told from others.
    let pieces = text.split_inclusive(|&byte| byte == b'\n');
    pieces.zip(1..).map(|(piece, number)| read_piece(piece, number)).collect()
}

fn read_piece(piece: &[u8], number: u64) -> Result<Line<'_>, SourceRefusal> {
    let line = piece.strip_suffix(b"\n").and_then(read_line);
    line.ok_or(SourceRefusal::at(SOURCE_LINE, number))
}

/// Check 15. Labels are no instructions.
fn check_length(lines: &[Line]) -> Result<(), SourceRefusal> {
    let instructions = lines.iter().filter(|line| matches!(line, Line::Instruction(_))).count();
    if (1..=MAX_CODE).contains(&instructions) {
        Ok(())
    } else {
        Err(SourceRefusal::of(CODE_LENGTH))
    }
}

/// Where a label is defined for the first time, and the byte address that it then stands for.
struct Definition {
    line: u64,
    address: i32,
}

type Labels<'a> = HashMap<&'a str, Definition>;

/// The byte address of the instruction that comes behind `before` others. As check 15 has passed,
/// it is at most 31,872; it is signed so that addresses can be subtracted.
fn address_behind(before: usize) -> i32 {
    2 * before as i32
}

fn first_definitions<'a>(lines: &[Line<'a>]) -> Labels<'a> {
    let mut labels = Labels::new();
    let mut instructions = 0;
    for (line, number) in lines.iter().zip(1..) {
        match line {
            Line::Label(name) => {
                let here = Definition { line: number, address: address_behind(instructions) };
                labels.entry(name).or_insert(here);
            }
            Line::Instruction(_) => instructions += 1,
        }
    }
    labels
}

/// Checks 22 and 23, in one pass from the top. Answers the code.
fn translate(lines: &[Line]) -> Result<Vec<u16>, SourceRefusal> {
    let labels = first_definitions(lines);
    let mut code = Vec::new();
    for (line, number) in lines.iter().zip(1..) {
        match line {
            Line::Label(name) if labels[name].line == number => {}
            Line::Label(_) => return Err(SourceRefusal::at(SOURCE_LABEL, number)),
            Line::Instruction(statement) => {
                let instruction = complete(*statement, address_behind(code.len()), &labels)
                    .map_err(|check| SourceRefusal::at(check, number))?;
                code.push(encode(instruction).expect("each field was looked at"));
            }
        }
    }
    Ok(code)
}

/// The instruction that a statement at an address is, or the check that it fails.
fn complete(statement: Statement, address: i32, labels: &Labels) -> Result<Instruction, u8> {
    Ok(match statement {
        Statement::Registers(instruction) => instruction,
        Statement::MovImm { rd, imm } => Instruction::MovImm { rd, imm: byte(imm)? },
        Statement::CmpImm { rd, imm } => Instruction::CmpImm { rd, imm: byte(imm)? },
        Statement::Str { rd, rb, offset } => Instruction::Str { offset: fours(offset)?, rb, rd },
        Statement::Ldr { rd, rb, offset } => Instruction::Ldr { offset: fours(offset)?, rb, rd },
        Statement::Strb { rd, rb, offset } => Instruction::Strb { offset: ones(offset)?, rb, rd },
        Statement::Ldrb { rd, rb, offset } => Instruction::Ldrb { offset: ones(offset)?, rb, rd },
        Statement::AddPc { rd, offset } => Instruction::AddPc { rd, imm: many_fours(offset)? },
        Statement::Halt { note } => Instruction::Halt { note: byte(note)? },
        Statement::Branch { cond, label } => {
            let target = labels.get(label).ok_or(SOURCE_LABEL)?.address;
            Instruction::Branch { cond, offset: way(address, target)? }
        }
    })
}

/// 0 to 255, as it is.
fn byte(value: Value) -> Result<u8, u8> {
    value.in_field(1, 255).ok_or(SOURCE_VALUE)
}

/// 0 to 124 in a field of five bits that counts in fours.
fn fours(value: Value) -> Result<u8, u8> {
    value.in_field(4, 31).ok_or(SOURCE_VALUE)
}

/// 0 to 31, in a field of five bits.
fn ones(value: Value) -> Result<u8, u8> {
    value.in_field(1, 31).ok_or(SOURCE_VALUE)
}

/// 0 to 1,020 in a field of eight bits that counts in fours.
fn many_fours(value: Value) -> Result<u8, u8> {
    value.in_field(4, 255).ok_or(SOURCE_VALUE)
}

/// What a branch holds to go from one byte address to another.
fn way(from: i32, to: i32) -> Result<u8, u8> {
    let bytes = to - from;
    if (-256..=254).contains(&bytes) {
        Ok((bytes / 2) as i8 as u8)
    } else {
        Err(SOURCE_VALUE)
    }
}
