//! The lister: from code to text.

use std::collections::HashSet;

use crate::image::MAX_CODE;
use crate::instruction::{branch_target, decode, Instruction};
use crate::refusal::{Refusal, BRANCH_TARGET, CODE_LENGTH, OUTPUT_LENGTH, UNDEFINED};
use crate::source::words::condition_name;

/// Puts checks 15, 9 and 13, and 16 to code and an output of `room` bytes. Code that passes gives
/// its text, which is what such an output then starts with.
pub fn list(code: &[u16], room: usize) -> Result<Vec<u8>, Refusal> {
    if !(1..=MAX_CODE).contains(&code.len()) {
        return Err(Refusal::of(CODE_LENGTH));
    }
    let text = write(&check_all(code)?);
    if room < text.len() {
        return Err(Refusal::of(OUTPUT_LENGTH));
    }
    Ok(text.into_bytes())
}

/// An instruction, and the byte address at which it stands.
struct Placed {
    address: u16,
    instruction: Instruction,
}

impl Placed {
    /// Where it branches to, if it is a branch.
    fn target(&self) -> Option<u16> {
        match self.instruction {
            Instruction::Branch { offset, .. } => Some(branch_target(self.address, offset)),
            _ => None,
        }
    }
}

/// Checks 9 and 13, both put to an instruction before the next one is looked at.
fn check_all(code: &[u16]) -> Result<Vec<Placed>, Refusal> {
    let addresses = (0..).step_by(2);
    let check = |(&halfword, address)| check_one(halfword, address, 2 * code.len());
    code.iter().zip(addresses).map(check).collect()
}

fn check_one(halfword: u16, address: u16, code_bytes: usize) -> Result<Placed, Refusal> {
    let instruction = decode(halfword).ok_or(Refusal::at(UNDEFINED, address))?;
    let placed = Placed { address, instruction };
    match placed.target() {
        Some(target) if usize::from(target) >= code_bytes => {
            Err(Refusal::at(BRANCH_TARGET, address))
        }
        _ => Ok(placed),
    }
}

fn write(instructions: &[Placed]) -> String {
    let targets: HashSet<u16> = instructions.iter().filter_map(Placed::target).collect();
    let mut text = String::new();
    for placed in instructions {
        if targets.contains(&placed.address) {
            text += &format!("{}:\n", label(placed.address));
        }
        text += &written(placed);
        text += "\n";
    }
    text
}

/// The name of the label at a byte address.
fn label(address: u16) -> String {
    format!("a{address}")
}

fn written(placed: &Placed) -> String {
    use Instruction::*;
    match placed.instruction {
        MovImm { rd, imm } => format!("MOV R{rd}, #{imm}"),
        CmpImm { rd, imm } => format!("CMP R{rd}, #{imm}"),
        And { rs, rd } => format!("AND R{rd}, R{rs}"),
        Eor { rs, rd } => format!("EOR R{rd}, R{rs}"),
        Asr { rs, rd } => format!("ASR R{rd}, R{rs}"),
        Tst { rs, rd } => format!("TST R{rd}, R{rs}"),
        Neg { rs, rd } => format!("NEG R{rd}, R{rs}"),
        Cmp { rs, rd } | CmpHigh { rs, rd } => format!("CMP R{rd}, R{rs}"),
        AddHigh { rs, rd } => format!("ADD R{rd}, R{rs}"),
        MovHigh { rs, rd } => format!("MOV R{rd}, R{rs}"),
        Str { offset, rb, rd } => format!("STR R{rd}, [R{rb}, #{}]", 4 * u16::from(offset)),
        Ldr { offset, rb, rd } => format!("LDR R{rd}, [R{rb}, #{}]", 4 * u16::from(offset)),
        Strb { offset, rb, rd } => format!("STRB R{rd}, [R{rb}, #{offset}]"),
        Ldrb { offset, rb, rd } => format!("LDRB R{rd}, [R{rb}, #{offset}]"),
        AddPc { rd, imm } => format!("ADD R{rd}, PC, #{}", 4 * u16::from(imm)),
        Branch { cond, offset } => {
            format!("B{} {}", condition_name(cond), label(branch_target(placed.address, offset)))
        }
        Halt { note } => format!("HALT #{note}"),
    }
}
