//! The bench table: results anyone can compare an engine with, computed by this one.

use crate::cpu::{step, Machine, MEMORY_BYTES};
use crate::image::{halfword, pack_file, BLOCK_BYTES, SUM_FIELD};
use crate::instruction::{decode, encode, Instruction};
use crate::loader::place_code;
use crate::program::Program;
use crate::verifier::verify_code;

/// Date of the manual that the engine follows.
pub const MANUAL_DATE: &str = "20 September 2015";

/// The table's program P: masks R0, adds 256 and stores R1 there.
pub const SAMPLE: [u16; 7] = [0x21FC, 0x4008, 0x2280, 0x4412, 0x4410, 0x6001, 0x0000];

/// Start of the window of [`SAMPLE`].
pub const SAMPLE_WINDOW: u16 = 256;

/// A branch to the instruction before it, if the last result was 0.
const BRANCH_BACK: u16 = 0xD0FF;
/// MOV R15, R0.
const MOVE_TO_PC: u16 = 0x4687;

/// One line of the table.
#[derive(Clone, Debug, PartialEq, Eq)]
pub struct Row {
    /// What is asked.
    pub what: &'static str,
    /// What the engine answers.
    pub result: String,
}

/// The rows that are tested rather than proved, and the two totals.
pub fn rows() -> Vec<Row> {
    let row = |what, result| Row { what, result };
    vec![
        row("ASR of 0x4000 by 15", shift(0x4000, 15)),
        row("verifying 0xD0FF at address 0", answer(&[BRANCH_BACK, 0], 256)),
        row("verifying P with first halfword 0x21FD and l 256", answer(&with_odd_mask(), 256)),
        row("verifying P with 0xD0FF before its HALT", answer(&with_branch_back(), 256)),
        row("verifying P with 0x4687 in front", answer(&with_move_to_pc(), 256)),
        row("packing P with l 256", packing(256)),
        row("verifying P with l 256", answer(&SAMPLE, 256)),
        row("verifying P with l 252", answer(&SAMPLE, 252)),
        row("defined halfwords", defined_halfwords().to_string()),
        row(
            "fit codes of two instructions, the second 0x0000",
            fit_pairs(SAMPLE_WINDOW, 256).to_string(),
        ),
    ]
}

fn with_odd_mask() -> Vec<u16> {
    let mut code = SAMPLE.to_vec();
    code[0] = 0x21FD;
    code
}

fn with_branch_back() -> Vec<u16> {
    let mut code = SAMPLE.to_vec();
    code.insert(SAMPLE.len() - 1, BRANCH_BACK);
    code
}

fn with_move_to_pc() -> Vec<u16> {
    let mut code = SAMPLE.to_vec();
    code.insert(0, MOVE_TO_PC);
    code
}

/// The verifier's answer to code whose window starts at 256, as the program `judge` prints it.
fn answer(code: &[u16], l: u16) -> String {
    let program = Program { code: code.to_vec(), w: SAMPLE_WINDOW, l };
    match program.verify() {
        Ok(layout) => layout.to_string(),
        Err(refusal) => refusal.to_string(),
    }
}

/// Executes ASR R0, R1 and tells R0, Z and C.
fn shift(value: u16, amount: u16) -> String {
    let asr = encode(Instruction::Asr { rs: 1, rd: 0 }).expect("low registers");
    let mut memory = vec![0; MEMORY_BYTES];
    place_code(&[asr], &mut memory);
    let mut machine = Machine::default();
    machine.regs[0] = value;
    machine.regs[1] = amount;
    step(&mut machine, &mut memory);
    let Machine { regs, z, c, .. } = machine;
    format!("{} Z{} C{}", regs[0], u8::from(z), u8::from(c))
}

/// Packs [`SAMPLE`] and tells the number of blocks and the last halfword.
fn packing(l: u16) -> String {
    match pack_file(&SAMPLE, SAMPLE_WINDOW, l) {
        Ok(file) => {
            let blocks = file.len() / BLOCK_BYTES;
            format!("{blocks} block, last halfword {:#06X}", halfword(&file, SUM_FIELD))
        }
        Err(refusal) => refusal.to_string(),
    }
}

/// How many halfwords are defined.
pub fn defined_halfwords() -> usize {
    (0..=u16::MAX).filter(|&halfword| decode(halfword).is_some()).count()
}

/// How many codes of one instruction and 0x0000, which is but one of the HALTs, are fit beside a
/// window that passes check 8.
pub fn fit_pairs(w: u16, l: u16) -> usize {
    (0..=u16::MAX).filter(|&first| verify_code(&[first, 0], w, l).is_ok()).count()
}
