//! The verifier: decides whether an image can be run without harm.

use crate::domain::State;
use crate::image::{check, code, Layout, MAX_CODE};
use crate::instruction::{branch_target, lookup, Instruction};
use crate::refusal::{
    Refusal, BRANCH_TARGET, LAST_NOT_HALT, MISALIGNED, OUT_OF_WINDOW, UNDEFINED, WRITES_PC,
};

/// Puts checks 2 to 14 to an image file.
pub fn verify(file: &[u8]) -> Result<Layout, Refusal> {
    let layout = check(file)?;
    verify_code(&code(file), layout.w, layout.l)?;
    Ok(layout)
}

/// Puts checks 9 to 14 to code. The code is at most [`MAX_CODE`] halfwords long, and its window
/// passes check 8.
pub fn verify_code(code: &[u16], w: u16, l: u16) -> Result<(), Refusal> {
    debug_assert!(code.len() <= MAX_CODE);
    let bounds = Bounds::new(code, w, l);
    let targets = branch_targets(code);
    let mut state = State::UNKNOWN;
    for (number, &halfword) in code.iter().enumerate() {
        let address = byte_address(number);
        if targets[number] {
            // Control may come from elsewhere, with any values.
            state = State::UNKNOWN;
        }
        let instruction = lookup(halfword).ok_or(Refusal::at(UNDEFINED, address))?;
        if let Some(check) = bounds.failed_check(instruction, address, &state) {
            return Err(Refusal::at(check, address));
        }
        state.apply(instruction, address);
    }
    Ok(())
}

/// The byte address of an instruction, given its number.
fn byte_address(number: usize) -> u16 {
    (2 * number) as u16
}

/// For each instruction, whether some branch in the code goes to it.
fn branch_targets(code: &[u16]) -> Vec<bool> {
    let mut targets = vec![false; code.len()];
    for (number, &halfword) in code.iter().enumerate() {
        if let Some(Instruction::Branch { offset, .. }) = lookup(halfword) {
            let target = branch_target(byte_address(number), offset);
            if let Some(mark) = targets.get_mut(usize::from(target / 2)) {
                *mark = true;
            }
        }
    }
    targets
}

/// Where code and window end, in bytes, wide enough that no sum wraps.
struct Bounds {
    code_end: u32,
    last: u32,
    window_start: u32,
    window_end: u32,
}

/// What a load or store touches.
struct Access {
    rb: u8,
    offset: u32,
    size: u32,
}

impl Bounds {
    fn new(code: &[u16], w: u16, l: u16) -> Self {
        let code_end = 2 * code.len() as u32;
        Bounds {
            code_end,
            last: code_end.saturating_sub(2),
            window_start: w.into(),
            window_end: u32::from(w) + u32::from(l),
        }
    }

    /// The first of checks 10 to 14 that an instruction fails.
    fn failed_check(&self, instruction: Instruction, address: u16, state: &State) -> Option<u8> {
        if let Some(access) = access(instruction) {
            if !self.is_in_window(&access, state) {
                return Some(OUT_OF_WINDOW);
            }
            if !is_aligned(&access, state) {
                return Some(MISALIGNED);
            }
        }
        if writes_pc(instruction) {
            return Some(WRITES_PC);
        }
        if !self.stays_in_code(instruction, address) {
            return Some(BRANCH_TARGET);
        }
        if u32::from(address) == self.last && !matches!(instruction, Instruction::Halt { .. }) {
            return Some(LAST_NOT_HALT);
        }
        None
    }

    /// Check 10. The sums are not wrapped, so a base near the top of memory cannot pass.
    fn is_in_window(&self, access: &Access, state: &State) -> bool {
        let base = state.get(access.rb, 0);
        let first = u32::from(base.low) + access.offset;
        let end = u32::from(base.high) + access.offset + access.size;
        first >= self.window_start && end <= self.window_end
    }

    /// Check 13.
    fn stays_in_code(&self, instruction: Instruction, address: u16) -> bool {
        match instruction {
            Instruction::Branch { offset, .. } => {
                u32::from(branch_target(address, offset)) < self.code_end
            }
            _ => true,
        }
    }
}

/// Check 11. The offset of a halfword access is a multiple of 4 by its encoding.
fn is_aligned(access: &Access, state: &State) -> bool {
    access.size == 1 || state.get(access.rb, 0).zeros >= 2
}

/// Check 12, in the negative.
fn writes_pc(instruction: Instruction) -> bool {
    use Instruction::*;
    matches!(instruction, AddHigh { rd: 15, .. } | MovHigh { rd: 15, .. })
}

/// What an instruction loads or stores, if it does.
fn access(instruction: Instruction) -> Option<Access> {
    use Instruction::*;
    let (rb, offset, size) = match instruction {
        Str { offset, rb, .. } | Ldr { offset, rb, .. } => (rb, 4 * u32::from(offset), 2),
        Strb { offset, rb, .. } | Ldrb { offset, rb, .. } => (rb, u32::from(offset), 1),
        _ => return None,
    };
    Some(Access { rb, offset, size })
}
