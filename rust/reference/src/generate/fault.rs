//! Adds one fault of a chosen kind to a program that is otherwise fit.

use crate::domain::State;
use crate::generate::builder::{transfer, Builder};
use crate::generate::undefined_halfword;
use crate::instruction::{branch_target, Instruction};
use crate::refusal::{BRANCH_TARGET, MISALIGNED, OUT_OF_WINDOW, UNDEFINED, WRITES_PC};
use Instruction::*;

impl Builder<'_> {
    /// Something that fails one check.
    pub(super) fn emit_fault(&mut self, number: u8) {
        match number {
            UNDEFINED => {
                let halfword = undefined_halfword(self.rng);
                self.code.push(halfword);
            }
            OUT_OF_WINDOW => self.emit_stray_access(),
            MISALIGNED => self.emit_misaligned_access(),
            WRITES_PC => {
                let rs = self.rng.below(16) as u8;
                let add = self.rng.flip();
                self.emit(if add { AddHigh { rs, rd: 15 } } else { MovHigh { rs, rd: 15 } });
            }
            BRANCH_TARGET => self.emit_stray_branch(),
            _ => {}
        }
    }

    fn emit_stray_access(&mut self) {
        let kind = self.rng.below(4);
        if self.room() < 20 || kind == 0 {
            return self.emit_unwanted(0, 1);
        }
        if kind == 1 {
            // So high that the offset would wrap around to a low address.
            let base = 0u16.wrapping_sub(self.rng.between(1, 124) as u16);
            self.emit_constant(0, 1, base);
            let size = self.rng.between(1, 2) as u8;
            return self.emit_unwanted(0, size);
        }
        let pointer = self.emit_pointer();
        if kind == 2 {
            return self.emit_unwanted(pointer, 2);
        }
        // A branch back to the access makes it forget the pointer.
        self.emit_fitting_access(pointer);
        let cond = self.rng.below(14) as u8;
        self.emit(Branch { cond, offset: 0xFF });
        self.state = State::UNKNOWN;
    }

    /// An access outside the window, if the pointer permits one.
    fn emit_unwanted(&mut self, pointer: u8, size: u8) {
        let stray = self.offsets(pointer, size, |in_window, _| !in_window);
        if !stray.is_empty() {
            let offset = self.pick_offset(&stray);
            let rd = self.low();
            let load = self.rng.flip();
            self.emit(transfer(size, load, offset, pointer, rd));
        }
    }

    fn emit_misaligned_access(&mut self) {
        let base = self.w + self.rng.between(1, 2) as u16;
        self.emit_constant(0, 1, base);
        let askew = self.offsets(0, 2, |in_window, aligned| in_window && !aligned);
        if !askew.is_empty() {
            let offset = self.pick_offset(&askew);
            let load = self.rng.flip();
            self.emit(transfer(2, load, offset, 0, 1));
        }
    }

    /// A branch out of the code, if an end of the code is within reach.
    fn emit_stray_branch(&mut self) {
        let address = self.address();
        let end = 2 * self.length;
        let leaves = |offset: &u8| usize::from(branch_target(address, *offset)) >= end;
        let stray: Vec<u8> = (0..=255).filter(leaves).collect();
        if !stray.is_empty() {
            let offset = self.pick_offset(&stray);
            let cond = self.rng.below(14) as u8;
            self.emit(Branch { cond, offset });
        }
    }
}
