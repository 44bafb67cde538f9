//! Builds programs that pass every check.

use crate::domain::{AbstractValue, State};
use crate::generate::{window, Rng};
use crate::instruction::{encode, Instruction};
use crate::program::Program;
use Instruction::*;

/// Writes a program chunk by chunk, always aware of what the verifier will know. Branches go only
/// to the beginnings of chunks that start from nothing.
pub(super) struct Builder<'a> {
    pub(super) rng: &'a mut Rng,
    pub(super) length: usize,
    pub(super) w: u16,
    pub(super) l: u16,
    pub(super) code: Vec<u16>,
    pub(super) state: State,
    /// Instructions that branches may go to.
    targets: Vec<usize>,
    /// Branches that still need a target, and their conditions.
    open_branches: Vec<(usize, u8)>,
}

impl<'a> Builder<'a> {
    pub(super) fn new(rng: &'a mut Rng, length: usize) -> Self {
        let (w, l) = window(rng, length);
        Builder {
            rng,
            length,
            w,
            l,
            code: Vec::with_capacity(length),
            state: State::UNKNOWN,
            targets: vec![0, length - 1],
            open_branches: Vec::new(),
        }
    }

    /// Instructions that still go before the final HALT.
    pub(super) fn room(&self) -> usize {
        (self.length - 1).saturating_sub(self.code.len())
    }

    pub(super) fn address(&self) -> u16 {
        (2 * self.code.len()) as u16
    }

    pub(super) fn low(&mut self) -> u8 {
        self.rng.below(8) as u8
    }

    pub(super) fn emit(&mut self, instruction: Instruction) {
        self.state.apply(instruction, self.address());
        let halfword = encode(instruction).expect("generated fields are in range");
        self.code.push(halfword);
    }

    /// A HALT that notes anything.
    fn emit_halt(&mut self) {
        let note = self.rng.u8();
        self.emit(Halt { note });
    }

    /// One chunk, or a single instruction if the chunk has no room.
    pub(super) fn emit_chunk(&mut self) {
        if self.rng.one_in(3) && !self.code.is_empty() {
            self.targets.push(self.code.len());
            self.state = State::UNKNOWN;
        }
        match self.rng.below(32) {
            0..=7 => self.emit_harmless(),
            8..=11 => self.emit_branch(),
            12 if self.rng.one_in(8) => self.emit_halt(),
            _ => self.emit_if_room(Self::emit_accesses),
        }
    }

    fn emit_if_room(&mut self, emit: fn(&mut Self)) {
        let before = (self.code.len(), self.state.clone(), self.open_branches.len());
        emit(self);
        if self.code.len() > self.length - 1 {
            self.code.truncate(before.0);
            self.state = before.1;
            self.open_branches.truncate(before.2);
            self.emit_harmless();
        }
    }

    /// An instruction that no check can object to.
    fn emit_harmless(&mut self) {
        let (rs, rd) = (self.low(), self.low());
        let (any_rs, any_rd) = (self.rng.below(16) as u8, self.rng.below(15) as u8);
        let imm = self.rng.u8();
        let instruction = match self.rng.below(11) {
            0 => MovImm { rd, imm },
            1 => CmpImm { rd, imm },
            2 => And { rs, rd },
            3 => Eor { rs, rd },
            4 => Asr { rs, rd },
            5 => Tst { rs, rd },
            6 => Neg { rs, rd },
            7 => Cmp { rs, rd },
            8 => AddHigh { rs: any_rs, rd: any_rd },
            9 => MovHigh { rs: any_rs, rd: any_rd },
            _ if imm < 128 => CmpHigh { rs: any_rs | 8, rd: any_rd },
            _ => AddPc { rd, imm },
        };
        self.emit(instruction);
    }

    fn emit_branch(&mut self) {
        let cond = self.rng.below(14) as u8;
        self.open_branches.push((self.code.len(), cond));
        self.emit(Branch { cond, offset: 0 });
    }

    /// A pointer into the window and some accesses through it, other things between.
    fn emit_accesses(&mut self) {
        let pointer = self.emit_pointer();
        for _ in 0..self.rng.between(1, 4) {
            match self.rng.below(12) {
                0 => self.emit_branch(),
                1 => self.emit_harmless(),
                _ => self.emit_fitting_access(pointer),
            }
        }
    }

    /// Builds a pointer and answers its register.
    pub(super) fn emit_pointer(&mut self) -> u8 {
        let pointer = self.low();
        let scratch = (pointer + 1) % 8;
        let index = (pointer + 2) % 8;
        let end = u32::from(self.w) + u32::from(self.l);
        // The base may lie below the window, if an offset makes up for it.
        let slack = self.rng.pick(&[0, 0, 4, 31, 124]);
        let lowest = u32::from(self.w).saturating_sub(slack);
        let base = self.choose_between(lowest, end - 1);
        self.emit_constant(pointer, scratch, base);
        if self.rng.flip() {
            let span = end.saturating_sub(u32::from(base).max(self.w.into()) + 1);
            self.emit_index(index, scratch, span as u16);
            self.emit(AddHigh { rs: index, rd: pointer });
        }
        if self.rng.one_in(8) {
            let high = self.rng.between(8, 14) as u8;
            self.emit(MovHigh { rs: pointer, rd: high });
            self.emit(MovHigh { rs: high, rd: scratch });
            return scratch;
        }
        pointer
    }

    /// A value in a range, often at one of its ends, mostly a multiple of 4.
    fn choose_between(&mut self, low: u32, high: u32) -> u16 {
        let value = match self.rng.below(4) {
            0 => low,
            1 => high,
            2 => high.saturating_sub(3).max(low),
            _ => self.rng.between(low as usize, high as usize) as u32,
        };
        let aligned = value & !3;
        if aligned >= low && !self.rng.one_in(4) {
            aligned as u16
        } else {
            value as u16
        }
    }

    /// Puts a known value in a register, in one of the ways a program can.
    pub(super) fn emit_constant(&mut self, register: u8, scratch: u8, value: u16) {
        let ahead = value.wrapping_sub(self.address() & !3);
        if ahead <= 1020 && ahead.is_multiple_of(4) && self.rng.flip() {
            let imm = (ahead / 4) as u8;
            self.emit(AddPc { rd: register, imm });
        } else if value.wrapping_sub(self.address()) <= 255 && self.rng.flip() {
            let imm = value.wrapping_sub(self.address()) as u8;
            self.emit(MovHigh { rs: 15, rd: register });
            self.emit(MovImm { rd: scratch, imm });
            self.emit(AddHigh { rs: scratch, rd: register });
        } else {
            self.emit_by_doubling(register, scratch, value);
        }
    }

    fn emit_by_doubling(&mut self, register: u8, scratch: u8, value: u16) {
        let doublings = value.trailing_zeros().min(8);
        if value >> doublings <= 255 {
            self.emit(MovImm { rd: register, imm: (value >> doublings) as u8 });
            (0..doublings).for_each(|_| self.emit(AddHigh { rs: register, rd: register }));
        } else {
            self.emit(MovImm { rd: register, imm: (value >> 8) as u8 });
            (0..8).for_each(|_| self.emit(AddHigh { rs: register, rd: register }));
            self.emit(MovImm { rd: scratch, imm: value as u8 });
            self.emit(AddHigh { rs: scratch, rd: register });
        }
    }

    /// Brings whatever is in a register into the range 0 to `span`, by the operations that bound
    /// a value.
    fn emit_index(&mut self, index: u8, scratch: u8, span: u16) {
        if self.rng.one_in(4) {
            let rs = self.low();
            self.emit(Neg { rs, rd: index });
        }
        let mask = self.choose_between(0, u32::from(span));
        // A mask whose exclusive or with anything below it cannot leave the span.
        let narrow = ((1u32 << (16 - span.leading_zeros())) - 1) as u16 >> 1;
        match self.rng.below(6) {
            0 => {
                self.emit_masking(index, scratch, narrow & 0xFC);
                self.emit(MovImm { rd: scratch, imm: (narrow & 0xFC) as u8 });
                self.emit(Eor { rs: scratch, rd: index });
            }
            1 => {
                self.emit_masking(index, scratch, mask);
                let rs = self.low();
                self.emit(Asr { rs, rd: index });
            }
            2 => {
                self.emit_masking(index, scratch, (mask / 2) & !3);
                self.emit(AddHigh { rs: index, rd: index });
            }
            _ => self.emit_masking(index, scratch, mask),
        }
    }

    fn emit_masking(&mut self, index: u8, scratch: u8, mask: u16) {
        let other = (scratch + 2) % 8;
        self.emit_constant(scratch, other, mask);
        self.emit(And { rs: scratch, rd: index });
    }

    /// A load or store through `pointer` that passes, if there is one.
    pub(super) fn emit_fitting_access(&mut self, pointer: u8) {
        let load = self.rng.flip();
        let preferred_size = self.rng.between(1, 2) as u8;
        for size in [preferred_size, 3 - preferred_size] {
            let fitting = self.offsets(pointer, size, |in_window, aligned| in_window && aligned);
            if !fitting.is_empty() {
                let offset = self.pick_offset(&fitting);
                let rd = self.low();
                self.emit(transfer(size, load, offset, pointer, rd));
                return;
            }
        }
    }

    /// The ends of the possible offsets are where mistakes show.
    pub(super) fn pick_offset(&mut self, offsets: &[u8]) -> u8 {
        match self.rng.below(3) {
            0 => offsets[0],
            1 => offsets[offsets.len() - 1],
            _ => self.rng.pick(offsets),
        }
    }

    /// The offset fields for which an access is as wanted.
    pub(super) fn offsets(&self, pointer: u8, size: u8, wanted: fn(bool, bool) -> bool) -> Vec<u8> {
        let base: AbstractValue = self.state.get(pointer, 0);
        let scale = if size == 2 { 4 } else { 1 };
        let end = u32::from(self.w) + u32::from(self.l);
        let aligned = size == 1 || base.zeros >= 2;
        let is_wanted = |field: &u8| {
            let offset = u32::from(*field) * scale;
            let first = u32::from(base.low) + offset;
            let last = u32::from(base.high) + offset + u32::from(size);
            wanted(first >= self.w.into() && last <= end, aligned)
        };
        (0..32).filter(is_wanted).collect()
    }

    /// Ends the code and gives every open branch a target.
    pub(super) fn finish(mut self) -> Program {
        self.code.truncate(self.length - 1);
        self.emit_halt();
        for (place, cond) in std::mem::take(&mut self.open_branches) {
            if place < self.length - 1 {
                let offset = self.pick_branch_offset(place);
                // Without a target in reach, a comparison: it leaves all values alone, too.
                let instruction = match offset {
                    Some(offset) => Branch { cond, offset },
                    None => CmpImm { rd: 0, imm: 0 },
                };
                self.code[place] = encode(instruction).expect("generated fields are in range");
            }
        }
        Program { code: self.code, w: self.w, l: self.l }
    }

    /// The offset from a branch to some permitted target in reach.
    fn pick_branch_offset(&mut self, place: usize) -> Option<u8> {
        let distance = |&target: &usize| i8::try_from(target as isize - place as isize).ok();
        let reachable: Vec<i8> = self.targets.iter().filter_map(distance).collect();
        if reachable.is_empty() {
            return None;
        }
        Some(self.rng.pick(&reachable) as u8)
    }
}

/// A load or store of 1 or 2 bytes.
pub(super) fn transfer(size: u8, load: bool, offset: u8, rb: u8, rd: u8) -> Instruction {
    match (size, load) {
        (2, false) => Str { offset, rb, rd },
        (2, true) => Ldr { offset, rb, rd },
        (_, false) => Strb { offset, rb, rd },
        (_, true) => Ldrb { offset, rb, rd },
    }
}
