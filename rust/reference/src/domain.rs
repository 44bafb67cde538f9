//! What the verifier knows about registers: abstract values and how instructions change them.

use crate::instruction::{pc_relative, Instruction};

/// A set of values: all of `low..=high` whose lowest `zeros` bits are 0.
#[derive(Clone, Copy, Debug, PartialEq, Eq, Hash)]
pub struct AbstractValue {
    /// Lowest value.
    pub low: u16,
    /// Highest value.
    pub high: u16,
    /// How many of the lowest bits are known to be 0.
    pub zeros: u8,
}

impl AbstractValue {
    /// Any value at all.
    pub const UNKNOWN: Self = AbstractValue { low: 0, high: u16::MAX, zeros: 0 };

    /// A range with known low zero bits. If the range is a single value, that value's own
    /// trailing zeros replace the count.
    pub const fn new(low: u16, high: u16, zeros: u8) -> Self {
        if low == high {
            return Self::known(low);
        }
        AbstractValue { low, high, zeros }
    }

    /// Exactly one value.
    pub const fn known(value: u16) -> Self {
        AbstractValue { low: value, high: value, zeros: value.trailing_zeros() as u8 }
    }

    /// Whether a value is in the set.
    pub fn contains(self, value: u16) -> bool {
        let low_bits = (1u32 << self.zeros) - 1;
        (self.low..=self.high).contains(&value) && u32::from(value) & low_bits == 0
    }

    /// The sum. A sum that might wrap could be anything in range, but its low zeros stay.
    pub fn transfer_add(self, other: Self) -> Self {
        let zeros = self.zeros.min(other.zeros);
        match self.high.checked_add(other.high) {
            // The lowest values cannot overflow where the highest do not.
            Some(high) => Self::new(self.low + other.low, high, zeros),
            None => Self::new(0, u16::MAX, zeros),
        }
    }

    /// The bitwise and: a zero in either operand is a zero in the result.
    pub fn transfer_and(self, other: Self) -> Self {
        Self::new(0, self.high.min(other.high), self.zeros.max(other.zeros))
    }

    /// The exclusive or: no bit above the longest operand can be set.
    pub fn transfer_eor(self, other: Self) -> Self {
        let bits = u16::BITS - self.high.max(other.high).leading_zeros();
        let high = ((1u32 << bits) - 1) as u16;
        Self::new(0, high, self.zeros.min(other.zeros))
    }

    /// The arithmetic shift right by an unknown amount: smaller, if not negative.
    pub fn transfer_asr(self) -> Self {
        let high = if self.high <= i16::MAX as u16 { self.high } else { u16::MAX };
        Self::new(0, high, 0)
    }

    /// The negation, of which only the low zeros are kept.
    pub fn transfer_neg(self) -> Self {
        Self::new(0, u16::MAX, self.zeros)
    }
}

/// Registers the state follows: R0 to R14. R15 is always the address of the instruction.
pub const FOLLOWED: usize = 15;

/// Abstract values of R0 to R14.
#[derive(Clone, Debug, PartialEq, Eq)]
pub struct State {
    values: [AbstractValue; FOLLOWED],
}

impl State {
    /// Nothing known of any register.
    pub const UNKNOWN: Self = State { values: [AbstractValue::UNKNOWN; FOLLOWED] };

    /// The value of a register as an instruction at byte address `address` reads it.
    pub fn get(&self, register: u8, address: u16) -> AbstractValue {
        match self.values.get(usize::from(register)) {
            Some(&value) => value,
            None => AbstractValue::known(address),
        }
    }

    /// Carries out an instruction at byte address `address`. Writes to R15 are not followed;
    /// the verifier refuses them beforehand.
    pub fn apply(&mut self, instruction: Instruction, address: u16) {
        use Instruction::*;
        let get = |register| self.get(register, address);
        let (rd, value) = match instruction {
            MovImm { rd, imm } => (rd, AbstractValue::known(imm.into())),
            AddPc { rd, imm } => (rd, AbstractValue::known(pc_relative(address, imm))),
            MovHigh { rs, rd } => (rd, get(rs)),
            AddHigh { rs, rd } => (rd, get(rd).transfer_add(get(rs))),
            And { rs, rd } => (rd, get(rd).transfer_and(get(rs))),
            Eor { rs, rd } => (rd, get(rd).transfer_eor(get(rs))),
            Asr { rd, .. } => (rd, get(rd).transfer_asr()),
            Neg { rs, rd } => (rd, get(rs).transfer_neg()),
            Ldrb { rd, .. } => (rd, AbstractValue::new(0, u8::MAX.into(), 0)),
            Ldr { rd, .. } => (rd, AbstractValue::UNKNOWN),
            CmpImm { .. } | Tst { .. } | Cmp { .. } | CmpHigh { .. } => return,
            Str { .. } | Strb { .. } | Branch { .. } | Halt { .. } => return,
        };
        if let Some(place) = self.values.get_mut(usize::from(rd)) {
            *place = value;
        }
    }
}
