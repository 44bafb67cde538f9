//! The conditions of a branch.

use core::fmt;

/// When a branch is taken; its number is the one that the halfword holds.
#[derive(Clone, Copy, Debug, PartialEq, Eq, Hash)]
#[repr(u8)]
pub enum Condition {
    /// Equal: Z.
    Eq = 0,
    /// Not equal: not Z.
    Ne = 1,
    /// Carry set, or unsigned higher or same: C.
    Cs = 2,
    /// Carry clear, or unsigned lower: not C.
    Cc = 3,
    /// Minus: N.
    Mi = 4,
    /// Plus or zero: not N.
    Pl = 5,
    /// Overflow: V.
    Vs = 6,
    /// No overflow: not V.
    Vc = 7,
    /// Unsigned higher: C and not Z.
    Hi = 8,
    /// Unsigned lower or same: not C, or Z.
    Ls = 9,
    /// Signed greater or equal: N is V.
    Ge = 10,
    /// Signed less: N is not V.
    Lt = 11,
    /// Signed greater: not Z, and N is V.
    Gt = 12,
    /// Signed less or equal: Z, or N is not V.
    Le = 13,
}

use Condition::*;

impl Condition {
    /// Every condition, by number.
    pub const ALL: [Condition; 14] = [Eq, Ne, Cs, Cc, Mi, Pl, Vs, Vc, Hi, Ls, Ge, Lt, Gt, Le];

    /// The condition's number.
    #[must_use]
    pub const fn number(self) -> u8 {
        self as u8
    }

    /// The condition with a number, if there is one.
    #[must_use]
    pub fn from_number(number: u8) -> Option<Self> {
        Self::ALL.get(usize::from(number)).copied()
    }

    /// The manual's name in capitals, as in `BEQ`.
    #[must_use]
    pub const fn name(self) -> &'static str {
        match self {
            Eq => "EQ",
            Ne => "NE",
            Cs => "CS",
            Cc => "CC",
            Mi => "MI",
            Pl => "PL",
            Vs => "VS",
            Vc => "VC",
            Hi => "HI",
            Ls => "LS",
            Ge => "GE",
            Lt => "LT",
            Gt => "GT",
            Le => "LE",
        }
    }
}

impl fmt::Display for Condition {
    fn fmt(&self, f: &mut fmt::Formatter<'_>) -> fmt::Result {
        f.pad(self.name())
    }
}
