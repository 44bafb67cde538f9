//! The answer "no" that every checked operation can give.

use std::fmt;

/// Check 1: the memory has the size of the address space.
pub const MEMORY_SIZE: u8 = 1;
/// Check 2: the file is a whole number of blocks, within the permitted count.
pub const FILE_LENGTH: u8 = 2;
/// Check 3: a block starts with the mark.
pub const BLOCK_MARK: u8 = 3;
/// Check 4: a block sums to zero.
pub const BLOCK_SUM: u8 = 4;
/// Check 5: a block tells its own number and the number of blocks.
pub const BLOCK_NUMBER: u8 = 5;
/// Check 6: a block is as full as its position requires, and clean behind its code.
pub const BLOCK_USE: u8 = 6;
/// Check 7: a block repeats the window of block 0.
pub const BLOCK_WINDOW: u8 = 7;
/// Check 8: the window is aligned, not empty, clear of the code and inside memory.
pub const WINDOW: u8 = 8;
/// Check 9: an instruction is defined.
pub const UNDEFINED: u8 = 9;
/// Check 10: an access stays inside the window.
pub const OUT_OF_WINDOW: u8 = 10;
/// Check 11: a halfword access is aligned.
pub const MISALIGNED: u8 = 11;
/// Check 12: an instruction leaves R15 alone.
pub const WRITES_PC: u8 = 12;
/// Check 13: a branch stays inside the code.
pub const BRANCH_TARGET: u8 = 13;
/// Check 14: the last instruction is HALT, whatever it notes.
pub const LAST_NOT_HALT: u8 = 14;
/// Check 15: there is a permitted amount of code, to pack, to list or in a text.
pub const CODE_LENGTH: u8 = 15;
/// Check 16: the packer is given an output of exactly the blocks it needs, the assembler and the
/// lister one that is long enough.
pub const OUTPUT_LENGTH: u8 = 16;
/// Check 17: the encoder is given fields that form a defined instruction.
pub const BAD_FIELDS: u8 = 17;
/// Check 21: a line of a text is a label or an instruction, its registers suit its form, and a
/// line feed ends it.
pub const SOURCE_LINE: u8 = 21;
/// Check 22: a label is defined once, and the label of a branch is defined.
pub const SOURCE_LABEL: u8 = 22;
/// Check 23: a value fits its field, and so does the way to a branch's label.
pub const SOURCE_VALUE: u8 = 23;

/// The first check that failed, and where.
#[derive(Clone, Copy, Debug, PartialEq, Eq, Hash)]
pub struct Refusal {
    /// Number of the check, 1 to 17.
    pub number: u8,
    /// Block number for checks 3 to 7, byte address for checks 9 to 14, otherwise 0.
    pub place: u16,
}

impl Refusal {
    /// A refusal at a place.
    pub const fn at(number: u8, place: u16) -> Self {
        Refusal { number, place }
    }

    /// A refusal by a check that has no place.
    pub const fn of(number: u8) -> Self {
        Refusal { number, place: 0 }
    }
}

impl fmt::Display for Refusal {
    fn fmt(&self, f: &mut fmt::Formatter<'_>) -> fmt::Result {
        write!(f, "refused {} {}", self.number, self.place)
    }
}

impl std::error::Error for Refusal {}

/// The first check that a written program failed, and in which line.
#[derive(Clone, Copy, Debug, PartialEq, Eq, Hash)]
pub struct SourceRefusal {
    /// Number of the check: 15, 16, or 21 to 23.
    pub number: u8,
    /// Line, counted from 1, for checks 21 to 23, otherwise 0.
    pub line: u64,
}

impl SourceRefusal {
    /// A refusal of a line.
    pub const fn at(number: u8, line: u64) -> Self {
        SourceRefusal { number, line }
    }

    /// A refusal of the whole.
    pub const fn of(number: u8) -> Self {
        SourceRefusal { number, line: 0 }
    }
}

impl fmt::Display for SourceRefusal {
    fn fmt(&self, f: &mut fmt::Formatter<'_>) -> fmt::Result {
        write!(f, "refused {} {}", self.number, self.line)
    }
}

impl std::error::Error for SourceRefusal {}
