//! The answer "no": which check failed, and where.

use core::error::Error;
use core::fmt;

/// What can be asked of a memory, a file, an instruction or a caller; its number is the one that
/// the board's papers give it. Later versions may ask more.
#[non_exhaustive]
#[derive(Clone, Copy, Debug, PartialEq, Eq, Hash)]
#[repr(u8)]
pub enum Check {
    /// The memory is the whole address space.
    MemorySize = 1,
    /// The file is 1 to 64 whole blocks.
    FileLength = 2,
    /// The block starts with the mark.
    BlockMark = 3,
    /// The block's halfwords sum to 0.
    BlockSum = 4,
    /// The block tells its own number and the number of blocks.
    BlockNumber = 5,
    /// The block is as full as its position asks, and 0 behind its code.
    BlockUse = 6,
    /// The block has the window of block 0.
    BlockWindow = 7,
    /// The window is aligned, not empty, behind the code and inside memory.
    Window = 8,
    /// The halfword is an instruction.
    Defined = 9,
    /// The load or store stays inside the window.
    InWindow = 10,
    /// The halfword load or store is aligned.
    Aligned = 11,
    /// The instruction leaves R15 alone.
    KeepsPc = 12,
    /// The branch stays inside the code.
    BranchTarget = 13,
    /// The last instruction is HALT, with any note.
    LastIsHalt = 14,
    /// There is as much code as an image can hold, and some.
    CodeLength = 15,
    /// The output is exactly as long as an image has to be, or has room for a listing.
    OutputLength = 16,
    /// The fields form an instruction.
    Fields = 17,
}

impl Check {
    /// Every check, by number.
    pub const ALL: &'static [Check] = &[
        Check::MemorySize,
        Check::FileLength,
        Check::BlockMark,
        Check::BlockSum,
        Check::BlockNumber,
        Check::BlockUse,
        Check::BlockWindow,
        Check::Window,
        Check::Defined,
        Check::InWindow,
        Check::Aligned,
        Check::KeepsPc,
        Check::BranchTarget,
        Check::LastIsHalt,
        Check::CodeLength,
        Check::OutputLength,
        Check::Fields,
    ];

    /// The check's number.
    #[must_use]
    pub const fn number(self) -> u8 {
        self as u8
    }

    /// The check with a number, if there is one.
    #[must_use]
    pub fn from_number(number: u8) -> Option<Self> {
        Self::ALL.iter().copied().find(|check| check.number() == number)
    }

    /// What is wrong where the check fails.
    #[must_use]
    pub const fn complaint(self) -> &'static str {
        match self {
            Check::MemorySize => "the memory does not have 65,536 bytes",
            Check::FileLength => "the file is not 1 to 64 whole blocks of 512 bytes",
            Check::BlockMark => "the block does not start with the mark 0xD0C1",
            Check::BlockSum => "the halfwords of the block do not sum to 0",
            Check::BlockNumber => "the block tells a wrong number or a wrong count of blocks",
            Check::BlockUse => "the block has a wrong count of code or is not 0 behind its code",
            Check::BlockWindow => "the window differs from that of block 0",
            Check::Window => "the window is misaligned, empty, on the code or beyond memory",
            Check::Defined => "the halfword is no instruction",
            Check::InWindow => "the load or store might leave the window",
            Check::Aligned => "the address of a halfword might not be a multiple of 4",
            Check::KeepsPc => "the instruction writes R15",
            Check::BranchTarget => "the branch leaves the code",
            Check::LastIsHalt => "the last instruction is not HALT",
            Check::CodeLength => "the code is not 1 to 15,936 halfwords long",
            Check::OutputLength => "the output is not exactly the blocks that the code needs",
            Check::Fields => "the fields form no instruction",
        }
    }
}

/// Where a check failed. Later versions may have other places.
#[non_exhaustive]
#[derive(Clone, Copy, Debug, PartialEq, Eq, Hash)]
pub enum Place {
    /// The check is about the whole.
    Nowhere,
    /// The block with this number, from 0: checks 3 to 7.
    Block(u16),
    /// The instruction at this byte address: checks 9 to 14.
    Address(u16),
}

/// Why something was refused: the first check that failed, and where.
///
/// ```
/// let refusal = paw::check(&[0; 512]).unwrap_err();
/// assert_eq!(refusal.check, paw::Check::BlockMark);
/// assert_eq!(refusal.place, paw::Place::Block(0));
/// let words = "refused by check 3 at block 0: the block does not start with the mark 0xD0C1";
/// assert_eq!(refusal.to_string(), words);
/// ```
#[derive(Clone, Copy, Debug, PartialEq, Eq, Hash)]
pub struct Refusal {
    /// The check.
    pub check: Check,
    /// Where it failed.
    pub place: Place,
}

impl Refusal {
    /// The refusal that an answer's number and place stand for.
    pub(crate) fn from_numbers(number: u8, place: u16) -> Self {
        let Some(check) = Check::from_number(number) else {
            panic!("libpaw.a answers with check {number}, which does not exist");
        };
        let place = match (number, place) {
            (3..=7, block) => Place::Block(block),
            (9..=14, address) => Place::Address(address),
            (_, 0) => Place::Nowhere,
            _ => panic!("libpaw.a gives check {number} the place {place}"),
        };
        Refusal { check, place }
    }

    /// The check's number.
    #[must_use]
    pub const fn number(self) -> u8 {
        self.check.number()
    }

    /// The place as one number: the block, the byte address, or 0.
    #[must_use]
    pub const fn place_number(self) -> u16 {
        match self.place {
            Place::Nowhere => 0,
            Place::Block(number) | Place::Address(number) => number,
        }
    }
}

impl fmt::Display for Refusal {
    fn fmt(&self, f: &mut fmt::Formatter<'_>) -> fmt::Result {
        write!(f, "refused by check {}", self.number())?;
        match self.place {
            Place::Nowhere => {}
            Place::Block(number) => write!(f, " at block {number}")?,
            Place::Address(address) => write!(f, " at address {address}")?,
        }
        write!(f, ": {}", self.check.complaint())
    }
}

impl Error for Refusal {}
