//! The answer "no" to a program in writing: which check failed, and in which line.

use core::error::Error;
use core::fmt;

use crate::Check;

/// What can be asked of a program in writing; its number is the one that the board's papers give
/// it. Later versions may ask more.
#[non_exhaustive]
#[derive(Clone, Copy, Debug, PartialEq, Eq, Hash)]
#[repr(u8)]
pub enum SourceCheck {
    /// The program has as many instructions as an image can hold, and some.
    CodeLength = 15,
    /// The output has room for the code.
    OutputLength = 16,
    /// The line is a label or an instruction, its registers suit its form, and a line feed ends it.
    Line = 21,
    /// The label is defined once, and so is that of the branch.
    Label = 22,
    /// The value, or the way to the branch's label, fits its field.
    Value = 23,
}

impl SourceCheck {
    /// Every check, by number. They are put in another order: 21 to all lines, 15, then 22 and 23
    /// together, line by line, and 16.
    pub const ALL: &'static [SourceCheck] = &[
        SourceCheck::CodeLength,
        SourceCheck::OutputLength,
        SourceCheck::Line,
        SourceCheck::Label,
        SourceCheck::Value,
    ];

    /// The check's number.
    #[must_use]
    pub const fn number(self) -> u8 {
        self as u8
    }

    /// The check with a number, if there is one.
    #[must_use]
    pub fn from_number(number: u8) -> Option<Self> {
        Self::ALL.iter().copied().find(|check| check.number() == number)
    }

    /// What is wrong where the check fails.
    #[must_use]
    pub const fn complaint(self) -> &'static str {
        match self {
            SourceCheck::CodeLength => Check::CodeLength.complaint(),
            SourceCheck::OutputLength => "the output is too short for the code",
            SourceCheck::Line => "the line is no label and no instruction, or has no line feed",
            SourceCheck::Label => "the label is defined a second time, or nowhere",
            SourceCheck::Value => "the value, or the way to the label, does not fit its field",
        }
    }

    /// Whether it is put to single lines.
    const fn has_line(self) -> bool {
        matches!(self, SourceCheck::Line | SourceCheck::Label | SourceCheck::Value)
    }
}

/// Why a program in writing was refused: the first check that failed, and the line.
///
/// ```
/// let refusal = paw::assemble(b"MOV R0, #1\nMOV R1, #256\n", &mut [0; 2]).unwrap_err();
/// assert_eq!(refusal.check, paw::SourceCheck::Value);
/// assert_eq!(refusal.line, Some(2));
/// let words = "refused by check 23 at line 2: \
///              the value, or the way to the label, does not fit its field";
/// assert_eq!(refusal.to_string(), words);
/// ```
#[derive(Clone, Copy, Debug, PartialEq, Eq, Hash)]
pub struct SourceRefusal {
    /// The check.
    pub check: SourceCheck,
    /// The line, counted from 1; none for a check of the whole.
    pub line: Option<u64>,
}

impl SourceRefusal {
    /// The refusal that an answer's number and line stand for, if there is one.
    pub(crate) fn from_numbers(number: u16, line: u64) -> Option<Self> {
        let check = SourceCheck::from_number(u8::try_from(number).ok()?)?;
        let line = (line != 0).then_some(line);
        (line.is_some() == check.has_line()).then_some(SourceRefusal { check, line })
    }

    /// The check's number.
    #[must_use]
    pub const fn number(self) -> u8 {
        self.check.number()
    }

    /// The line as a plain number, 0 if there is none.
    #[must_use]
    pub fn line_number(self) -> u64 {
        self.line.unwrap_or(0)
    }
}

impl fmt::Display for SourceRefusal {
    fn fmt(&self, f: &mut fmt::Formatter<'_>) -> fmt::Result {
        write!(f, "refused by check {}", self.number())?;
        if let Some(line) = self.line {
            write!(f, " at line {line}")?;
        }
        write!(f, ": {}", self.check.complaint())
    }
}

impl Error for SourceRefusal {}
