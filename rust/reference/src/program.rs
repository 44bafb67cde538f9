//! Code together with its window: what an image says, before it is packed.

use crate::image::{pack_file, Layout};
use crate::instruction::{encode, Instruction};
use crate::refusal::Refusal;
use crate::verifier::verify;

/// Code and window.
#[derive(Clone, Debug, PartialEq, Eq)]
pub struct Program {
    /// Code halfwords.
    pub code: Vec<u16>,
    /// Start of the window in bytes.
    pub w: u16,
    /// Length of the window in bytes.
    pub l: u16,
}

impl Program {
    /// A program of instructions that all can be encoded.
    pub fn assemble(instructions: &[Instruction], w: u16, l: u16) -> Result<Self, Refusal> {
        let code = instructions.iter().map(|&i| encode(i)).collect::<Result<_, _>>()?;
        Ok(Program { code, w, l })
    }

    /// The image file. Refused by checks 15 and 8.
    pub fn file(&self) -> Result<Vec<u8>, Refusal> {
        pack_file(&self.code, self.w, self.l)
    }

    /// The verifier's answer to the image file, or the packer's refusal.
    pub fn verify(&self) -> Result<Layout, Refusal> {
        verify(&self.file()?)
    }

    /// Length of the code and the window, in bytes.
    pub fn layout(&self) -> Layout {
        Layout { c: (2 * self.code.len()) as u16, w: self.w, l: self.l }
    }
}
