//! The verifier: decides whether an image can be run without harm.

use crate::{Layout, Refusal, ffi};

/// Puts checks 2 to 14 to an image file.
///
/// A program that passes never leaves its code, never touches data outside its window, and ends by
/// HALT or a spent budget, wherever its registers start from.
///
/// ```
/// use paw::{Check, Place};
///
/// let mut file = vec![0; paw::image_bytes(2)];
/// paw::pack(&[0xD0FF, 0x0000], 256, 64, &mut file)?; // a branch to before the code, HALT
/// let refusal = paw::verify(&file).unwrap_err();
/// assert_eq!((refusal.check, refusal.place), (Check::BranchTarget, Place::Address(0)));
/// # Ok::<(), paw::Refusal>(())
/// ```
pub fn verify(file: &[u8]) -> Result<Layout, Refusal> {
    Layout::from_answer(ffi::verify(file))
}
