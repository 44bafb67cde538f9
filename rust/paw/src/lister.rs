//! The lister: a program in writing from code.

use crate::{MAX_CODE, Refusal, ffi};

/// Most bytes that one instruction adds to a listing: `STR R0, [R0, #100]` and its line feed.
///
/// No other instruction alone takes more. A branch may add the label it goes to, but no more for
/// both: with an address of d digits, `BEQ a` and those digits and a line feed are 6 + d bytes, the
/// label's line with `a`, the digits, a colon and a line feed 3 + d, and d is at most 5.
const INSTRUCTION_BYTES: usize = 19;

/// Bytes that hold the listing of any `code` halfwords, and no fewer do: all of them may be the
/// longest instruction.
///
/// ```
/// let code = [0x6640; 3]; // STR R0, [R0, #100]
/// let mut text = [0; paw::listing_bytes(3)];
/// assert_eq!(paw::list(&code, &mut text), Ok(text.len()));
/// ```
#[must_use]
pub const fn listing_bytes(code: usize) -> usize {
    INSTRUCTION_BYTES * code
}

/// Most bytes that a listing can have: that of [`MAX_CODE`] halfwords.
pub const MAX_LISTING: usize = listing_bytes(MAX_CODE);

/// Writes code as a text that [`assemble`](crate::assemble) makes the same code from, and answers
/// how many bytes it wrote. The rest of `text` stays as it was, and a refusal changes nothing.
///
/// A label stands before every instruction that a branch goes to, and before no other. Its name is
/// `a` and the address.
///
/// These checks are put, and the first that fails counts: 15; then 9 and 13 to each instruction,
/// from the lowest address; 16, whether the text has room.
///
/// ```
/// let code = [0x2003, 0x2101, 0x4109, 0x4408, 0xD1FF, 0x0007];
/// let mut text = [0; paw::listing_bytes(6)];
/// let written = paw::list(&code, &mut text)?;
/// let lines = "MOV R0, #3\nMOV R1, #1\nNEG R1, R1\na6:\nADD R0, R1\nBNE a6\nHALT #7\n";
/// assert_eq!(&text[..written], lines.as_bytes());
///
/// let mut back = [0; 6];
/// assert_eq!(paw::assemble(&text[..written], &mut back), Ok(6));
/// assert_eq!(back, code);
///
/// let refusal = paw::list(&[0xD1FF], &mut text).unwrap_err(); // a branch to before the code
/// assert_eq!((refusal.number(), refusal.place), (13, paw::Place::Address(0)));
/// # Ok::<(), paw::Refusal>(())
/// ```
pub fn list(code: &[u16], text: &mut [u8]) -> Result<usize, Refusal> {
    let answer = ffi::list(code, text);
    let (number, told) = (answer as u16, answer >> 16);
    match (number, usize::try_from(told), u16::try_from(told)) {
        (0, Ok(written), _) if (1..=text.len()).contains(&written) => Ok(written),
        (9 | 13 | 15 | 16, _, Ok(place)) => Err(Refusal::from_numbers(number as u8, place)),
        _ => panic!("libpaw.a answers the lister with {answer:#x}"),
    }
}
