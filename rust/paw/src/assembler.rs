//! The assembler: code from a program in writing.

use crate::{SourceRefusal, ffi};

/// Makes code from a program in writing, and answers how many halfwords it wrote. The rest of
/// `code` stays as it was, and a refusal changes nothing.
///
/// A text is lines, each with a line feed at its end. A line is one of two things: a label, which
/// is a name and a colon, or an instruction as the manual writes it, in capitals. A name starts
/// with a small letter and has up to 7 more small letters or digits. One space follows the name of
/// an instruction and every comma, and there are no others. Numbers are decimal, with no needless
/// 0 in front; offsets count bytes.
///
/// | | |
/// |---|---|
/// | `MOV R0, #255`, `CMP R0, #255` | R0 to R7; 0 to 255 |
/// | `MOV R0, R15`, `ADD R0, R15`, `CMP R0, R15` | R0 to R15 |
/// | `AND R0, R7`, also EOR, ASR, TST and NEG | R0 to R7 |
/// | `LDR R0, [R7, #124]`, `STR R0, [R7, #124]` | R0 to R7; 0 to 124, in steps of 4 |
/// | `LDRB R0, [R7, #31]`, `STRB R0, [R7, #31]` | R0 to R7; 0 to 31 |
/// | `ADD R0, PC, #1020` | R0 to R7; 0 to 1020, in steps of 4 |
/// | `BEQ name`, with any of the 14 conditions | a label 256 bytes before to 254 behind |
/// | `HALT #255` | 0 to 255 |
///
/// These checks are put, and the first that fails counts: 21 to all lines from the top; 15; then
/// 22 and 23 to each line, again from the top; 16, whether the code has room.
///
/// ```
/// let text = b"\
/// MOV R0, #3
/// MOV R1, #1
/// NEG R1, R1
/// again:
/// ADD R0, R1
/// BNE again
/// HALT #7
/// ";
/// let mut code = [0; paw::MAX_CODE];
/// let written = paw::assemble(text, &mut code)?;
/// assert_eq!(code[..written], [0x2003, 0x2101, 0x4109, 0x4408, 0xD1FF, 0x0007]);
///
/// let refusal = paw::assemble(b"BEQ away\n", &mut code).unwrap_err();
/// assert_eq!((refusal.check, refusal.line), (paw::SourceCheck::Label, Some(1)));
/// # Ok::<(), paw::SourceRefusal>(())
/// ```
pub fn assemble(text: &[u8], code: &mut [u16]) -> Result<usize, SourceRefusal> {
    let answer = ffi::assemble(text, code);
    let (number, told) = (answer as u16, answer >> 16);
    match (number, usize::try_from(told)) {
        (0, Ok(written)) if (1..=code.len()).contains(&written) => Ok(written),
        _ => match SourceRefusal::from_numbers(number, told) {
            Some(refusal) => Err(refusal),
            None => panic!("libpaw.a answers the assembler with {answer:#x}"),
        },
    }
}
