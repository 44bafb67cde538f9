//! Image files: checking, reading and packing blocks.

use std::fmt;

use crate::refusal::{
    Refusal, BLOCK_MARK, BLOCK_NUMBER, BLOCK_SUM, BLOCK_USE, BLOCK_WINDOW, CODE_LENGTH,
    FILE_LENGTH, OUTPUT_LENGTH, WINDOW,
};

/// Halfwords in a block.
pub const BLOCK_HALFWORDS: usize = 256;
/// Bytes in a block.
pub const BLOCK_BYTES: usize = 2 * BLOCK_HALFWORDS;
/// Most blocks an image may have.
pub const MAX_BLOCKS: usize = 64;
/// Code halfwords a block has room for.
pub const BLOCK_CODE: usize = 249;
/// Most code halfwords an image may hold.
pub const MAX_CODE: usize = MAX_BLOCKS * BLOCK_CODE;
/// First halfword of every block.
pub const MARK: u16 = 0xD0C1;

/// Halfword that holds the mark.
pub const MARK_FIELD: usize = 0;
/// Halfword that holds the block's number.
pub const NUMBER_FIELD: usize = 1;
/// Halfword that holds the count of code halfwords in the block.
pub const USED_FIELD: usize = 2;
/// Halfword that holds the start of the window.
pub const WINDOW_START_FIELD: usize = 3;
/// Halfword that holds the length of the window.
pub const WINDOW_LENGTH_FIELD: usize = 4;
/// Halfword that holds the number of blocks.
pub const BLOCKS_FIELD: usize = 5;
/// First halfword of code.
pub const CODE_FIELD: usize = 6;
/// Halfword that brings the sum of the block to zero.
pub const SUM_FIELD: usize = 255;

/// What an accepted image says about itself, in bytes.
#[derive(Clone, Copy, Debug, PartialEq, Eq, Hash)]
pub struct Layout {
    /// Length of the code.
    pub c: u16,
    /// Start of the window.
    pub w: u16,
    /// Length of the window.
    pub l: u16,
}

impl fmt::Display for Layout {
    fn fmt(&self, f: &mut fmt::Formatter<'_>) -> fmt::Result {
        write!(f, "fit {} {} {}", self.c, self.w, self.l)
    }
}

/// Puts checks 2 to 8 to a file.
pub fn check(file: &[u8]) -> Result<Layout, Refusal> {
    let blocks = check_length(file)?;
    let w = halfword(file, WINDOW_START_FIELD);
    let l = halfword(file, WINDOW_LENGTH_FIELD);
    let mut used = 0;
    for (number, block) in file.chunks_exact(BLOCK_BYTES).enumerate() {
        used += check_block(block, number, blocks, (w, l))?;
    }
    check_window(used, w, l)?;
    let c = (2 * used) as u16; // At most 31,872.
    Ok(Layout { c, w, l })
}

/// Check 2. Answers the number of blocks.
fn check_length(file: &[u8]) -> Result<usize, Refusal> {
    let blocks = file.len() / BLOCK_BYTES;
    let whole = file.len().is_multiple_of(BLOCK_BYTES);
    if whole && (1..=MAX_BLOCKS).contains(&blocks) {
        Ok(blocks)
    } else {
        Err(Refusal::of(FILE_LENGTH))
    }
}

/// Checks 3 to 7 of one block. Answers its count of code halfwords.
fn check_block(
    block: &[u8],
    number: usize,
    blocks: usize,
    window: (u16, u16),
) -> Result<usize, Refusal> {
    let field = |index| halfword(block, index);
    let used = usize::from(field(USED_FIELD));
    let is_last = number + 1 == blocks;
    let tells_position =
        usize::from(field(NUMBER_FIELD)) == number && usize::from(field(BLOCKS_FIELD)) == blocks;
    let answers = [
        (BLOCK_MARK, field(MARK_FIELD) == MARK),
        (BLOCK_SUM, sum_from(block, 0) == 0),
        (BLOCK_NUMBER, tells_position),
        (BLOCK_USE, is_well_filled(block, used, is_last)),
        (BLOCK_WINDOW, (field(WINDOW_START_FIELD), field(WINDOW_LENGTH_FIELD)) == window),
    ];
    match answers.iter().find(|(_, yes)| !yes) {
        Some((check, _)) => Err(Refusal::at(*check, number as u16)),
        None => Ok(used),
    }
}

/// The sum modulo 65,536 of halfwords `n` to 255 of a block.
///
/// A plain sum in a type that has room for it, reduced once at the end, so that it shares no step
/// with an engine that wraps at each addition.
pub fn sum_from(block: &[u8], n: usize) -> u16 {
    let plain: u32 = halfwords(&block[2 * n..BLOCK_BYTES]).map(u32::from).sum();
    (plain % 65_536) as u16
}

/// Whether a block is full, or the last and not empty, with zeros behind its code.
fn is_well_filled(block: &[u8], used: usize, is_last: bool) -> bool {
    let permitted = used == BLOCK_CODE || is_last && (1..BLOCK_CODE).contains(&used);
    permitted && block[2 * (CODE_FIELD + used)..2 * SUM_FIELD].iter().all(|&byte| byte == 0)
}

/// Check 8, for code of `used` halfwords.
fn check_window(used: usize, w: u16, l: u16) -> Result<(), Refusal> {
    let aligned = w.is_multiple_of(4) && l.is_multiple_of(4);
    let clear_of_code = usize::from(w) >= 2 * used;
    let in_memory = u32::from(w) + u32::from(l) <= 65_536;
    if aligned && l >= 4 && clear_of_code && in_memory {
        Ok(())
    } else {
        Err(Refusal::of(WINDOW))
    }
}

/// Whether a window passes check 8 beside code of `used` halfwords.
pub fn is_window(used: usize, w: u16, l: u16) -> bool {
    check_window(used, w, l).is_ok()
}

/// The code of a file that passes [`check`].
pub fn code(file: &[u8]) -> Vec<u16> {
    let mut code = Vec::with_capacity(file.len() / BLOCK_BYTES * BLOCK_CODE);
    for block in file.chunks_exact(BLOCK_BYTES) {
        let used = usize::from(halfword(block, USED_FIELD));
        code.extend(halfwords(block).skip(CODE_FIELD).take(used.min(BLOCK_CODE)));
    }
    code
}

/// Gives out the blocks of a checked file, first to last.
#[derive(Clone, Debug)]
pub struct BlockReader<'a> {
    file: &'a [u8],
    next: usize,
}

impl<'a> BlockReader<'a> {
    /// Puts checks 2 to 8 to the whole file before any block is given out.
    pub fn open(file: &'a [u8]) -> Result<Self, Refusal> {
        check(file)?;
        Ok(BlockReader { file, next: 0 })
    }
}

impl<'a> Iterator for BlockReader<'a> {
    type Item = &'a [u8];

    fn next(&mut self) -> Option<&'a [u8]> {
        let start = self.next * BLOCK_BYTES;
        let block = self.file.get(start..start + BLOCK_BYTES)?;
        self.next += 1;
        Some(block)
    }
}

/// The answer of a file's reader to call `n`: the refusal of the file, its block, or `None` past the
/// last one.
pub fn block(file: &[u8], n: usize) -> Result<Option<&[u8]>, Refusal> {
    Ok(BlockReader::open(file)?.nth(n))
}

/// Blocks that `used` halfwords of code take up.
pub const fn blocks_needed(used: usize) -> usize {
    used.div_ceil(BLOCK_CODE)
}

/// Puts checks 15, 8 and 16, then writes code and window as an image. What the code does is left
/// to the verifier.
pub fn pack(code: &[u16], w: u16, l: u16, out: &mut [u8]) -> Result<(), Refusal> {
    if !(1..=MAX_CODE).contains(&code.len()) {
        return Err(Refusal::of(CODE_LENGTH));
    }
    check_window(code.len(), w, l)?;
    let blocks = blocks_needed(code.len());
    if out.len() != blocks * BLOCK_BYTES {
        return Err(Refusal::of(OUTPUT_LENGTH));
    }
    let parts = code.chunks(BLOCK_CODE);
    for (number, (part, block)) in parts.zip(out.chunks_exact_mut(BLOCK_BYTES)).enumerate() {
        let header = [MARK, number as u16, part.len() as u16, w, l, blocks as u16];
        pack_block(&header, part, block);
    }
    Ok(())
}

/// [`pack`] into a new file of the needed size.
pub fn pack_file(code: &[u16], w: u16, l: u16) -> Result<Vec<u8>, Refusal> {
    let mut file = vec![0; blocks_needed(code.len()) * BLOCK_BYTES];
    pack(code, w, l, &mut file)?;
    Ok(file)
}

fn pack_block(header: &[u16; CODE_FIELD], part: &[u16], block: &mut [u8]) {
    block.fill(0);
    for (index, &value) in header.iter().chain(part).enumerate() {
        set_halfword(block, index, value);
    }
    mend_sum(block);
}

/// Sets the last halfword of a block so that the block sums to zero.
pub fn mend_sum(block: &mut [u8]) {
    set_halfword(block, SUM_FIELD, 0);
    let rest = sum_from(block, 0);
    set_halfword(block, SUM_FIELD, rest.wrapping_neg());
}

/// The halfword with the given index, low byte first.
pub fn halfword(bytes: &[u8], index: usize) -> u16 {
    u16::from_le_bytes([bytes[2 * index], bytes[2 * index + 1]])
}

/// Replaces the halfword with the given index.
pub fn set_halfword(bytes: &mut [u8], index: usize, value: u16) {
    bytes[2 * index..2 * index + 2].copy_from_slice(&value.to_le_bytes());
}

fn halfwords(bytes: &[u8]) -> impl Iterator<Item = u16> + '_ {
    bytes.chunks_exact(2).map(|pair| u16::from_le_bytes([pair[0], pair[1]]))
}
