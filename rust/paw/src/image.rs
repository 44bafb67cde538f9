//! Image files: checking them, reading their blocks, packing them, summing blocks on their way.

use core::iter::FusedIterator;
use core::ops::Range;
use core::slice::ChunksExact;

use crate::{Refusal, ffi};

/// Halfwords in a block.
pub const BLOCK_HALFWORDS: usize = 256;
/// Bytes in a block.
pub const BLOCK_BYTES: usize = 2 * BLOCK_HALFWORDS;
/// Code halfwords that a block has room for.
pub const BLOCK_CODE: usize = 249;
/// Most blocks that an image may have.
pub const MAX_BLOCKS: usize = 64;
/// Most code halfwords that an image may hold.
pub const MAX_CODE: usize = MAX_BLOCKS * BLOCK_CODE;

/// What an accepted image says about itself, in bytes.
#[derive(Clone, Copy, Debug, PartialEq, Eq, Hash)]
pub struct Layout {
    /// Length of the code, which stands from address 0.
    pub c: u16,
    /// Start of the window.
    pub w: u16,
    /// Length of the window.
    pub l: u16,
}

impl Layout {
    /// The layout or refusal that an answer stands for.
    pub(crate) fn from_answer(answer: u64) -> Result<Self, Refusal> {
        let [number, first, second, third] = parts_of(answer);
        match (number, second, third) {
            (0, w, l) => Ok(Layout { c: first, w, l }),
            (1..=255, 0, 0) => Err(Refusal::from_numbers(number as u8, first)),
            _ => panic!("libpaw.a answers a file with {answer:#x}"),
        }
    }

    /// The bytes of memory that the code occupies.
    #[must_use]
    pub fn code(self) -> Range<usize> {
        0..self.c.into()
    }

    /// The bytes of memory that the window occupies.
    #[must_use]
    pub fn window(self) -> Range<usize> {
        let start = usize::from(self.w);
        start..start + usize::from(self.l)
    }
}

/// The four 16-bit parts of an answer, the lowest first.
fn parts_of(answer: u64) -> [u16; 4] {
    [0, 16, 32, 48].map(|bit| (answer >> bit) as u16)
}

/// Puts checks 2 to 8 to a file.
///
/// ```
/// let mut file = vec![0; paw::image_bytes(1)];
/// paw::pack(&[0x0000], 256, 64, &mut file)?; // HALT
/// assert_eq!(paw::check(&file), Ok(paw::Layout { c: 2, w: 256, l: 64 }));
/// let blocks: Vec<&[u8]> = paw::BlockReader::open(&file)?.collect();
/// assert_eq!(blocks, [&file[..]]);
/// file[511] ^= 1;
/// assert_eq!(paw::check(&file).unwrap_err().check, paw::Check::BlockSum);
/// # Ok::<(), paw::Refusal>(())
/// ```
pub fn check(file: &[u8]) -> Result<Layout, Refusal> {
    Layout::from_answer(ffi::check(file))
}

/// Gives out the blocks of an image, first to last, each as its 512 bytes of the file, and says
/// `None` only after the last. A refused file has no reader: [`BlockReader::open`] says why.
///
/// The file is checked once. It is proved of the library's reader that an accepted file's block
/// `n` is its bytes from `512 * n` on and that none is left after those, so no block costs a call.
#[must_use = "a reader gives nothing until it is asked"]
#[derive(Clone, Debug)]
pub struct BlockReader<'a> {
    blocks: ChunksExact<'a, u8>,
}

impl<'a> BlockReader<'a> {
    /// Puts checks 2 to 8 to the whole file before any block is given out.
    pub fn open(file: &'a [u8]) -> Result<Self, Refusal> {
        check(file)?;
        Ok(BlockReader { blocks: file.chunks_exact(BLOCK_BYTES) })
    }
}

impl<'a> Iterator for BlockReader<'a> {
    type Item = &'a [u8];

    fn next(&mut self) -> Option<&'a [u8]> {
        self.blocks.next()
    }

    fn size_hint(&self) -> (usize, Option<usize>) {
        self.blocks.size_hint()
    }
}

impl ExactSizeIterator for BlockReader<'_> {}

impl FusedIterator for BlockReader<'_> {}

/// Puts checks 2 to 8 to the whole file, then answers what a reader of it gives at its call number
/// `n`, counted from 0: the block, or `None` where none is left. [`BlockReader`] gives them all
/// for one check.
///
/// ```
/// let mut file = vec![0; paw::image_bytes(250)];
/// paw::pack(&[0x0000; 250], 512, 64, &mut file)?;
/// assert_eq!(paw::block(&file, 1), Ok(Some(&file[512..])));
/// assert_eq!(paw::block(&file, 2), Ok(None));
/// file[512] ^= 1;
/// let refusal = paw::block(&file, 2).unwrap_err();
/// assert_eq!((refusal.check, refusal.place), (paw::Check::BlockMark, paw::Place::Block(1)));
/// # Ok::<(), paw::Refusal>(())
/// ```
pub fn block(file: &[u8], n: usize) -> Result<Option<&[u8]>, Refusal> {
    let answer = ffi::block(file, n);
    let [number, first, second, third] = parts_of(answer);
    match (number, usize::from(second), third) {
        (0, 0, 0) if first == 0 => Ok(None),
        (0, BLOCK_BYTES, 0) => Ok(Some(&file[first.into()..][..BLOCK_BYTES])),
        (1..=255, 0, 0) => Err(Refusal::from_numbers(number as u8, first)),
        _ => panic!("libpaw.a answers the reader with {answer:#x}"),
    }
}

/// Bytes of the image of `code` halfwords: the output that [`pack`] asks for.
#[must_use]
pub const fn image_bytes(code: usize) -> usize {
    code.div_ceil(BLOCK_CODE) * BLOCK_BYTES
}

/// Puts checks 15, 8 and 16, then writes code and window (its start `w` and its length `l`, in
/// bytes) as an image that fills `out`. A refusal changes no byte. The code is not verified.
///
/// ```
/// let code = [0x0000]; // HALT
/// let mut file = [0; paw::image_bytes(1)];
/// assert_eq!(paw::pack(&code, 256, 64, &mut file), Ok(()));
/// let refusal = paw::pack(&code, 256, 64, &mut file[1..]).unwrap_err();
/// assert_eq!(refusal.check, paw::Check::OutputLength);
/// ```
pub fn pack(code: &[u16], w: u16, l: u16, out: &mut [u8]) -> Result<(), Refusal> {
    match ffi::pack(code, w, l, out) {
        0 => Ok(()),
        number @ 1..=255 => Err(Refusal::from_numbers(number as u8, 0)),
        number => panic!("libpaw.a answers the packer with {number}"),
    }
}

/// The sum so far of a block, which is 0 before the first call, with one halfword more, modulo
/// 65,536.
///
/// It is made for a driver that delivers a block's last halfword first. After the call for
/// halfword `n` it is the sum of halfwords `n` to 255, and a block passes check 4 exactly if it is
/// 0 after halfword 0. The function has no state: the caller counts the halfwords.
///
/// ```
/// let mut file = [0; paw::image_bytes(1)];
/// paw::pack(&[0x0000], 256, 64, &mut file)?; // HALT
/// let mut bus = file.chunks_exact(2).rev().map(|pair| u16::from_le_bytes([pair[0], pair[1]]));
///
/// let mut block = [0; paw::BLOCK_BYTES];
/// let mut sum = 0;
/// for n in (0..paw::BLOCK_HALFWORDS).rev() {
///     let halfword = bus.next().unwrap();
///     block[2 * n..2 * n + 2].copy_from_slice(&halfword.to_le_bytes());
///     sum = paw::add_to_sum(sum, halfword);
/// }
/// assert_eq!(sum, 0);
/// assert_eq!(block, file);
/// # Ok::<(), paw::Refusal>(())
/// ```
///
/// A damaged halfword leaves another sum:
///
/// ```
/// # let mut file = [0; paw::image_bytes(1)];
/// # paw::pack(&[0x0000], 256, 64, &mut file)?; // HALT
/// file[200] ^= 1;
/// let bus = file.chunks_exact(2).rev().map(|pair| u16::from_le_bytes([pair[0], pair[1]]));
/// assert_ne!(bus.fold(0, paw::add_to_sum), 0);
/// assert_eq!(paw::check(&file).unwrap_err().check, paw::Check::BlockSum);
/// # Ok::<(), paw::Refusal>(())
/// ```
#[must_use]
pub fn add_to_sum(sum: u16, halfword: u16) -> u16 {
    ffi::add_to_sum(sum, halfword)
}
