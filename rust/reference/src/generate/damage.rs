//! Image files with something wrong.

use crate::generate::{edge_value, Rng};
use crate::image::{
    halfword, mend_sum, set_halfword, BLOCKS_FIELD, BLOCK_BYTES, BLOCK_HALFWORDS, CODE_FIELD,
    MARK_FIELD, NUMBER_FIELD, SUM_FIELD, USED_FIELD, WINDOW_LENGTH_FIELD, WINDOW_START_FIELD,
};

/// Ways to damage a file.
#[derive(Clone, Copy, Debug, PartialEq, Eq, Hash)]
pub enum DamageKind {
    /// One halfword of one block gets another value, and the sum is mended.
    MendedField,
    /// One halfword of one block gets another value, and the sum is left wrong.
    UnmendedField,
    /// The window is replaced in every block, and the sums are mended.
    Window,
    /// Up to three bits are flipped.
    FlippedBits,
    /// Two blocks change places.
    SwappedBlocks,
    /// Bytes at the end are missing.
    Truncated,
    /// There are more bytes at the end.
    Extended,
    /// Nothing is left.
    Empty,
}

impl DamageKind {
    /// Every kind.
    pub const ALL: [DamageKind; 8] = [
        DamageKind::MendedField,
        DamageKind::UnmendedField,
        DamageKind::Window,
        DamageKind::FlippedBits,
        DamageKind::SwappedBlocks,
        DamageKind::Truncated,
        DamageKind::Extended,
        DamageKind::Empty,
    ];
}

/// What was done to a file, so that a test can tell what to expect.
#[derive(Clone, Copy, Debug, PartialEq, Eq, Hash)]
pub struct Damage {
    /// In which way the file was damaged.
    pub kind: DamageKind,
    /// The block that was changed, or the first of those.
    pub block: usize,
    /// The halfword of the block that was changed.
    pub field: usize,
}

/// Damages a file of whole blocks, at least one, in any way.
pub fn damage(rng: &mut Rng, file: &[u8]) -> (Vec<u8>, Damage) {
    let kind = rng.pick(&DamageKind::ALL);
    damage_as(rng, file, kind)
}

/// Damages a file of whole blocks, at least one, in a chosen way.
pub fn damage_as(rng: &mut Rng, file: &[u8], kind: DamageKind) -> (Vec<u8>, Damage) {
    let mut damaged = file.to_vec();
    let block = rng.below(file.len() / BLOCK_BYTES);
    let field = pick_field(rng);
    let done = Damage { kind, block, field };
    match kind {
        DamageKind::MendedField => {
            change_field(rng, block_mut(&mut damaged, block), field);
            if field != SUM_FIELD {
                mend_sum(block_mut(&mut damaged, block));
            }
        }
        DamageKind::UnmendedField => change_field(rng, block_mut(&mut damaged, block), field),
        DamageKind::Window => change_window(rng, &mut damaged),
        DamageKind::FlippedBits => flip_bits(rng, &mut damaged),
        DamageKind::SwappedBlocks => return swap_blocks(rng, damaged, done),
        DamageKind::Truncated => damaged.truncate(rng.below(file.len())),
        DamageKind::Extended => extend(rng, &mut damaged),
        DamageKind::Empty => damaged.clear(),
    }
    (damaged, done)
}

fn block_mut(file: &mut [u8], block: usize) -> &mut [u8] {
    &mut file[block * BLOCK_BYTES..(block + 1) * BLOCK_BYTES]
}

/// A halfword of a block; those with a meaning of their own come often.
fn pick_field(rng: &mut Rng) -> usize {
    match rng.below(10) {
        0 => MARK_FIELD,
        1 => NUMBER_FIELD,
        2 => USED_FIELD,
        3 => WINDOW_START_FIELD,
        4 => WINDOW_LENGTH_FIELD,
        5 => BLOCKS_FIELD,
        6 => SUM_FIELD - 1,
        7 => SUM_FIELD,
        _ => rng.between(CODE_FIELD, SUM_FIELD - 1),
    }
}

/// Gives a halfword another value, often a near one.
fn change_field(rng: &mut Rng, block: &mut [u8], field: usize) {
    let old = halfword(block, field);
    let change = match rng.below(4) {
        0 => 1,
        1 => u16::MAX,
        2 => rng.pick(&[4, 0xFFFC, 0x0100, 0x8000]),
        _ => rng.between(1, 65_535) as u16,
    };
    set_halfword(block, field, old.wrapping_add(change));
}

fn change_window(rng: &mut Rng, file: &mut [u8]) {
    let field = rng.pick(&[WINDOW_START_FIELD, WINDOW_LENGTH_FIELD]);
    let old = halfword(file, field);
    let new = match rng.below(4) {
        0 => old.wrapping_add(4),
        1 => old.wrapping_sub(4),
        2 => edge_value(rng),
        _ => old ^ 1 << rng.below(16),
    };
    for block in file.chunks_exact_mut(BLOCK_BYTES) {
        set_halfword(block, field, new);
        mend_sum(block);
    }
}

fn flip_bits(rng: &mut Rng, file: &mut [u8]) {
    for _ in 0..rng.between(1, 3) {
        let place = rng.below(file.len());
        file[place] ^= 1 << rng.below(8);
    }
}

/// Exchanges two blocks, the lower of which is told. With one block, nothing changes.
fn swap_blocks(rng: &mut Rng, mut file: Vec<u8>, done: Damage) -> (Vec<u8>, Damage) {
    let other = rng.below(file.len() / BLOCK_BYTES);
    let (low, high) = (done.block.min(other), done.block.max(other));
    if low != high {
        let (head, tail) = file.split_at_mut(high * BLOCK_BYTES);
        block_mut(head, low).swap_with_slice(block_mut(tail, 0));
    }
    (file, Damage { block: low, ..done })
}

/// Adds a few bytes, or whole blocks up to beyond the permitted number.
fn extend(rng: &mut Rng, file: &mut Vec<u8>) {
    let more = if rng.flip() {
        rng.between(1, 2 * BLOCK_HALFWORDS)
    } else {
        BLOCK_BYTES * rng.between(1, 65)
    };
    for _ in 0..more {
        file.push(rng.u8());
    }
}
