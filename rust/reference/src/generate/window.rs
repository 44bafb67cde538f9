//! Windows that pass check 8, and windows that do not.

use crate::generate::{edge_value, Rng};
use crate::image::is_window;

/// Words of 4 bytes in memory; windows are made of them.
const MEMORY_WORDS: usize = 16_384;

/// The last word of memory.
const LAST_WORD: usize = MEMORY_WORDS - 1;

/// A window that passes check 8 beside `length` halfwords of code: close to the code, at the top
/// of memory, or anywhere; as short as possible, as long as possible, or anything between.
pub fn window(rng: &mut Rng, length: usize) -> (u16, u16) {
    let lowest = (2 * length).div_ceil(4).max(1);
    let w = match rng.below(4) {
        0 => lowest,
        1 => rng.between(lowest, (lowest + 300).min(LAST_WORD)),
        2 => rng.between(LAST_WORD - 300, LAST_WORD),
        _ => rng.between(lowest, LAST_WORD),
    };
    let room = MEMORY_WORDS - w;
    let l = match rng.below(4) {
        0 => rng.between(1, room.min(3)),
        1 => rng.between(1, room.min(100)),
        2 => room,
        _ => rng.between(1, room),
    };
    ((4 * w) as u16, (4 * l) as u16)
}

/// Any pair at all.
pub fn any_window(rng: &mut Rng) -> (u16, u16) {
    let mut value = || match rng.below(3) {
        0 => rng.u16(),
        1 => rng.u16() & !3,
        _ => edge_value(rng),
    };
    (value(), value())
}

/// A window that fails check 8 beside `length` halfwords of code.
pub fn bad_window(rng: &mut Rng, length: usize) -> (u16, u16) {
    loop {
        let (w, l) = window(rng, length);
        let code_end = (2 * length) as u16;
        let (w, l) = match rng.below(6) {
            0 => (w | rng.between(1, 3) as u16, l),
            1 => (w, l | rng.between(1, 3) as u16),
            2 => (w, 0),
            3 => (code_end.wrapping_sub(1) & !3, l),
            4 => (w, 4u16.wrapping_sub(w)), // Ends just above memory.
            _ => any_window(rng),
        };
        if !is_window(length, w, l) {
            return (w, l);
        }
    }
}
