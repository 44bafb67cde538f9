//! Branch conditions.

/// Whether branch condition `cond` holds under the four flags. 14 and 15 are no conditions and
/// never hold.
pub const fn holds(cond: u8, n: bool, z: bool, c: bool, v: bool) -> bool {
    match cond {
        0 => z,
        1 => !z,
        2 => c,
        3 => !c,
        4 => n,
        5 => !n,
        6 => v,
        7 => !v,
        8 => c && !z,
        9 => !c || z,
        10 => n == v,
        11 => n != v,
        12 => !z && n == v,
        13 => z || n != v,
        _ => false,
    }
}

/// The same answer as [`holds`] without a branch, for the interpreter loop. Only the low four
/// bits of `cond` count.
#[inline(always)]
pub(crate) fn holds_fast(cond: u8, n: bool, z: bool, c: bool, v: bool) -> bool {
    let flags = u16::from(n) << 3 | u16::from(z) << 2 | u16::from(c) << 1 | u16::from(v);
    HOLDING[usize::from(cond & 15)] >> flags & 1 != 0
}

/// For each condition, one bit for each of the sixteen states of the flags, N the highest.
static HOLDING: [u16; 16] = holding_table();

const fn holding_table() -> [u16; 16] {
    let mut table = [0; 16];
    let mut cond = 0;
    while cond < table.len() {
        table[cond] = holding_states(cond as u8);
        cond += 1;
    }
    table
}

const fn holding_states(cond: u8) -> u16 {
    let mut states = 0;
    let mut flags = 0;
    while flags < 16 {
        let holds = holds(cond, flags & 8 != 0, flags & 4 != 0, flags & 2 != 0, flags & 1 != 0);
        states |= (holds as u16) << flags;
        flags += 1;
    }
    states
}
