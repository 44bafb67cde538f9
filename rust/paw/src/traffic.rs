//! Which data a step touched.

use core::fmt;
use core::ops::Range;

/// The data that a completed step touched: whether it read or wrote them, how many bytes they are,
/// and the address of the first, as the machine used it, wrapped to 16 bits.
///
/// Only loads and stores touch data: the instruction that a step fetches is none. What is told as
/// written was written, be it with the bytes that stood there before.
///
/// ```
/// use paw::{Machine, Traffic};
///
/// let mut memory = vec![0; paw::MEMORY_BYTES];
/// memory[..2].copy_from_slice(&0x7141_u16.to_le_bytes()); // STRB R1, [R0, #5]
/// let mut machine = Machine::default();
/// [machine.regs[0], machine.regs[1]] = [0xFFFF, 7];
/// let traffic = paw::run(&mut machine, &mut memory, 1)?.traffic;
/// assert_eq!(traffic, Traffic::WroteByte(4)); // behind the last address comes the first
/// assert_eq!(traffic.to_string(), "wrote 1 byte at 4");
/// assert_eq!(memory[traffic.range()], [7]);
/// # Ok::<(), paw::Refusal>(())
/// ```
#[derive(Clone, Copy, Debug, Default, PartialEq, Eq, Hash)]
pub enum Traffic {
    /// None.
    #[default]
    NoData,
    /// The byte at this address was read, by LDRB.
    ReadByte(u16),
    /// The halfword at this address was read, by LDR.
    ReadHalfword(u16),
    /// The byte at this address was written, by STRB.
    WroteByte(u16),
    /// The halfword at this address was written, by STR.
    WroteHalfword(u16),
}

use Traffic::*;

impl Traffic {
    /// The traffic that an answer's kind and address stand for.
    pub(crate) fn from_numbers(kind: u8, address: u16) -> Self {
        match (kind, address) {
            (0, 0) => NoData,
            (1, _) => ReadByte(address),
            (2, _) => ReadHalfword(address),
            (3, _) => WroteByte(address),
            (4, _) => WroteHalfword(address),
            _ => panic!("libpaw.a tells of an access of kind {kind} at {address}"),
        }
    }

    /// The address of the first byte, if any was touched.
    #[must_use]
    pub const fn address(self) -> Option<u16> {
        match self {
            NoData => None,
            ReadByte(address) | ReadHalfword(address) => Some(address),
            WroteByte(address) | WroteHalfword(address) => Some(address),
        }
    }

    /// How many bytes were touched: 0, 1 or 2.
    #[must_use]
    pub const fn bytes(self) -> usize {
        match self {
            NoData => 0,
            ReadByte(_) | WroteByte(_) => 1,
            ReadHalfword(_) | WroteHalfword(_) => 2,
        }
    }

    /// Whether data were read.
    #[must_use]
    pub const fn is_read(self) -> bool {
        matches!(self, ReadByte(_) | ReadHalfword(_))
    }

    /// Whether data were written.
    #[must_use]
    pub const fn is_write(self) -> bool {
        matches!(self, WroteByte(_) | WroteHalfword(_))
    }

    /// The bytes of memory that were touched; `0..0` if none were. What a step or a run tells never
    /// passes the end of memory, since 4 divides the address of a halfword.
    #[must_use]
    pub const fn range(self) -> Range<usize> {
        match self.address() {
            None => 0..0,
            Some(address) => address as usize..address as usize + self.bytes(),
        }
    }
}

impl fmt::Display for Traffic {
    fn fmt(&self, f: &mut fmt::Formatter<'_>) -> fmt::Result {
        match self {
            NoData => f.write_str("no data"),
            ReadByte(address) => write!(f, "read 1 byte at {address}"),
            ReadHalfword(address) => write!(f, "read 2 bytes at {address}"),
            WroteByte(address) => write!(f, "wrote 1 byte at {address}"),
            WroteHalfword(address) => write!(f, "wrote 2 bytes at {address}"),
        }
    }
}
