//! Memory traffic: what a step reads from memory or writes to it, beside its fetch.

/// The data that a completed step touched. The instruction it fetched is not data.
///
/// The address is the one that was used, wrapped to 16 bits. The bytes of a halfword never wrap:
/// only at an address that 4 divides is such an access completed.
#[derive(Clone, Copy, Debug, Default, PartialEq, Eq, Hash)]
pub enum Touched {
    /// None, as for every instruction but loads and stores.
    #[default]
    NoData,
    /// What LDR or LDRB read.
    Read {
        /// Address of the first byte.
        address: u16,
        /// Number of bytes: 2 for a halfword, 1 for a byte.
        bytes: u8,
    },
    /// What STR or STRB wrote, whether or not that changed it.
    Wrote {
        /// Address of the first byte.
        address: u16,
        /// Number of bytes: 2 for a halfword, 1 for a byte.
        bytes: u8,
    },
}
