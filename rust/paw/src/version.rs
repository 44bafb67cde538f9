//! Which version the library and this crate are.

use core::fmt;

use crate::ffi;

/// The version of this crate, as text.
pub const VERSION: &str = env!("CARGO_PKG_VERSION");

/// A version of the library. A later one is greater.
#[derive(Clone, Copy, Debug, PartialEq, Eq, PartialOrd, Ord, Hash)]
pub struct Version {
    /// The major number.
    pub major: u16,
    /// The minor number.
    pub minor: u8,
    /// The patch.
    pub patch: u8,
}

impl fmt::Display for Version {
    fn fmt(&self, f: &mut fmt::Formatter<'_>) -> fmt::Result {
        write!(f, "{}.{}.{}", self.major, self.minor, self.patch)
    }
}

/// The version of the library that is linked. It is [`VERSION`] if the two belong together.
///
/// ```
/// assert_eq!(paw::version().to_string(), paw::VERSION);
/// ```
#[must_use]
pub fn version() -> Version {
    let [high, low, minor, patch] = ffi::version().to_be_bytes();
    Version { major: u16::from_be_bytes([high, low]), minor, patch }
}
