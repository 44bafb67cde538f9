//! Which edition of the manual the library follows.

use core::fmt;

use crate::ffi;

const DATE_BYTES: usize = 17;

/// The date of a manual, as text.
#[derive(Clone, Copy, Debug, PartialEq, Eq, Hash)]
pub struct ManualDate {
    text: [u8; DATE_BYTES],
}

impl ManualDate {
    /// The date as its title page writes it.
    #[must_use]
    pub fn as_str(&self) -> &str {
        core::str::from_utf8(&self.text).expect("libpaw.a tells a date in ASCII")
    }
}

impl fmt::Display for ManualDate {
    fn fmt(&self, f: &mut fmt::Formatter<'_>) -> fmt::Result {
        f.pad(self.as_str())
    }
}

/// The date on the title page of the manual that decides.
///
/// ```
/// assert_eq!(paw::manual_date().as_str(), "20 September 2015");
/// ```
#[must_use]
pub fn manual_date() -> ManualDate {
    ManualDate { text: core::array::from_fn(ffi::manual_date_byte) }
}
