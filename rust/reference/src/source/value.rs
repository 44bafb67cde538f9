//! Values: decimal numbers behind a `#`.

/// A number as it is written. It may have any length, so it stays text until a field is to hold it.
#[derive(Clone, Copy, Debug)]
pub struct Value<'a> {
    digits: &'a str,
}

impl<'a> Value<'a> {
    /// The value that a word says. Only the number 0 starts with a 0.
    pub fn read(word: &'a str) -> Option<Self> {
        let digits = word.strip_prefix('#')?;
        let all_digits = !digits.is_empty() && digits.bytes().all(|byte| byte.is_ascii_digit());
        let leading_zero = digits != "0" && digits.starts_with('0');
        (all_digits && !leading_zero).then_some(Value { digits })
    }

    /// What a field holds for this value, if it counts in steps of `step` and holds up to `most`
    /// of them.
    pub fn in_field(self, step: u16, most: u16) -> Option<u8> {
        // The largest value of any field is 1,020, so what 16 bits do not hold fits nowhere.
        let value: u16 = self.digits.parse().ok()?;
        let fits = value.is_multiple_of(step) && value / step <= most;
        fits.then_some((value / step) as u8)
    }
}
