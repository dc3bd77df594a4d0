//! Decimal numbers.

/// The digits of a number, which take no memory.
pub struct Buffer {
    /// The digits are at its end.
    bytes: [u8; 20],
}

impl Buffer {
    /// No digits.
    #[allow(clippy::new_without_default)]
    pub fn new() -> Buffer {
        Buffer { bytes: [0; 20] }
    }

    /// The number as text.
    pub fn format(&mut self, number: impl Into<i64>) -> &str {
        let number = number.into();
        let (mut start, mut rest) = (self.bytes.len(), number.unsigned_abs());
        while rest > 0 || start == self.bytes.len() {
            start -= 1;
            self.bytes[start] = b'0' + (rest % 10) as u8;
            rest /= 10;
        }
        if number < 0 {
            start -= 1;
            self.bytes[start] = b'-';
        }
        core::str::from_utf8(&self.bytes[start..]).unwrap_or_default()
    }
}

#[cfg(test)]
mod tests {
    use super::*;

    #[test]
    fn numbers_have_their_digits() {
        let mut buffer = Buffer::new();
        for number in [0, 7, 10, -1, i32::MAX.into(), i64::MIN, i64::MAX] {
            assert_eq!(buffer.format(number), alloc::format!("{number}"));
        }
    }
}
