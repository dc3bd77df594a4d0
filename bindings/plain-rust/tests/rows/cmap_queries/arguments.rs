//! Arguments that are numbers.

/// The number with these decimal digits, if it fits in 64 bits.
pub fn decimal(digits: &str) -> Option<u64> {
    if digits.starts_with('+') { None } else { digits.parse().ok() }
}
