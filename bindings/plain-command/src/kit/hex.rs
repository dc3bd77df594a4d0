//! Hexadecimal digits.

/// Writes the bytes of pairs of digits. An error if there are other bytes, or not two digits for each byte.
pub fn decode_to_slice(digits: &[u8], bytes: &mut [u8]) -> Result<(), ()> {
    let pairs = digits.chunks_exact(2);
    if !pairs.remainder().is_empty() || pairs.len() != bytes.len() {
        return Err(());
    }
    for (byte, pair) in bytes.iter_mut().zip(pairs) {
        let digit = |at: usize| char::from(pair[at]).to_digit(16).ok_or(());
        *byte = (16 * digit(0)? + digit(1)?) as u8;
    }
    Ok(())
}
