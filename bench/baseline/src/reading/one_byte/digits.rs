//! Digits, one after the other.

use crate::reading::bytes::Part;

/// The number that a part of at most 17 bytes writes, if they are all digits.
#[inline(always)]
pub fn digits(chunk: &[u8], part: Part) -> Option<u64> {
    let mut value = 0;
    for byte in part.of(chunk) {
        let digit = byte.wrapping_sub(b'0');
        if digit > 9 {
            return None;
        }
        value = value * 10 + u64::from(digit);
    }
    Some(value)
}
