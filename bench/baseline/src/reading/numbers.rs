//! Decimal numbers.

use super::bytes::Part;
use super::looking::digits;

pub const MOST_TIME: u64 = (1 << 56) - 1;
pub const MOST_INSTANCE: u64 = u32::MAX as u64;

/// The most digits of a time, which is the largest of the numbers.
const MOST_DIGITS: usize = 17;

/// The number that a part writes, with no sign and no leading zero, if it is at
/// most `most`.
#[inline(always)]
pub fn number(chunk: &[u8], part: Part, most: u64) -> Option<u64> {
    if part.len == 1 {
        let digit = chunk[part.from].wrapping_sub(b'0');
        return (digit <= 9).then_some(u64::from(digit));
    }
    long_number(chunk, part).filter(|&value| value <= most)
}

/// A number of at least two digits.
#[inline]
fn long_number(chunk: &[u8], part: Part) -> Option<u64> {
    if part.len == 0 || part.len > MOST_DIGITS || chunk[part.from] == b'0' {
        return None;
    }
    digits(chunk, part)
}

#[cfg(test)]
mod tests {
    use super::*;

    fn read(text: &str, most: u64) -> Option<u64> {
        let mut chunk = text.as_bytes().to_vec();
        chunk.extend_from_slice(b",12345678901234567890");
        number(&chunk, Part::between(0, text.len()), most)
    }

    #[test]
    fn numbers_of_every_length_are_read() {
        let digits = "72057594037927935";
        for len in 1..=digits.len() {
            assert_eq!(read(&digits[..len], MOST_TIME), digits[..len].parse().ok());
        }
        assert_eq!(read("0", MOST_TIME), Some(0));
        assert_eq!(read("4294967295", MOST_INSTANCE), Some(4_294_967_295));
    }

    #[test]
    fn numbers_out_of_size_or_form_are_none() {
        for text in
            ["", "00", "01", "-1", "+1", "1 ", "1x", "x1", "72057594037927936", "100000000000000000", "12345678:"]
        {
            assert_eq!(read(text, MOST_TIME), None, "{text}");
        }
        assert_eq!(read("4294967296", MOST_INSTANCE), None);
    }

    #[test]
    fn every_other_byte_is_no_digit() {
        for byte in (0..=255u8).filter(|byte| !byte.is_ascii_digit()) {
            for at in 0..12 {
                let mut chunk = b"123456789012,00000000".to_vec();
                chunk[at] = byte;
                assert_eq!(number(&chunk, Part::between(0, 12), MOST_TIME), None);
            }
        }
    }
}
