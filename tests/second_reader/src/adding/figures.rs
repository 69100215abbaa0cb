//! The numbers of a printed sheet, which may have any number of digits.

use crate::sheet::Ticks;

/// The digits that are read exactly.
const DIGITS: usize = 30;

/// What a number of more digits is read as.
pub const BEYOND: Ticks = 1_000_000_000_000_000_000_000_000_000_000;

/// "no sign, no leading zero": the digits of a number, however many.
///
/// A number of more than 30 digits is 10^30 or more and is read as 10^30. No
/// answer depends on the difference: a figure is compared with a span, below
/// 2^56, or with the held ticks of 64 such cores, below 2^62; a count with the
/// lines of a file. 10^30 is above them all, alone and with other figures added
/// to it, and so is the number itself. And nothing wraps: sums are taken over
/// 256 figures at most, and 256 times 10^30 is far below 2^128.
pub fn read_figure(field: &[u8]) -> Option<Ticks> {
    let is_number = !field.is_empty() && field.iter().all(u8::is_ascii_digit);
    let leading_zero = field.len() > 1 && field[0] == b'0';
    if !is_number || leading_zero {
        return None;
    }
    if field.len() > DIGITS {
        return Some(BEYOND);
    }
    Some(field.iter().fold(0, |value, &digit| value * 10 + Ticks::from(digit - b'0')))
}

#[cfg(test)]
mod tests {
    use super::*;

    #[test]
    fn figures_of_any_size() {
        assert_eq!(read_figure(b"0"), Some(0));
        assert_eq!(read_figure(b"18446744073709551616"), Some(18_446_744_073_709_551_616));
        assert_eq!(read_figure(&[b'9'; 30]), Some(BEYOND - 1));
        assert_eq!(read_figure(&[b'1'; 31]), Some(BEYOND));
        assert_eq!(read_figure(&[b'9'; 400]), Some(BEYOND));
    }

    #[test]
    fn other_texts_are_no_figures() {
        for wrong in ["", "00", "01", "+1", "-1", "-0", " 1", "1 ", "1.0", "1e3", "a", "1\r", "1,000", "\u{661}"] {
            assert_eq!(read_figure(wrong.as_bytes()), None, "{wrong:?}");
        }
        assert_eq!(read_figure(&[b'0'; 40]), None);
    }
}
