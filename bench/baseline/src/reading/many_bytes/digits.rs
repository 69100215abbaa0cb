//! Digits, eight at a time.

use super::eight::{word_at, HIGHS, ONES};
use crate::reading::bytes::Part;

/// The number that a part of at most 17 bytes writes, if they are all digits.
#[inline(always)]
pub fn digits(chunk: &[u8], part: Part) -> Option<u64> {
    let ahead = part.len % 8;
    let mut value = 0;
    if ahead > 0 {
        let zeros = (ONES * u64::from(b'0')) >> (8 * ahead);
        value = eight_digits((word_at(chunk, part.from) << (64 - 8 * ahead)) | zeros)?;
    }
    let mut at = part.from + ahead;
    while at < part.from + part.len {
        value = value * 100_000_000 + eight_digits(word_at(chunk, at))?;
        at += 8;
    }
    Some(value)
}

/// The number that eight digits write: neighbours are joined to pairs, pairs to
/// fours, fours to all.
#[inline(always)]
fn eight_digits(word: u64) -> Option<u64> {
    let digits = word ^ (ONES * u64::from(b'0'));
    if (digits | (digits.wrapping_add(ONES * (128 - 10)))) & HIGHS != 0 {
        return None;
    }
    let pairs = (digits * 10 + (digits >> 8)) & 0x00ff_00ff_00ff_00ff;
    let fours = (pairs * 100 + (pairs >> 16)) & 0x0000_ffff_0000_ffff;
    Some((fours * 10_000 + (fours >> 32)) & 0xffff_ffff)
}
