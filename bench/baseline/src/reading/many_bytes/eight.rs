//! Eight bytes at a time, as words with the first byte lowest.

pub const ONES: u64 = 0x0101_0101_0101_0101;
pub const HIGHS: u64 = 0x8080_8080_8080_8080;

/// The eight bytes from a place on.
#[inline(always)]
pub fn word_at(chunk: &[u8], at: usize) -> u64 {
    let mut eight = [0; 8];
    eight.copy_from_slice(&chunk[at..at + 8]);
    u64::from_le_bytes(eight)
}

/// A word with only its first bytes kept, 1 to 8 of them, and 0 for the rest.
#[inline(always)]
pub fn first_bytes(word: u64, count: usize) -> u64 {
    word & (u64::MAX >> (64 - 8 * count))
}
