//! The hash of a name, of eight bytes at a time.

use super::eight::{first_bytes, word_at};
use crate::reading::bytes::Part;

/// Every byte counts, since names share long beginnings or endings. The part has
/// 1 to 64 bytes; the upper bits of the hash are the best.
#[inline(always)]
pub fn hash(chunk: &[u8], part: Part) -> u64 {
    const FACTOR: u64 = 0x9e37_79b9_7f4a_7c15;
    let window = &chunk[part.from..part.from + 64];
    let whole = (part.len - 1) & !7;
    let mut hash = 0u64;
    for eight in window[..whole].chunks_exact(8) {
        hash = (hash.rotate_left(29) ^ word_at(eight, 0)).wrapping_mul(FACTOR);
    }
    (hash.rotate_left(29) ^ first_bytes(word_at(window, whole), part.len - whole)).wrapping_mul(FACTOR)
}
