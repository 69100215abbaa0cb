//! The bytes of a name, tested eight at a time.

use super::eight::{first_bytes, word_at, HIGHS, ONES};
use crate::reading::bytes::Part;

/// Whether the bytes of a part, which isn't empty, may all stand in a name: 33
/// to 126.
#[inline(always)]
pub fn are_name_bytes(chunk: &[u8], part: Part) -> bool {
    let mut at = part.from;
    let mut left = part.len;
    while left > 8 {
        if !all_eight(word_at(chunk, at)) {
            return false;
        }
        at += 8;
        left -= 8;
    }
    // what lies behind the name counts as its bytes 33
    let behind = (ONES * 33) & !first_bytes(u64::MAX, left);
    all_eight(first_bytes(word_at(chunk, at), left) | behind)
}

#[inline(always)]
fn all_eight(word: u64) -> bool {
    let ascii = word & !HIGHS;
    let from_33 = ascii + ONES * (128 - 33);
    let from_127 = ascii + ONES;
    (word | !from_33 | from_127) & HIGHS == 0
}
