//! The hash of a name, folded byte after byte.

use crate::reading::bytes::Part;

/// Every byte counts, since names share long beginnings or endings. The upper
/// bits of the hash are the best.
#[inline(always)]
pub fn hash(chunk: &[u8], part: Part) -> u64 {
    let fold = |hash: u64, &byte: &u8| hash.wrapping_mul(31).wrapping_add(byte.into());
    part.of(chunk).iter().fold(0, fold).wrapping_mul(0x9e37_79b9_7f4a_7c15)
}
