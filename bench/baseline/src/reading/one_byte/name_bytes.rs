//! The bytes of a name, tested one after the other.

use crate::reading::bytes::Part;

/// Whether the bytes of a part, which isn't empty, may all stand in a name: 33
/// to 126.
#[inline(always)]
pub fn are_name_bytes(chunk: &[u8], part: Part) -> bool {
    part.of(chunk).iter().all(u8::is_ascii_graphic)
}
