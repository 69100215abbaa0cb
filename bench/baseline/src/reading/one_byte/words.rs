//! The words of a line, its type and its event, as the bytes that they are.

use crate::reading::bytes::Part;

/// Slices are compared as they are in plain Rust: byte by byte as it is written,
/// and by the standard library as well as it can.
#[derive(Clone, Copy, PartialEq, Eq)]
pub struct Words<'text> {
    of: &'text [u8],
    event: &'text [u8],
}

/// Those of a rule.
pub type KnownWords = Words<'static>;

impl Words<'_> {
    pub fn known(of: &'static [u8], event: &'static [u8]) -> KnownWords {
        Words { of, event }
    }

    /// None for fields that are empty, as no type and no event is.
    #[inline(always)]
    pub fn of_line(chunk: &[u8], of: Part, event: Part) -> Option<Words<'_>> {
        (of.len > 0 && event.len > 0).then(|| Words { of: of.of(chunk), event: event.of(chunk) })
    }

    /// The first place to look at. Few words have their first byte, their last and
    /// their length in common, so the bytes between need no look.
    #[inline(always)]
    pub fn place(&self) -> u8 {
        let ends = |word: &[u8]| [word[0], word[word.len() - 1], word.len() as u8];
        let fold = |hash: u32, byte: u8| hash.wrapping_mul(31).wrapping_add(byte.into());
        let folded = ends(self.of).into_iter().chain(ends(self.event)).fold(0, fold);
        (folded.wrapping_mul(0x9e37_79b9) >> 24) as u8
    }
}
