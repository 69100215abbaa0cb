//! The words of a line, its type and its event, eight bytes at a time.

use super::eight::{first_bytes, word_at};
use crate::reading::bytes::Part;

/// The longest type is SCHED, the longest event interrupt_suspended.
const MOST_TYPE: usize = 8;
const MOST_EVENT: usize = 24;

/// A type and an event, filled up with 0, and how long they are: a line's field
/// may hold bytes 0 itself.
#[derive(Clone, Copy, PartialEq, Eq)]
pub struct Words {
    of: u64,
    event: [u64; 3],
    lengths: [usize; 2],
}

/// Those of a rule.
pub type KnownWords = Words;

impl Words {
    pub fn known(of: &[u8], event: &[u8]) -> KnownWords {
        Words {
            of: word_of(of, 0),
            event: [word_of(event, 0), word_of(event, 8), word_of(event, 16)],
            lengths: [of.len(), event.len()],
        }
    }

    /// None for fields that are too short or too long for any type or event.
    #[inline(always)]
    pub fn of_line(chunk: &[u8], of: Part, event: Part) -> Option<Words> {
        if of.len == 0 || of.len > MOST_TYPE || event.len == 0 || event.len > MOST_EVENT {
            return None;
        }
        let kind = first_bytes(word_at(chunk, of.from), of.len);
        let mut words = [0; 3];
        let mut left = event.len;
        for (word, at) in words.iter_mut().zip([0, 8, 16]) {
            *word = first_bytes(word_at(chunk, event.from + at), left.min(8));
            if left <= 8 {
                break;
            }
            left -= 8;
        }
        Some(Words { of: kind, event: words, lengths: [of.len, event.len] })
    }

    /// The first place to look at.
    #[inline(always)]
    pub fn place(&self) -> u8 {
        let mixed = self.of.wrapping_mul(0x9e37_79b9_7f4a_7c15)
            ^ self.event[0].wrapping_mul(0xff51_afd7_ed55_8ccd)
            ^ self.event[1].wrapping_mul(0xc4ce_b9fe_1a85_ec53);
        (mixed.wrapping_mul(0x9e37_79b9_7f4a_7c15) >> 56) as u8
    }
}

/// Eight bytes of a short text as a word, or as many as there are.
fn word_of(text: &[u8], from: usize) -> u64 {
    let mut word = 0;
    let mut at = from;
    while at < text.len() && at < from + 8 {
        word |= (text[at] as u64) << (8 * (at - from));
        at += 1;
    }
    word
}
