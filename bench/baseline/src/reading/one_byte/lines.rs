//! Lines and their commas, found in one walk over the bytes of a line.

use crate::reading::line::{Line, NOWHERE};

/// A walk needs no room of its own.
pub struct LineFinder;

impl LineFinder {
    pub fn for_chunks_of(_bytes: usize) -> LineFinder {
        LineFinder
    }

    /// The lines of a text, as far as they have an end.
    pub fn lines<'chunk>(&'chunk mut self, text: &'chunk [u8]) -> impl Iterator<Item = Line> + 'chunk {
        let mut from = 0;
        std::iter::from_fn(move || {
            let line = walk(text, from)?;
            from = line.end + 1;
            Some(line)
        })
    }
}

/// Goes from the start of a line to its end and notes the first eight commas.
#[inline(always)]
fn walk(text: &[u8], from: usize) -> Option<Line> {
    let mut commas = [NOWHERE; 8];
    let mut count = 0;
    for (&byte, at) in text[from..].iter().zip(from..) {
        // letters and digits, nearly all that a line has, are passed with one test
        if byte > b',' {
            continue;
        }
        if byte == b'\n' {
            return Some(Line { from, end: at, commas });
        }
        if byte == b',' && count < 8 {
            commas[count] = at as u32;
            count += 1;
        }
    }
    None
}
