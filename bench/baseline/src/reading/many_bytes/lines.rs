//! Lines and their commas. All separators of a chunk are found in one pass over
//! blocks of bytes, with hardly a branch to guess.

use super::eight::{word_at, ONES};
use crate::reading::line::{Line, BLOCK, NOWHERE};

/// The places of a chunk's separators. Eight places NOWHERE follow the last
/// comma, so that eight can be taken anywhere.
pub struct LineFinder {
    commas: Vec<u32>,
    ends: Vec<u32>,
}

impl LineFinder {
    /// For chunks of so many bytes.
    pub fn for_chunks_of(bytes: usize) -> LineFinder {
        let places = vec![NOWHERE; bytes + BLOCK];
        LineFinder { commas: places.clone(), ends: places }
    }

    /// The lines of a text of whole blocks, as far as they have an end.
    pub fn lines<'chunk>(&'chunk mut self, text: &'chunk [u8]) -> impl Iterator<Item = Line> + 'chunk {
        let (mut comma_count, mut end_count, mut base) = (0, 0, 0);
        for block in text.as_chunks::<BLOCK>().0 {
            comma_count = push::<8>(&mut self.commas, comma_count, base, mask(block, b','));
            end_count = push::<2>(&mut self.ends, end_count, base, mask(block, b'\n'));
            base += BLOCK as u32;
        }
        self.commas[comma_count..comma_count + 8].fill(NOWHERE);
        let (mut commas, mut from) = (Commas { all: &self.commas, passed: 0 }, 0);
        self.ends[..end_count].iter().map(move |&end| {
            let line = Line { from, end: end as usize, commas: commas.pass(end) };
            from = line.end + 1;
            line
        })
    }
}

struct Commas<'chunk> {
    all: &'chunk [u32],
    passed: usize,
}

impl Commas<'_> {
    /// The next eight commas; those before the end of their line are passed.
    #[inline(always)]
    fn pass(&mut self, end: u32) -> [u32; 8] {
        let first = self.next_eight();
        let mut eight = first;
        loop {
            let count = eight.iter().filter(|&&comma| comma < end).count();
            self.passed += count;
            if count < 8 {
                return first;
            }
            eight = self.next_eight();
        }
    }

    #[inline(always)]
    fn next_eight(&self) -> [u32; 8] {
        self.all[self.passed..].first_chunk().copied().unwrap_or([NOWHERE; 8])
    }
}

/// One bit for each byte of the block that equals the byte asked for. A byte of
/// a group of eight gets the weight of its bit, and then a product adds up the
/// group in its highest byte.
#[inline(always)]
fn mask(block: &[u8; BLOCK], byte: u8) -> u64 {
    let mut weighted = [0; BLOCK];
    for (at, (weight, &text)) in weighted.iter_mut().zip(block).enumerate() {
        *weight = if text == byte { 1 << (at % 8) } else { 0 };
    }
    let mut mask = 0;
    for (group, at) in weighted.chunks_exact(8).zip(0..) {
        mask |= (word_at(group, 0).wrapping_mul(ONES) >> 56) << (8 * at);
    }
    mask
}

/// Adds the place of each bit to a list. It writes `AT_ONCE` places even where
/// fewer are left; the next ones overwrite what was too much.
#[inline(always)]
fn push<const AT_ONCE: usize>(list: &mut [u32], count: usize, base: u32, bits: u64) -> usize {
    let total = bits.count_ones() as usize;
    let mut left = bits;
    let mut done = 0;
    while done < total {
        for place in &mut list[count + done..count + done + AT_ONCE] {
            *place = base + left.trailing_zeros();
            left &= left.wrapping_sub(1);
        }
        done += AT_ONCE;
    }
    count + total
}
