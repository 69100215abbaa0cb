//! Parts of a chunk, and which of them are names.

use super::looking::are_name_bytes;

/// A part of the chunk: where it starts and how long it is.
#[derive(Clone, Copy)]
pub struct Part {
    pub from: usize,
    pub len: usize,
}

impl Part {
    #[inline(always)]
    pub fn between(from: usize, to: usize) -> Part {
        Part { from, len: to - from }
    }

    #[inline(always)]
    pub fn of(self, chunk: &[u8]) -> &[u8] {
        &chunk[self.from..self.from + self.len]
    }
}

/// Whether a part is a name: 1 to 64 bytes from 33 to 126. It holds no comma,
/// being a field.
#[inline(always)]
pub fn is_name(chunk: &[u8], part: Part) -> bool {
    (1..=64).contains(&part.len) && are_name_bytes(chunk, part)
}

#[cfg(test)]
mod tests {
    use super::*;

    fn name(text: &[u8]) -> bool {
        let mut chunk = text.to_vec();
        chunk.resize(text.len() + 80, b'\n');
        is_name(&chunk, Part::between(0, text.len()))
    }

    #[test]
    fn every_byte_is_sorted_right_at_every_place() {
        for byte in 0..=255 {
            for len in [1, 7, 8, 9, 16, 63, 64] {
                for at in 0..len {
                    let mut text = vec![b'x'; len];
                    text[at] = byte;
                    assert_eq!(name(&text), (33..=126).contains(&byte), "byte {byte} at {at} of {len}");
                }
            }
        }
    }

    #[test]
    fn names_have_1_to_64_bytes() {
        assert!(!name(b""));
        assert!(name(&[b'a'; 64]));
        assert!(!name(&[b'a'; 65]));
    }
}
