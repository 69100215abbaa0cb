//! Standard input in chunks of at most 64 KiB.

use std::io::{self, ErrorKind, Read};

use super::line::{Line, BLOCK};
use super::looking::LineFinder;

const MOST_BYTES: usize = 64 * 1024;

/// The longest beginning of a line that may still become a line: 1,023 bytes
/// and the byte 13 of its end.
pub const MOST_KEPT: usize = 1024;

/// The bytes behind a chunk that words may reach into.
const BEHIND: usize = 2 * BLOCK;

pub struct Chunk {
    bytes: Vec<u8>,
    have: usize,
    finder: LineFinder,
}

impl Chunk {
    pub fn new() -> Chunk {
        Chunk { bytes: vec![0; MOST_BYTES + BEHIND], have: 0, finder: LineFinder::for_chunks_of(MOST_BYTES + BEHIND) }
    }

    /// Reads behind what was kept; whether there was more to read.
    pub fn fill(&mut self, input: &mut impl Read) -> io::Result<bool> {
        let got = read(input, &mut self.bytes[self.have..MOST_BYTES])?;
        self.have += got;
        Ok(got > 0)
    }

    /// Gives a last line the end that it lacks. One that closes with byte 13 is
    /// left as it is, since only a byte 13 before a byte 10 belongs to the end.
    pub fn end_last_line(&mut self) {
        if self.have > 0 && self.bytes[self.have - 1] != b'\r' {
            self.bytes[self.have] = b'\n';
            self.have += 1;
        }
    }

    /// The whole lines; and the bytes, with some behind them that belong to no
    /// line.
    pub fn lines(&mut self) -> (impl Iterator<Item = Line> + '_, &[u8]) {
        let blocks = self.have.div_ceil(BLOCK) * BLOCK;
        self.bytes[self.have..blocks].fill(0);
        (self.finder.lines(&self.bytes[..blocks]), &self.bytes)
    }

    /// Drops the lines before a place.
    pub fn keep_from(&mut self, from: usize) {
        self.bytes.copy_within(from..self.have, 0);
        self.have -= from;
    }

    /// How many bytes are left.
    pub fn left(&self) -> usize {
        self.have
    }
}

fn read(input: &mut impl Read, room: &mut [u8]) -> io::Result<usize> {
    loop {
        match input.read(room) {
            Err(error) if error.kind() == ErrorKind::Interrupted => {}
            result => return result,
        }
    }
}
