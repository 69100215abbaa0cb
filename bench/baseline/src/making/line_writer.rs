//! Lines, gathered as bytes.

use std::fmt::Arguments;
use std::io::Write;

use super::clock::Clock;

/// An entity and the number of its instance.
pub type Entity<'name> = (&'name str, u64);

pub struct LineWriter {
    text: Vec<u8>,
    /// How many bytes were cleared, and how many lines there are with them.
    cleared: u64,
    lines: u64,
    /// It tells the time of the lines that follow.
    pub clock: Clock,
}

impl LineWriter {
    pub fn new(clock: Clock) -> LineWriter {
        LineWriter { text: Vec::new(), cleared: 0, lines: 0, clock }
    }

    pub fn text(&self) -> &[u8] {
        &self.text
    }

    pub fn clear(&mut self) {
        self.cleared += self.text.len() as u64;
        self.text.clear();
    }

    /// All bytes so far.
    pub fn bytes(&self) -> u64 {
        self.cleared + self.text.len() as u64
    }

    /// All lines so far.
    pub fn lines(&self) -> u64 {
        self.lines
    }

    /// Takes back the last lines, as far as they weren't cleared, so that so many
    /// are left.
    pub fn cut_to(&mut self, lines: u64) {
        while self.lines > lines && self.text.pop().is_some() {
            let end = self.text.iter().rposition(|&byte| byte == b'\n');
            self.text.truncate(end.map_or(0, |end| end + 1));
            self.lines -= 1;
        }
    }

    /// A parameter or a comment.
    pub fn plain(&mut self, line: Arguments) {
        self.put(format_args!("{line}\n"));
    }

    pub fn event(&mut self, source: Entity, of: &str, target: Entity, event: &str) {
        let now = self.clock.time();
        self.put(format_args!("{now},{},{},{of},{},{},{event}\n", source.0, source.1, target.0, target.1));
    }

    pub fn event_with_note(&mut self, source: Entity, of: &str, target: Entity, event: &str, note: Arguments) {
        let now = self.clock.time();
        self.put(format_args!("{now},{},{},{of},{},{},{event},{note}\n", source.0, source.1, target.0, target.1));
    }

    /// Adds one line.
    fn put(&mut self, what: Arguments) {
        self.lines += 1;
        // a list of bytes takes whatever is written to it
        let _ = self.text.write_fmt(what);
    }
}
