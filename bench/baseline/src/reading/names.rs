//! The tracked names, found by hash, each with what is known of it.

use super::bytes::Part;
use super::event_rules::{Kind, States, ANY};
use super::instances::Key;
use super::looking::hash;

pub const MOST_NAMES: usize = 256;
pub const MOST_CORES: usize = 64;

const PLACES: usize = 1024;
const FREE: u16 = u16::MAX;

/// No instance holds the core.
pub const IDLE: Key = Key::MAX;

/// No line of the series or the count was seen.
pub const NONE_YET: u64 = u64::MAX;

pub struct Name {
    /// The name's bytes, filled up with 0.
    bytes: [u8; 64],
    len: usize,
    pub kind: Kind,
    /// A process or runnable: the last number of its series. A semaphore: its
    /// last count.
    pub last: u64,
    /// A process or runnable: the first number of its series; and while it has
    /// none, the number above all that were seen of it.
    pub first: u64,
    pub above_seen: u64,
    /// A semaphore's state.
    pub states: States,
    /// A core's: the instance that holds it, and since when that is so.
    pub holder: Key,
    pub since: u64,
    /// A core's ticks up to `since`; a process's charge is in `held`.
    pub held: u64,
    pub idle: u64,
    pub unknown: u64,
}

impl Name {
    pub fn text(&self) -> Vec<u8> {
        self.bytes[..self.len].to_vec()
    }

    /// Whether a number is the next of the series. One that begins it is above
    /// all that were seen (02, No. 5).
    #[inline(always)]
    pub fn is_next(&self, number: u64) -> bool {
        match self.last {
            NONE_YET => number >= self.above_seen,
            last => number == last + 1,
        }
    }

    /// Slices are compared as they are in plain Rust, in both ways to look at bytes.
    #[inline(always)]
    fn is(&self, text: &[u8]) -> bool {
        self.len == text.len() && self.bytes[..self.len] == *text
    }
}

pub struct Names {
    /// At each place the number of a name, or FREE; on a clash the next place.
    places: [u16; PLACES],
    pub list: Vec<Name>,
    pub core_count: usize,
}

impl Names {
    pub fn new() -> Names {
        Names { places: [FREE; PLACES], list: Vec::with_capacity(MOST_NAMES), core_count: 0 }
    }

    /// The number of a tracked name.
    #[inline(always)]
    pub fn find(&self, chunk: &[u8], part: Part) -> Option<usize> {
        if part.len == 0 || part.len > 64 {
            return None;
        }
        let text = part.of(chunk);
        let mut place = place_of(chunk, part);
        loop {
            let number = usize::from(self.places[place % PLACES]);
            let name = self.list.get(number)?;
            if name.is(text) {
                return Some(number);
            }
            place += 1;
        }
    }

    /// Adds a name that isn't tracked yet; its number.
    #[cold]
    pub fn add(&mut self, chunk: &[u8], part: Part, kind: Kind) -> usize {
        let mut place = place_of(chunk, part);
        while self.places[place % PLACES] != FREE {
            place += 1;
        }
        let number = self.list.len();
        self.places[place % PLACES] = number as u16;
        self.list.push(new_name(part.of(chunk), kind));
        if kind == Kind::Core {
            self.core_count += 1;
        }
        number
    }
}

#[inline(always)]
fn place_of(chunk: &[u8], part: Part) -> usize {
    (hash(chunk, part) >> 54) as usize
}

fn new_name(text: &[u8], kind: Kind) -> Name {
    let mut bytes = [0; 64];
    bytes[..text.len()].copy_from_slice(text);
    Name {
        bytes,
        len: text.len(),
        kind,
        last: NONE_YET,
        first: NONE_YET,
        above_seen: 0,
        states: ANY,
        holder: IDLE,
        since: 0,
        held: 0,
        idle: 0,
        unknown: 0,
    }
}
