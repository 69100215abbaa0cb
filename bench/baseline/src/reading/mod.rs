//! A reader that judges a trace by the rules of document 01 and is written for
//! speed: line ends and commas are found in one pass, and whatever a line needs
//! is found by hash. Nothing is allocated for a line, and an instance that has
//! ended gives its entry back: the memory is the same however long the trace is.
//!
//! How bytes are looked at is in `looking`, which there is twice: several bytes at
//! once or, with the feature `one_byte`, one after the other. All else is common.

mod bytes;
mod chunk;
mod event_line;
mod event_rules;
mod event_table;
mod fields;
mod history;
mod instances;
mod judge;
mod line;
#[cfg(not(feature = "one_byte"))]
#[path = "many_bytes/mod.rs"]
mod looking;
#[cfg(feature = "one_byte")]
#[path = "one_byte/mod.rs"]
mod looking;
mod names;
mod numbers;
mod parameters;
mod refusal;
mod sheet;

use std::io::{self, Read};

use chunk::Chunk;
use judge::Judge;

/// What a trace is answered with.
pub struct Answer {
    pub accepted: bool,
    /// The bytes to print.
    pub text: Vec<u8>,
}

/// Reads a whole trace and judges it.
pub fn read_trace(mut input: impl Read) -> io::Result<Answer> {
    let mut chunk = Chunk::new();
    let mut judge = Judge::new();
    loop {
        let more = chunk.fill(&mut input)?;
        if !more {
            chunk.end_last_line();
        }
        if let Err(refused) = judge.take_lines(&mut chunk) {
            return Ok(sheet::refused(&refused));
        }
        if !more {
            return Ok(judge.finish(chunk.left()));
        }
    }
}
