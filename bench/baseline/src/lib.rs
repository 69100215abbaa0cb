//! What the program is measured with: a maker of long traces, and a reader of
//! traces that is written for speed in plain Rust. With the feature `one_byte` it
//! looks at one byte of a trace at a time.

#![forbid(unsafe_code)]

pub mod making;
pub mod reading;
