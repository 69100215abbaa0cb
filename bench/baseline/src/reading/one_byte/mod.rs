//! One byte of a trace looked at after the other, as one writes it without a
//! thought of words: the way that the feature `one_byte` builds. What the
//! compiler makes of it is the compiler's.

mod digits;
mod hash;
mod lines;
mod name_bytes;
mod words;

pub use digits::digits;
pub use hash::hash;
pub use lines::LineFinder;
pub use name_bytes::are_name_bytes;
pub use words::{KnownWords, Words};
