//! Several bytes of a trace looked at together: the way that is built unless
//! `one_byte` is asked for.

mod digits;
mod eight;
mod hash;
mod lines;
mod name_bytes;
mod words;

pub use digits::digits;
pub use hash::hash;
pub use lines::LineFinder;
pub use name_bytes::are_name_bytes;
pub use words::{KnownWords, Words};
