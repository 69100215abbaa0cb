//! A second reader of Best Trace Format 2.2.0 traces, written from the
//! documents alone, to be compared with the program that it checks.
//!
//! It is written to be plainly right, not quick: one function for each rule,
//! with the sentence of document 01 that it follows.

#![forbid(unsafe_code)]

// The reader.
pub mod adding;
pub mod charts;
pub mod cores;
pub mod dates;
pub mod event_line;
pub mod field_rules;
pub mod forms;
pub mod history;
pub mod judge;
pub mod lines;
pub mod parameters;
pub mod printing;
pub mod refusals;
pub mod semaphores;
pub mod sheet;
pub mod words;

// What the comparison needs besides.
pub mod cases;
pub mod comparing;
pub mod container;
pub mod making;
pub mod orders;
pub mod pair_sample;
pub mod pairs;
pub mod sample;
pub mod spread;
pub mod tools;
pub mod ways;
