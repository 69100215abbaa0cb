//! The fixed sample: the cases of the documents, and some made traces for each
//! number, all from one seed. It is the same whenever it is written.

use crate::cases::sample_cases;
use crate::container::LabelledTrace;
use crate::making::make_trace;
use crate::printing::{number_of, run_on};

const SEED: u64 = 220;

/// The traces that are looked through for the made part.
const MADE: u64 = 4_800;

/// Of each number 0 to 14 at least so many traces in all, and so many made.
const LEAST: usize = 6;
const LEAST_MADE: usize = 2;

/// Long traces stay out of the made part; the documents' cases have some. A
/// trace that earns 10 has at least 65 event lines.
const LONGEST: usize = 4_000;

pub fn fixed_sample() -> Vec<LabelledTrace> {
    let cases = sample_cases().into_iter();
    let mut sample: Vec<LabelledTrace> =
        cases.map(|case| LabelledTrace { label: case.label, bytes: case.trace }).collect();
    for number in 0..=14 {
        let there = sample.iter().filter(|trace| answer_to(&trace.bytes) == Some(number)).count();
        let wanted = LEAST.saturating_sub(there).max(LEAST_MADE);
        sample.extend(made_traces(number, wanted));
    }
    sample
}

fn answer_to(trace: &[u8]) -> Option<u8> {
    number_of(&run_on(trace).printed)
}

fn made_traces(number: u8, count: usize) -> Vec<LabelledTrace> {
    (0..MADE)
        .map(|index| (index, make_trace(SEED, index).bytes))
        .filter(|(_, bytes)| bytes.len() <= LONGEST && answer_to(bytes) == Some(number))
        .take(count)
        .map(|(index, bytes)| LabelledTrace { label: format!("made-{SEED}-{index:06}"), bytes })
        .collect()
}
