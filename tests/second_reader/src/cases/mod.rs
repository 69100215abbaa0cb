//! Traces whose answers the documents give. The expected text is written from
//! the documents, never copied from a run.

mod full_table;
mod listings;
mod long_runs;
mod old_instances;
mod readings;
mod requests;
mod scope;
pub mod sheets;

/// The two lines that document 01's examples begin with.
pub const PRELUDE: &str = "#version 2.2.0\n#timeScale ns\n";

pub struct Case {
    /// One word, without blanks.
    pub label: String,
    pub trace: Vec<u8>,
    /// What the program must print.
    pub printed: String,
}

/// Every case: the examples of document 01, the listings of document 000, the
/// settled readings, and the requests of document 02 that have landed.
pub fn all_cases() -> Vec<Case> {
    let mut cases = sample_cases();
    cases.extend(long_runs::longer_cases());
    cases.extend(full_table::cases());
    cases
}

/// Those that the sample has: all but many long ones.
pub fn sample_cases() -> Vec<Case> {
    let mut cases = scope::cases();
    cases.extend(listings::cases());
    cases.extend(readings::cases());
    cases.extend(requests::cases());
    cases
}

/// Event lines after the prelude, each with its end.
fn after_prelude(lines: &[&str]) -> Vec<u8> {
    let mut trace = PRELUDE.as_bytes().to_vec();
    for line in lines {
        trace.extend_from_slice(line.as_bytes());
        trace.push(b'\n');
    }
    trace
}

/// So many started instances of runnable r, from 0 on. They all live, so that
/// each needs an entry, and the next one is `count`.
fn living(count: usize) -> Vec<String> {
    (0..count).map(|k| format!("0,P,0,R,r,{k},start")).collect()
}

fn refused(label: &str, trace: impl Into<Vec<u8>>, number: u8, line: u64) -> Case {
    Case {
        label: label.to_string(),
        trace: trace.into(),
        printed: format!("verdict {number} line {line}\n"),
    }
}

/// An accepted trace: `sheet` holds the lines from `cores` on.
fn accepted(label: &str, trace: impl Into<Vec<u8>>, span: u64, sheet: &[&str]) -> Case {
    let mut printed = format!("verdict 0 line 0 scale ns span {span}\n");
    for line in sheet {
        printed += line;
        printed.push('\n');
    }
    Case { label: label.to_string(), trace: trace.into(), printed }
}

/// The sheet of a trace that tracks no core and no process.
const EMPTY_SHEET: [&str; 2] = ["cores 0", "processes 0"];
