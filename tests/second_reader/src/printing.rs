//! The text that the program prints, and its exit status.

use crate::judge::{judge_trace, Verdict};
use crate::sheet::{Sheet, Ticks};

/// What a run of the program gives: bytes on standard output and a status.
#[derive(Clone, Debug, PartialEq, Eq)]
pub struct Run {
    pub printed: String,
    pub status: u8,
}

/// Exit status of an accepted and of a refused trace; 2 is for anything else,
/// such as a file that can't be read.
pub const ACCEPTED: u8 = 0;
pub const REFUSED: u8 = 1;
pub const NO_ANSWER: u8 = 2;

pub fn run_on(trace: &[u8]) -> Run {
    match judge_trace(trace) {
        // "A refused trace prints one line such as `verdict 13 line 7`."
        Verdict::Refused { number, line } => Run {
            printed: format!("verdict {number} line {line}\n"),
            status: REFUSED,
        },
        Verdict::Accepted { scale, span, sheet } => Run {
            printed: accepted_text(scale, span.into(), &sheet),
            status: ACCEPTED,
        },
    }
}

/// The whole print of an accepted trace: its verdict line and its sheet.
pub fn accepted_text(scale: &str, span: Ticks, sheet: &Sheet) -> String {
    format!("verdict 0 line 0 scale {scale} span {span}\n") + &sheet_text(sheet)
}

/// "Each section follows its count, in order of first mention; a core line
/// gives held, idle, unknown; every line ends with byte 10".
pub fn sheet_text(sheet: &Sheet) -> String {
    let mut text = format!("cores {}\n", sheet.cores.len());
    for core in &sheet.cores {
        text += &format!("{} {} {} {}\n", core.name, core.held, core.idle, core.unknown);
    }
    text += &format!("processes {}\n", sheet.processes.len());
    for process in &sheet.processes {
        text += &format!("{} {}\n", process.name, process.charge);
    }
    text
}

/// The number that a printed answer opens with.
pub fn number_of(printed: &str) -> Option<u8> {
    printed.strip_prefix("verdict ")?.split(' ').next()?.parse().ok()
}
