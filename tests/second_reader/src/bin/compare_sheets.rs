//! `compare_sheets PROGRAM COUNT SEED [FOLDER]`: makes COUNT pairs of sheets,
//! at times more than two, lets the program under test add them, and compares
//! the bytes printed and the exit status with those of the second reader. The
//! first sheets on which the two disagree are kept in FOLDER.
//!
//! `compare_sheets --spread COUNT SEED`: only counts what was made.

#![forbid(unsafe_code)]

use std::process::ExitCode;

use second_reader::adding::run_on_sheets;
use second_reader::comparing::{compare_all, report, Disagreement, USAGE};
use second_reader::making::sheets::make_sheets;
use second_reader::spread::Spread;
use second_reader::tools::{differs, run_comparison, Task};

fn main() -> ExitCode {
    run_comparison("compare_sheets", USAGE, compare)
}

/// True if the two agree, and each number, cause and way came often enough.
fn compare(task: &Task) -> Result<bool, String> {
    let mut spread = Spread::default();
    let disagreements = compare_all(task, |index, program| {
        let made = make_sheets(task.seed, index);
        let wanted = run_on_sheets(&made.sheets);
        spread.count(&made, &wanted);
        let Some(program) = program else { return Ok(None) };
        let got = program.add(&made.sheets)?;
        Ok(differs(&wanted, &got).then(|| Disagreement::new(&made.sheets, &wanted, &got)))
    })?;
    Ok(report(task, &spread.lines(task.count), disagreements))
}
