//! `compare_orders PROGRAM COUNT SEED [FOLDER]`: makes COUNT triples of sheets,
//! lets the program under test add each in all six orders, by one call and in
//! both groupings, and compares the bytes printed and the exit status with those
//! of the second reader, and with what the sheets make in no order at all. The
//! first sheets on which the two disagree are kept in FOLDER.
//!
//! `compare_orders --spread COUNT SEED`: only counts what was made.

#![forbid(unsafe_code)]

use std::process::{ExitCode, Output};

use second_reader::adding::at_once::{add_at_once, unchanged};
use second_reader::adding::run_of;
use second_reader::comparing::{compare_all, report, Disagreement, USAGE};
use second_reader::making::sheets::triples::make_triple;
use second_reader::orders::{add_in_every_order, run_in_every_order, Added, Answers, Triple, PAIRS};
use second_reader::printing::{Run, NO_ANSWER, REFUSED};
use second_reader::spread::orders::OrderSpread;
use second_reader::spread::NUMBERS;
use second_reader::tools::{differs, run_comparison, Task};

fn main() -> ExitCode {
    run_comparison("compare_orders", USAGE, compare)
}

/// True if the two agree, and each number and way came often enough.
fn compare(task: &Task) -> Result<bool, String> {
    let mut spread = OrderSpread::default();
    let disagreements = compare_all(task, |index, program| {
        let sheets = make_triple(task.seed, index).sheets;
        let wanted = run_in_every_order(&sheets);
        spread.count(&sheets, &wanted);
        let Some(program) = program else { return Ok(None) };
        let got = add_in_every_order(&sheets, |some| program.add(some))?;
        Ok(disagreement_on(&sheets, &wanted, &got))
    })?;
    Ok(report(task, &spread.lines(task.count), disagreements))
}

/// How the sheets were added, what was wanted, and what was printed.
type Finding<'a> = (String, Run, &'a Output);

/// The first one is told, and how many more there are.
fn disagreement_on(sheets: &Triple, wanted: &Answers<Run>, got: &Answers<Output>) -> Option<Disagreement> {
    let found = [
        with_the_reader(&wanted.pairs, &got.pairs),
        with_the_reader(&wanted.triples, &got.triples),
        with_no_order(sheets, &got.triples),
        with_the_turned(&got.pairs),
        with_the_unchanged(sheets, &got.pairs),
    ]
    .concat();
    let ((how, wanted, output), others) = found.split_first()?;
    let first = Disagreement::new(sheets, wanted, output);
    Some(Disagreement { told: format!("{how}: {}, and {} more", first.told, others.len()), ..first })
}

/// In exactly this order and grouping.
fn with_the_reader<'a>(wanted: &[Added<Run>], got: &'a [Added<Output>]) -> Vec<Finding<'a>> {
    let both = wanted.iter().zip(got).filter(|(wanted, got)| differs(&wanted.answer, &got.answer));
    both.map(|(wanted, got)| (got.how.clone(), wanted.answer.clone(), &got.answer)).collect()
}

/// "either way of adding three sheets gives the same bytes or both ways refuse,
/// though perhaps with different reasons."
fn with_no_order<'a>(sheets: &Triple, got: &'a [Added<Output>]) -> Vec<Finding<'a>> {
    let (wanted, is_right): (Run, fn(&Run, &Output) -> bool) = match add_at_once(sheets) {
        Some(sum) => (run_of(Ok(sum)), |wanted, got| !differs(wanted, got)),
        None => (Run { printed: "any refusal\n".to_string(), status: REFUSED }, |_, got| is_refusal(got)),
    };
    let wrong = got.iter().filter(|got| !is_right(&wanted, &got.answer));
    wrong.map(|got| (format!("{}, as in any order", got.how), wanted.clone(), &got.answer)).collect()
}

fn is_refusal(got: &Output) -> bool {
    NUMBERS.iter().any(|&number| number != 0 && !differs(&run_of(Err(number)), got))
}

/// "a + b and b + a give the same bytes or the same refusal": the list has them
/// side by side.
fn with_the_turned(got: &[Added<Output>]) -> Vec<Finding<'_>> {
    let differ = |two: &&[Added<Output>]| two[0].answer != two[1].answer;
    let turned = got.chunks(2).filter(differ);
    turned.map(|two| (format!("{} as {}", two[1].how, two[0].how), shown(&two[0].answer), &two[1].answer)).collect()
}

/// What a program printed, to be told.
fn shown(got: &Output) -> Run {
    let status = got.status.code().and_then(|code| u8::try_from(code).ok()).unwrap_or(NO_ANSWER);
    Run { printed: String::from_utf8_lossy(&got.stdout).into_owned(), status }
}

/// An empty sheet changes a sorted one not at all.
fn with_the_unchanged<'a>(sheets: &Triple, got: &'a [Added<Output>]) -> Vec<Finding<'a>> {
    let mut found = Vec::new();
    for ([one, other], got) in PAIRS.into_iter().zip(got) {
        let Some(sheet) = unchanged(&sheets[one], &sheets[other]) else { continue };
        let wanted = run_of(Ok(String::from_utf8_lossy(sheet).into_owned()));
        if differs(&wanted, &got.answer) {
            found.push((format!("{}, one of them empty", got.how), wanted, &got.answer));
        }
    }
    found
}
