//! What else makes a sheet malformed, once its text is read: sizes, names and
//! the two totals of demand 3.

use std::collections::BTreeSet;

use super::reading::{Fault, PrintedSheet};
use super::summing::{has_too_many_rows, is_too_long};
use crate::sheet::{Sheet, Ticks};

/// A fault and the test that finds it.
type Test = (fn(&PrintedSheet) -> bool, Fault);

/// All are 21, so that the order decides nothing; only that sums are taken over
/// no more rows than a sheet may have.
const TESTS: [Test; 5] = [
    (|printed| is_too_long(printed.span), Fault::SpanTooLong),
    (|printed| has_too_many_rows(&printed.sheet), Fault::TooManyRows),
    (|printed| has_a_name_twice(&printed.sheet), Fault::NameTwice),
    (|printed| !figures_make_the_span(printed), Fault::CoreFigures),
    (|printed| !charges_make_held_ticks(&printed.sheet), Fault::Charges),
];

pub fn fault_of(printed: &PrintedSheet) -> Option<Fault> {
    TESTS.into_iter().find(|(finds, _)| finds(printed)).map(|(_, fault)| fault)
}

/// "A name twice anywhere in one sheet, also once as core and once as process".
pub fn has_a_name_twice(sheet: &Sheet) -> bool {
    let cores = sheet.cores.iter().map(|core| &core.name);
    let processes = sheet.processes.iter().map(|process| &process.name);
    let names: BTreeSet<&String> = cores.chain(processes).collect();
    names.len() < sheet.cores.len() + sheet.processes.len()
}

/// "a core's three figures not making the span": each core's own.
fn figures_make_the_span(printed: &PrintedSheet) -> bool {
    printed.sheet.cores.iter().all(|core| core.held + core.idle + core.unknown == printed.span)
}

/// "charges not making all held ticks": "over the whole sheet, exact, in numbers
/// of any size".
fn charges_make_held_ticks(sheet: &Sheet) -> bool {
    let held: Ticks = sheet.cores.iter().map(|core| core.held).sum();
    let charged: Ticks = sheet.processes.iter().map(|process| process.charge).sum();
    held == charged
}
