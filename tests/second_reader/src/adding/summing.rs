//! The sum of well-formed sheets, and the refusals 22 to 25 of two.

use std::collections::BTreeSet;

use super::reading::PrintedSheet;
use crate::event_line::Refusal;
use crate::forms::LATEST_TIME;
use crate::sheet::{CoreCharge, ProcessCharge, Sheet, Ticks};

/// "more than 64 cores or 256 names"; "256 names are cores and processes
/// together."
const MOST_CORES: usize = 64;
const MOST_NAMES: usize = 256;

pub fn has_too_many_rows(sheet: &Sheet) -> bool {
    sheet.cores.len() > MOST_CORES || sheet.cores.len() + sheet.processes.len() > MOST_NAMES
}

/// "span above 2^56 − 1".
pub fn is_too_long(span: Ticks) -> bool {
    span > Ticks::from(LATEST_TIME)
}

/// "Refused in this order, each exactly then".
pub fn refusal_of(first: &PrintedSheet, second: &PrintedSheet) -> Option<Refusal> {
    let sum = add(&[first, second]);
    let refusals = [
        (first.scale != second.scale, 22),
        (has_another_kind(first, second), 23),
        // "24 counts the sum's cores and names."
        (has_too_many_rows(&sum.sheet), 24),
        // "summed span above 2^56 − 1".
        (is_too_long(sum.span), 25),
    ];
    refusals.into_iter().find(|(applies, _)| *applies).map(|(_, number)| number)
}

/// "a name a core in one and a process in the other": either way round.
pub fn has_another_kind(first: &PrintedSheet, second: &PrintedSheet) -> bool {
    let is_process_in = |sheet: &PrintedSheet, name: &str| process_in(sheet, name).is_some();
    first.sheet.cores.iter().any(|core| is_process_in(second, &core.name))
        || second.sheet.cores.iter().any(|core| is_process_in(first, &core.name))
}

/// "spans, figures of equal names, with cores and processes sorted by name
/// bytes": "by unsigned bytes from the front, a beginning before what continues
/// it", which is the order of a set of texts. The scale is that of all, where
/// they fit together.
pub fn add(sheets: &[&PrintedSheet]) -> PrintedSheet {
    let cores: BTreeSet<&str> = sheets.iter().flat_map(|one| one.core_names()).collect();
    let processes: BTreeSet<&str> = sheets.iter().flat_map(|one| one.process_names()).collect();
    let sheet = Sheet {
        cores: cores.into_iter().map(|name| add_core(sheets, name)).collect(),
        processes: processes.into_iter().map(|name| add_process(sheets, name)).collect(),
    };
    PrintedSheet { scale: sheets[0].scale, span: sheets.iter().map(|one| one.span).sum(), sheet }
}

fn add_core(sheets: &[&PrintedSheet], name: &str) -> CoreCharge {
    let charges: Vec<CoreCharge> = sheets.iter().map(|one| core_or_unknown(one, name)).collect();
    let sum_of = |figure: fn(&CoreCharge) -> Ticks| charges.iter().map(figure).sum();
    CoreCharge {
        name: name.to_string(),
        held: sum_of(|core| core.held),
        idle: sum_of(|core| core.idle),
        unknown: sum_of(|core| core.unknown),
    }
}

/// "A core missing from one sheet gets that sheet's span as unknown."
fn core_or_unknown(printed: &PrintedSheet, name: &str) -> CoreCharge {
    let listed = printed.sheet.cores.iter().find(|core| core.name == name);
    listed.cloned().unwrap_or(CoreCharge { name: name.to_string(), held: 0, idle: 0, unknown: printed.span })
}

/// "A process missing from one sheet counts 0 there".
fn add_process(sheets: &[&PrintedSheet], name: &str) -> ProcessCharge {
    let charge = sheets.iter().filter_map(|one| process_in(one, name)).map(|process| process.charge).sum();
    ProcessCharge { name: name.to_string(), charge }
}

fn process_in<'a>(printed: &'a PrintedSheet, name: &str) -> Option<&'a ProcessCharge> {
    printed.sheet.processes.iter().find(|process| process.name == name)
}
