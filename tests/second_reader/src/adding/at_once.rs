//! Document 02, No. 12: "order and grouping don't matter". What sheets make
//! together, said of all of them at once, so that no order or grouping is in it.

use std::collections::BTreeSet;

use super::reading::{read_sheet, PrintedSheet};
use super::soundness::has_a_name_twice;
use super::summing::{add, has_too_many_rows, is_too_long};
use super::text_of;

/// The text of the sum, or nothing where the sheets are refused, for whatever
/// reason an order or a grouping comes to.
pub fn add_at_once(sheets: &[Vec<u8>]) -> Option<String> {
    // "\"Well-formed\" there includes the sums."
    let sheets: Option<Vec<PrintedSheet>> = sheets.iter().map(|text| read_sheet(text).ok()).collect();
    let sheets = sheets?;
    let sum = add(&sheets.iter().collect::<Vec<_>>());
    let is_refused = scales(&sheets).len() > 1
        // A name that is a core in one sheet and a process in any.
        || has_a_name_twice(&sum.sheet)
        || has_too_many_rows(&sum.sheet)
        || is_too_long(sum.span);
    (!is_refused).then(|| text_of(&sum))
}

fn scales(sheets: &[PrintedSheet]) -> BTreeSet<&str> {
    sheets.iter().map(|one| one.scale).collect()
}

/// "A sheet in the same scale with span 0, no cores and no processes changes a
/// sorted, well-formed sheet not at all." "The empty sheet may stand on either
/// side." The sheet that isn't changed, if there is one.
pub fn unchanged<'a>(first: &'a [u8], second: &'a [u8]) -> Option<&'a [u8]> {
    let (one, other) = (read_sheet(first).ok()?, read_sheet(second).ok()?);
    let stays = |sheet: &PrintedSheet, beside: &PrintedSheet| {
        sheet.is_sorted() && beside.is_empty() && beside.scale == sheet.scale
    };
    if stays(&one, &other) {
        return Some(first);
    }
    stays(&other, &one).then_some(second)
}
