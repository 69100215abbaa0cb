//! Document 02, No. 12: three sheets in both groupings, with the answers that
//! the documents give. "either way of adding three sheets gives the same bytes
//! or both ways refuse, though perhaps with different reasons."

use super::{in_scale, numbered, sheet, texts};
use crate::orders::Triple;

pub struct OrderCase {
    pub label: &'static str,
    pub sheets: Triple,
    /// What is printed if the first two are added first.
    pub first_two: String,
    /// What is printed if the last two are added first.
    pub last_two: String,
}

const LONGEST: u64 = 72_057_594_037_927_935;

pub fn cases() -> Vec<OrderCase> {
    let cases = [sums(), empty_sheets(), only_by_all_three(), by_two_of_three(), different_reasons()];
    cases.into_iter().flatten().collect()
}

fn same(label: &'static str, sheets: [&str; 3], printed: &str) -> OrderCase {
    let sheets = sheets.map(|text| text.as_bytes().to_vec());
    OrderCase { label, sheets, first_two: printed.to_string(), last_two: printed.to_string() }
}

fn refused(label: &'static str, sheets: [&str; 3], first_two: u8, last_two: u8) -> OrderCase {
    let [first_two, last_two] = [first_two, last_two].map(|number| format!("refused {number}\n"));
    OrderCase { first_two, last_two, ..same(label, sheets, "") }
}

/// Each core that a sheet lacks gets that sheet's span as unknown, in whatever
/// sum the sheet comes to it.
fn sums() -> Vec<OrderCase> {
    let early = sheet(10, &["C 4 3 3"], &["A 4"]);
    let noon = sheet(7, &["D 7 0 0"], &["B 5", "A 2"]);
    let late = sheet(100, &["E 1 2 97", "C 0 100 0"], &["Z 1"]);
    let all = sheet(117, &["C 4 103 10", "D 7 0 110", "E 1 2 114"], &["A 6", "B 5", "Z 1"]);
    let half = LONGEST / 2;
    let longest = in_scale("s", LONGEST, &[], &["P 0"]);
    vec![
        same("three-shifts", [&early, &noon, &late], &all),
        same("three-shifts-turned", [&late, &noon, &early], &all),
        same("three-shifts-the-second-first", [&noon, &early, &late], &all),
        same(
            "longest-span",
            [&in_scale("s", half, &[], &[]), &in_scale("s", half, &[], &["P 0"]), &in_scale("s", 1, &[], &[])],
            &longest,
        ),
    ]
}

/// "A sheet in the same scale with span 0, no cores and no processes changes a
/// sorted, well-formed sheet not at all."
fn empty_sheets() -> Vec<OrderCase> {
    let nothing = in_scale("us", 0, &[], &[]);
    let sorted = in_scale("us", 3, &["B 1 1 1", "a 3 0 0"], &["T10 3", "T2 1"]);
    let unsorted = in_scale("us", 3, &["a 3 0 0", "B 1 1 1"], &["T2 1", "T10 3"]);
    vec![
        same("empty-before-sorted", [&nothing, &nothing, &sorted], &sorted),
        same("empty-around-sorted", [&nothing, &sorted, &nothing], &sorted),
        same("empty-after-sorted", [&sorted, &nothing, &nothing], &sorted),
        same("empty-around-unsorted", [&nothing, &unsorted, &nothing], &sorted),
        same("empty-sheets", [&nothing, &nothing, &nothing], &nothing),
        refused("empty-in-another-scale", [&sorted, &in_scale("ms", 0, &[], &[]), &unsorted], 22, 22),
    ]
}

fn cores(first: usize, last: usize) -> String {
    sheet(0, &texts(&numbered("c", first, last, "0 0 0")), &[])
}

fn span(span: u64) -> String {
    sheet(span, &[], &[])
}

/// Any two of them can be added.
fn only_by_all_three() -> Vec<OrderCase> {
    let processes = |first: usize, last: usize| sheet(0, &["c 0 0 0"], &texts(&numbered("p", first, last, "0")));
    let third = LONGEST / 3;
    vec![
        same("64-cores", [&cores(1, 20), &cores(21, 63), &cores(64, 64)], &cores(1, 64)),
        refused("65-cores", [&cores(1, 20), &cores(21, 64), &cores(65, 65)], 24, 24),
        same("256-names", [&processes(1, 100), &processes(90, 200), &processes(201, 255)], &processes(1, 255)),
        refused("257-names", [&processes(1, 100), &processes(90, 200), &processes(201, 256)], 24, 24),
        same("2-to-56-less-1", [&span(third), &span(third), &span(third)], &span(LONGEST)),
        refused("2-to-56", [&span(third), &span(third + 1), &span(third)], 25, 25),
    ]
}

/// The third one can be added to each of them.
fn by_two_of_three() -> Vec<OrderCase> {
    vec![
        same("64-cores-of-two", [&cores(1, 20), &span(0), &cores(21, 64)], &cores(1, 64)),
        refused("core-and-process", [&sheet(3, &["X 0 0 3"], &[]), &span(4), &sheet(5, &[], &["X 0"])], 23, 23),
        refused("65-cores-of-two", [&cores(1, 20), &span(0), &cores(21, 65)], 24, 24),
        refused("2-to-56-of-two", [&span(LONGEST), &span(0), &span(1)], 25, 25),
    ]
}

/// The two that are added first decide it, or what they leave to the third.
fn different_reasons() -> Vec<OrderCase> {
    let core = sheet(3, &["X 0 0 3"], &[]);
    let process = sheet(3, &[], &["X 0"]);
    let in_us = in_scale("us", 3, &[], &[]);
    let long = span(LONGEST);
    let long_process = sheet(LONGEST, &[], &["X 0"]);
    let forty = cores(1, 40);
    let others = sheet(1, &texts(&numbered("d", 1, 40, "0 0 1")), &["X 0"]);
    vec![
        refused("21-and-22", ["verdict 13 line 7\n", &core, &in_us], 21, 22),
        refused("21-and-23", ["", &core, &process], 21, 23),
        refused("24-and-21", [&forty, &others, ""], 24, 21),
        refused("25-and-21", [&core, &long, ""], 25, 21),
        refused("22-and-23", [&in_us, &core, &process], 22, 23),
        refused("24-and-22", [&forty, &others, &in_us], 24, 22),
        refused("25-and-22", [&core, &long, &in_us], 25, 22),
        refused("24-and-23", [&forty, &others, &core], 24, 23),
        refused("23-and-25", [&core, &process, &long], 23, 25),
        refused("24-and-25", [&forty, &others, &long], 24, 25),
        refused("23-of-a-sum-and-25", [&core, &span(1), &long_process], 23, 25),
    ]
}
