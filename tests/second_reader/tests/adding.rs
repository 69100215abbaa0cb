//! Sheets that are added, against the answers that the documents give.

use std::collections::BTreeSet;

use second_reader::adding::run_on_sheets;
use second_reader::cases::sheets::all_sheet_cases;

#[test]
fn every_case_of_the_documents() {
    for case in all_sheet_cases() {
        let run = run_on_sheets(&case.sheets);
        assert_eq!(run.printed, case.printed, "{}", case.label);
        let wanted_status = if case.printed.starts_with("verdict 0 ") { 0 } else { 1 };
        assert_eq!(run.status, wanted_status, "{}", case.label);
    }
}

#[test]
fn labels_differ() {
    let cases = all_sheet_cases();
    let labels: BTreeSet<&String> = cases.iter().map(|case| &case.label).collect();
    assert_eq!(labels.len(), cases.len());
}

#[test]
fn every_number_has_cases() {
    for answer in ["verdict 0 ", "refused 21\n", "refused 22\n", "refused 23\n", "refused 24\n", "refused 25\n"] {
        let count = all_sheet_cases().iter().filter(|case| case.printed.starts_with(answer)).count();
        assert!(count >= 5, "{answer}: {count}");
    }
}
