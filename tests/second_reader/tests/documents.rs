//! The reader's answers against those that the documents give.

use second_reader::cases::all_cases;
use second_reader::printing::run_on;

#[test]
fn every_case_of_the_documents() {
    for case in all_cases() {
        let run = run_on(&case.trace);
        assert_eq!(run.printed, case.printed, "{}", case.label);
        let wanted_status = if case.printed.starts_with("verdict 0 ") { 0 } else { 1 };
        assert_eq!(run.status, wanted_status, "{}", case.label);
    }
}

#[test]
fn labels_are_single_words_and_differ() {
    let mut labels: Vec<String> = all_cases().into_iter().map(|case| case.label).collect();
    assert!(labels.iter().all(|label| !label.contains(' ')));
    let count = labels.len();
    labels.sort();
    labels.dedup();
    assert_eq!(labels.len(), count);
}

/// Document 01 prints this text in full.
#[test]
fn listing_2_7_prints_exactly_this() {
    let case = all_cases().into_iter().find(|case| case.label == "listing-2-7").expect("a case");
    let wanted = "verdict 0 line 0 scale ns span 960175\n\
                  cores 1\n\
                  Core_1 959975 100 100\n\
                  processes 2\n\
                  TASK_InputProcessing 488250\n\
                  TASK_1MS 471725\n";
    assert_eq!(run_on(&case.trace).printed, wanted);
}
