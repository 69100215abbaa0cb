//! The sample that is kept in the repository.

mod kept;

use kept::kept;
use second_reader::container::{answers_text, read_container, write_container};
use second_reader::printing::{number_of, run_on};
use second_reader::sample::fixed_sample;

#[test]
fn the_kept_sample_is_the_one_that_is_written() {
    assert!(kept("sample.traces") == write_container(&fixed_sample()), "run write_sample again");
}

#[test]
fn the_kept_answers_are_the_readers() {
    let traces = read_container(&kept("sample.traces")).expect("well formed");
    assert_eq!(String::from_utf8_lossy(&kept("sample.answers")), answers_text(&traces));
}

#[test]
fn every_number_comes_several_times() {
    let mut counts = [0; 15];
    for trace in fixed_sample() {
        let number = number_of(&run_on(&trace.bytes).printed).expect("an answer");
        counts[usize::from(number)] += 1;
    }
    assert!(counts.iter().all(|&count| count >= 6), "{counts:?}");
}
