//! The sample of pairs of sheets that is kept in the repository.

mod kept;

use kept::kept;
use second_reader::pair_sample::{fixed_pairs, MOST_BYTES};
use second_reader::pairs::{answers_to_pairs, read_pairs, write_pairs};

#[test]
fn the_kept_pairs_are_those_that_are_written() {
    assert!(kept("sheets.pairs") == write_pairs(&fixed_pairs()), "run write_sheets again");
}

#[test]
fn the_kept_answers_are_the_readers() {
    let pairs = read_pairs(&kept("sheets.pairs")).expect("well formed");
    assert_eq!(String::from_utf8_lossy(&kept("sheets.answers")), answers_to_pairs(&pairs));
}

/// A test program holds the container in memory of a fixed size.
#[test]
fn the_container_is_small() {
    assert!(kept("sheets.pairs").len() < MOST_BYTES);
}

#[test]
fn every_number_comes_several_times() {
    let answers = String::from_utf8(kept("sheets.answers")).expect("text");
    for (answer, least) in [("verdict 0 ", 24), ("refused 21", 80), ("refused 22", 12), ("refused 23", 12)]
        .into_iter()
        .chain([("refused 24", 12), ("refused 25", 12)])
    {
        let count = answers.lines().filter(|line| line.starts_with(answer)).count();
        assert!(count >= least, "{answer}: {count}");
    }
}
