//! Three sheets in every order and grouping: the documents' cases, and made
//! triples beside what their sheets make in no order at all.

use std::collections::BTreeSet;

use second_reader::adding::at_once::{add_at_once, unchanged};
use second_reader::adding::reading::read_sheet;
use second_reader::adding::run_of;
use second_reader::cases::sheets::all_sheet_cases;
use second_reader::cases::sheets::orders::{cases, OrderCase};
use second_reader::making::sheets::triples::make_triple;
use second_reader::orders::{run_in_every_order, Added, Answers, PAIRS};
use second_reader::printing::{Run, REFUSED};
use second_reader::spread::orders::OrderSpread;

const TRIPLES: u64 = 2_300;

/// What is printed for all three sheets, added in this way.
fn printed<'a>(answers: &'a Answers<Run>, how: &str) -> &'a str {
    let added = answers.triples.iter().find(|added| added.how == how);
    &added.expect("an order and a grouping").answer.printed
}

fn sum_of(printed: &str) -> Option<String> {
    printed.starts_with("verdict 0 ").then(|| printed.to_string())
}

#[test]
fn every_case_of_the_documents() {
    for OrderCase { label, sheets, first_two, last_two } in cases() {
        let answers = run_in_every_order(&sheets);
        assert_eq!(printed(&answers, "1 + 2 + 3"), first_two, "{label}");
        assert_eq!(printed(&answers, "(1 + 2) + 3"), first_two, "{label}");
        assert_eq!(printed(&answers, "1 + (2 + 3)"), last_two, "{label}");
        assert_eq!(add_at_once(&sheets), sum_of(&first_two), "{label}");
    }
}

/// The cases of adding from the left, of two sheets and more.
#[test]
fn every_case_of_adding_at_once() {
    for case in all_sheet_cases() {
        assert_eq!(add_at_once(&case.sheets), sum_of(&case.printed), "{}", case.label);
    }
}

/// The first sheet is in another scale, and the others are at odds by a name.
#[test]
fn an_order_says_which_two_come_first() {
    let case = cases().into_iter().find(|case| case.label == "22-and-23").expect("a case");
    let answers = run_in_every_order(&case.sheets);
    for how in ["2 + 3 + 1", "3 + 2 + 1", "(2 + 3) + 1", "(3 + 2) + 1", "1 + (2 + 3)", "1 + (3 + 2)"] {
        assert_eq!(printed(&answers, how), "refused 23\n", "{how}");
    }
    let others: Vec<&Added<Run>> =
        answers.triples.iter().filter(|added| added.answer.printed != "refused 23\n").collect();
    assert_eq!(others.len(), 12);
    assert!(others.iter().all(|added| added.answer.printed == "refused 22\n"));
    let all = answers.pairs.iter().chain(&answers.triples);
    assert_eq!(all.map(|added| added.how.as_str()).collect::<BTreeSet<&str>>().len(), 6 + 18);
}

#[test]
fn every_aim_is_reached() {
    for seed in [1, 2] {
        for index in 0..TRIPLES {
            let made = make_triple(seed, index);
            if let Some(aim) = made.aim {
                let numbers: Vec<u8> = run_in_every_order(&made.sheets).numbers().into_iter().collect();
                assert_eq!(numbers, aim, "seed {seed}, triple {index}");
            }
        }
    }
}

/// "order and grouping don't matter": the bytes are those of no order at all, or
/// all orders refuse.
#[test]
fn every_order_and_grouping_makes_the_same() {
    for index in 0..TRIPLES {
        let sheets = make_triple(3, index).sheets;
        let sum = add_at_once(&sheets).map(|sum| run_of(Ok(sum)));
        for Added { how, answer } in run_in_every_order(&sheets).triples {
            match &sum {
                Some(sum) => assert_eq!(answer, *sum, "{how}, triple {index}"),
                None => assert_eq!(answer.status, REFUSED, "{how}, triple {index}"),
            }
        }
    }
}

/// "a + b and b + a give the same bytes or the same refusal".
#[test]
fn two_of_three_in_either_order() {
    for index in 0..TRIPLES {
        let pairs = run_in_every_order(&make_triple(4, index).sheets).pairs;
        for two in pairs.chunks(2) {
            assert_eq!(two[0].answer, two[1].answer, "{}, triple {index}", two[0].how);
        }
    }
}

/// A sorted sheet stays as it is; another one gets its rows sorted.
#[test]
fn an_empty_sheet_on_either_side() {
    let (mut stayed, mut sorted) = (0, 0);
    for index in 0..TRIPLES {
        let sheets = make_triple(5, index).sheets;
        for ([one, other], added) in PAIRS.into_iter().zip(run_in_every_order(&sheets).pairs) {
            let (one, other) = (&sheets[one], &sheets[other]);
            let (Ok(nothing), Ok(sheet)) = (read_sheet(one), read_sheet(other)) else { continue };
            if !nothing.is_empty() || nothing.scale != sheet.scale {
                continue;
            }
            let is_unchanged = added.answer.printed.as_bytes() == other;
            assert_eq!(is_unchanged, sheet.is_sorted(), "{}, triple {index}", added.how);
            assert_eq!(unchanged(one, other).is_some(), is_unchanged, "{}, triple {index}", added.how);
            assert_eq!(unchanged(other, one).is_some(), is_unchanged, "{}, triple {index}", added.how);
            stayed += u64::from(is_unchanged);
            sorted += u64::from(!is_unchanged);
        }
    }
    assert!(stayed >= TRIPLES / 50 && sorted >= TRIPLES / 50, "{stayed} and {sorted}");
}

#[test]
fn numbers_and_ways_come_often() {
    let mut spread = OrderSpread::default();
    for index in 0..TRIPLES {
        let sheets = make_triple(6, index).sheets;
        spread.count(&sheets, &run_in_every_order(&sheets));
    }
    for (what, count, least) in spread.lines(TRIPLES) {
        assert!(count >= least, "{what}: {count} of {TRIPLES}");
    }
}

#[test]
fn triples_can_be_made_again() {
    for index in 0..60 {
        assert_eq!(make_triple(9, index).sheets, make_triple(9, index).sheets);
        assert_ne!(make_triple(9, index).sheets, make_triple(9, index + 253).sheets);
    }
}
