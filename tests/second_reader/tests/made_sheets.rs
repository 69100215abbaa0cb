//! The maker of sheets against the reader: two write-ups of the same rules.

use second_reader::adding::reading::read_sheet;
use second_reader::adding::{add_all, run_on_sheets};
use second_reader::making::sheets::damage::DAMAGES;
use second_reader::making::sheets::make_sheets;
use second_reader::spread::Spread;

const CASES: u64 = 6_000;

#[test]
fn every_aim_is_reached() {
    for seed in [1, 2] {
        for index in 0..CASES {
            let made = make_sheets(seed, index);
            if let Some(aim) = made.aim {
                let number = add_all(&made.sheets).err().unwrap_or(0);
                assert_eq!(number, aim, "seed {seed}, case {index}");
            }
        }
    }
}

/// The reader finds what was damaged, nothing that came with it, and finds the
/// other sheet well formed.
#[test]
fn every_cause_is_there_by_itself() {
    for index in 0..CASES {
        let made = make_sheets(4, index);
        let Some(damaged) = made.damaged else { continue };
        let damage = &DAMAGES[damaged.cause];
        let fault = read_sheet(&made.sheets[damaged.sheet]).expect_err(damage.name);
        assert!(damage.faults.contains(&fault), "{}: {fault:?}, case {index}", damage.name);
        assert!(read_sheet(&made.sheets[1 - damaged.sheet]).is_ok(), "{}, case {index}", damage.name);
    }
}

#[test]
fn numbers_causes_and_ways_come_often() {
    let mut spread = Spread::default();
    for index in 0..CASES {
        let made = make_sheets(3, index);
        spread.count(&made, &run_on_sheets(&made.sheets));
    }
    for (what, count, least) in spread.lines(CASES) {
        assert!(count >= least, "{what}: {count} of {CASES}");
    }
}

/// "The sum keeps demand 3's two totals": it can be read and added again. A
/// sheet of span 0 without rows changes nothing in it.
#[test]
fn a_sum_is_a_sheet() {
    for index in 0..CASES {
        let made = make_sheets(5, index);
        let Ok(sum) = add_all(&made.sheets) else { continue };
        let read = read_sheet(sum.as_bytes()).expect("a sum");
        let nothing = format!("verdict 0 line 0 scale {} span 0\ncores 0\nprocesses 0\n", read.scale);
        let again = add_all(&[sum.clone().into_bytes(), nothing.into_bytes()]);
        assert_eq!(again, Ok(sum), "case {index}");
    }
}

/// "a + b and b + a give the same bytes or the same refusal".
#[test]
fn two_sheets_in_either_order() {
    for index in 0..CASES {
        let mut sheets = make_sheets(6, index).sheets;
        sheets.truncate(2);
        let answer = add_all(&sheets);
        sheets.reverse();
        assert_eq!(add_all(&sheets), answer, "case {index}");
    }
}

#[test]
fn sheets_can_be_made_again() {
    for index in 0..60 {
        assert_eq!(make_sheets(9, index).sheets, make_sheets(9, index).sheets);
    }
}
