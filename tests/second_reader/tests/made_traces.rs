//! The maker of traces against the reader: two write-ups of the same rules.

use std::collections::BTreeMap;

use second_reader::making::make_trace;
use second_reader::printing::{number_of, run_on};
use second_reader::ways::{all_ways, least_of, ways_of};

const TRACES: u64 = 4_800;

#[test]
fn every_aim_is_reached() {
    for seed in [1, 2] {
        for index in 0..TRACES {
            let made = make_trace(seed, index);
            let printed = run_on(&made.bytes).printed;
            if let Some(aim) = made.aim {
                assert_eq!(number_of(&printed), Some(aim), "seed {seed}, trace {index}");
            }
        }
    }
}

#[test]
fn every_number_comes_often() {
    let mut counts: BTreeMap<u8, u64> = BTreeMap::new();
    for index in 0..TRACES {
        let printed = run_on(&make_trace(3, index).bytes).printed;
        *counts.entry(number_of(&printed).expect("an answer")).or_default() += 1;
    }
    assert_eq!(counts.keys().copied().collect::<Vec<u8>>(), (0..=14).collect::<Vec<u8>>());
    assert!(counts.values().all(|&count| count >= TRACES / 67), "{counts:?}");
}

#[test]
fn every_way_comes_often() {
    let mut counts = vec![0; all_ways().len()];
    for index in 0..TRACES {
        for (count, gone) in counts.iter_mut().zip(ways_of(&make_trace(3, index).bytes)) {
            *count += u64::from(gone);
        }
    }
    for (way, count) in all_ways().into_iter().zip(counts) {
        assert!(count >= least_of(way, TRACES), "{way}: {count} of {TRACES}");
    }
}

#[test]
fn a_trace_can_be_made_again() {
    for index in 0..50 {
        assert_eq!(make_trace(9, index).bytes, make_trace(9, index).bytes);
        assert_ne!(make_trace(9, index).bytes, make_trace(9, index + 29).bytes);
    }
}
