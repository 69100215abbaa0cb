//! Document 02, No. 12: what three sheets are to each other, which the numbers
//! of their answers don't show.

use std::collections::{BTreeMap, BTreeSet};

use super::sheets::rows;
use crate::adding::reading::{read_sheet, PrintedSheet};
use crate::adding::summing::{add, refusal_of};
use crate::forms::LATEST_TIME;
use crate::making::sheets::triples::REASONS;
use crate::orders::Triple;
use crate::sheet::Ticks;

/// The one number that every order and grouping gives, 0 for a sum; a way; and
/// whether such sheets go it.
type Way = (u8, &'static str, fn(&Sheets) -> bool);

/// Those of the three that are well formed.
struct Sheets(Vec<PrintedSheet>);

const LONGEST: Ticks = LATEST_TIME as Ticks;

const WAYS: [Way; 29] = [
    (0, "the same names in all three", |three| three.times_listed(names) == [3].into()),
    (0, "no name in two sheets", |three| three.times_listed(names) == [1].into()),
    (0, "a core in one sheet alone", |three| three.times_listed(PrintedSheet::core_names).contains(&1)),
    (0, "a core missing from one sheet", |three| three.times_listed(PrintedSheet::core_names).contains(&2)),
    (0, "a process in one sheet alone", |three| three.times_listed(PrintedSheet::process_names).contains(&1)),
    (0, "a process missing from one sheet", |three| three.times_listed(PrintedSheet::process_names).contains(&2)),
    (0, "three sorted sheets", |three| three.is_sorted()),
    (0, "a sheet that isn't sorted", |three| !three.is_sorted()),
    (0, "an empty sheet, and sorted ones", |three| three.has_empty() && three.is_sorted()),
    (0, "an empty sheet, and one that isn't sorted", |three| three.has_empty() && !three.is_sorted()),
    (0, "64 cores, by all three only", |three| three.only_all_reach(cores, 64)),
    (0, "256 names, by all three only", |three| three.only_all_reach(all_names, 256)),
    (0, "a span of 2^56 - 1, by all three only", |three| three.only_all_reach(span, LONGEST)),
    (21, "one sheet of three", |three| three.0.len() == 2),
    (21, "an empty sheet beside it", Sheets::has_empty),
    (22, "one sheet of three", |three| three.fitting_pairs() == 1),
    (22, "an empty sheet among them", Sheets::has_empty),
    (23, "two sheets of three", |three| three.fitting_pairs() == 2),
    (23, "an empty sheet beside them", Sheets::has_empty),
    (24, "two sheets of three", |three| three.fitting_pairs() == 2),
    (24, "an empty sheet beside them", Sheets::has_empty),
    (24, "65 cores, by all three only", |three| three.fitting_pairs() == 3 && three.total(cores) == 65),
    (24, "more cores, by all three only", |three| three.fitting_pairs() == 3 && three.total(cores) > 65),
    (24, "257 names, by all three only", |three| three.fitting_pairs() == 3 && three.total(all_names) == 257),
    (24, "more names, by all three only", |three| three.fitting_pairs() == 3 && three.total(all_names) > 257),
    (25, "two sheets of three", |three| three.fitting_pairs() == 2),
    (25, "an empty sheet beside them", Sheets::has_empty),
    (25, "2^56, by all three only", |three| three.fitting_pairs() == 3 && three.total(span) == LONGEST + 1),
    (25, "a longer span, by all three only", |three| three.fitting_pairs() == 3 && three.total(span) > LONGEST + 1),
];

/// The names of all ways, in the order in which `ways_of_triple` tells of them:
/// last which reasons come together.
pub fn all_ways() -> Vec<String> {
    let ways = WAYS.iter().map(|(number, way, _)| match number {
        0 => format!("sum: {way}"),
        _ => format!("{number}: {way}"),
    });
    ways.chain(REASONS.iter().map(|reasons| format!("different reasons: {reasons:?}"))).collect()
}

/// Of three sheets and the numbers that their orders and groupings give.
pub fn ways_of_triple(sheets: &Triple, numbers: &BTreeSet<u8>) -> Vec<bool> {
    let three = Sheets(sheets.iter().filter_map(|text| read_sheet(text).ok()).collect());
    let ways = WAYS.iter().map(|(number, _, is_gone)| *numbers == [*number].into() && is_gone(&three));
    let reasons = REASONS.iter().map(|reasons| numbers.iter().eq(*reasons));
    ways.chain(reasons).collect()
}

/// What sheets have together.
type Measure = fn(&PrintedSheet) -> Ticks;

fn cores(sum: &PrintedSheet) -> Ticks {
    sum.sheet.cores.len() as Ticks
}

fn all_names(sum: &PrintedSheet) -> Ticks {
    rows(sum) as Ticks
}

fn span(sum: &PrintedSheet) -> Ticks {
    sum.span
}

fn names(one: &PrintedSheet) -> Vec<&str> {
    [one.core_names(), one.process_names()].concat()
}

impl Sheets {
    fn has_empty(&self) -> bool {
        self.0.iter().any(PrintedSheet::is_empty)
    }

    fn is_sorted(&self) -> bool {
        self.0.iter().all(PrintedSheet::is_sorted)
    }

    /// How many sheets list a name: each number that there is.
    fn times_listed(&self, names: fn(&PrintedSheet) -> Vec<&str>) -> BTreeSet<usize> {
        let mut times: BTreeMap<&str, usize> = BTreeMap::new();
        for name in self.0.iter().flat_map(names) {
            *times.entry(name).or_default() += 1;
        }
        times.into_values().collect()
    }

    fn pairs(&self) -> Vec<[&PrintedSheet; 2]> {
        let pairs =
            self.0.iter().enumerate().flat_map(|(place, one)| self.0[..place].iter().map(move |other| [other, one]));
        pairs.collect()
    }

    fn fitting_pairs(&self) -> usize {
        self.pairs().iter().filter(|[one, other]| refusal_of(one, other).is_none()).count()
    }

    fn total(&self, measure: Measure) -> Ticks {
        measure(&add(&self.0.iter().collect::<Vec<_>>()))
    }

    fn only_all_reach(&self, measure: Measure, least: Ticks) -> bool {
        self.total(measure) >= least && self.pairs().iter().all(|pair| measure(&add(pair)) < least)
    }
}

#[cfg(test)]
mod tests {
    use super::*;
    use crate::cases::sheets::orders::cases;
    use crate::orders::run_in_every_order;

    fn ways_of_case(label: &str) -> Vec<String> {
        let case = cases().into_iter().find(|case| case.label == label).expect("a case");
        let gone = ways_of_triple(&case.sheets, &run_in_every_order(&case.sheets).numbers());
        all_ways().into_iter().zip(gone).filter(|(_, gone)| *gone).map(|(way, _)| way).collect()
    }

    #[test]
    fn limits_that_only_all_three_reach_or_pass() {
        for (label, way) in [
            ("64-cores", "sum: 64 cores, by all three only"),
            ("256-names", "sum: 256 names, by all three only"),
            ("2-to-56-less-1", "sum: a span of 2^56 - 1, by all three only"),
            ("65-cores", "24: 65 cores, by all three only"),
            ("257-names", "24: 257 names, by all three only"),
            ("2-to-56", "25: 2^56, by all three only"),
        ] {
            let ways: Vec<String> =
                ways_of_case(label).into_iter().filter(|way| way.ends_with("by all three only")).collect();
            assert_eq!(ways, [way], "{label}");
        }
    }

    #[test]
    fn limits_that_two_reach_or_pass() {
        for (label, way) in [
            ("64-cores-of-two", "sum: a core in one sheet alone"),
            ("65-cores-of-two", "24: two sheets of three"),
            ("2-to-56-of-two", "25: two sheets of three"),
        ] {
            let ways = ways_of_case(label);
            assert!(ways.iter().any(|gone| gone == way), "{label}");
            assert!(ways.iter().all(|gone| !gone.ends_with("by all three only")), "{label}");
        }
    }

    #[test]
    fn reasons_that_come_together() {
        assert_eq!(ways_of_case("21-and-23"), ["different reasons: [21, 23]"]);
        assert_eq!(ways_of_case("24-and-25"), ["different reasons: [24, 25]"]);
    }
}
