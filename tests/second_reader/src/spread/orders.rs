//! How often the orders and groupings of made triples earned each number, more
//! than one number, and each way.

use super::{least_of_numbers, least_of_ways, lines_of_numbers, Line, NUMBERS};
use crate::orders::{Answers, Triple};
use crate::printing::Run;
use crate::ways::orders::{all_ways, ways_of_triple};

pub struct OrderSpread {
    /// Triples that earn it in some order and grouping.
    numbers: [u64; NUMBERS.len()],
    /// Triples that earn more than one.
    several: u64,
    ways: Vec<u64>,
}

impl Default for OrderSpread {
    fn default() -> OrderSpread {
        OrderSpread { numbers: [0; NUMBERS.len()], several: 0, ways: vec![0; all_ways().len()] }
    }
}

impl OrderSpread {
    pub fn count(&mut self, sheets: &Triple, answers: &Answers<Run>) {
        let numbers = answers.numbers();
        for (count, known) in self.numbers.iter_mut().zip(NUMBERS) {
            *count += u64::from(numbers.contains(&known));
        }
        self.several += u64::from(numbers.len() > 1);
        for (count, gone) in self.ways.iter_mut().zip(ways_of_triple(sheets, &numbers)) {
            *count += u64::from(gone);
        }
    }

    /// How often all of it came in so many cases.
    pub fn lines(&self, cases: u64) -> Vec<Line> {
        let several = ("more than one reason".to_string(), self.several, least_of_numbers(cases));
        let ways = all_ways().into_iter().zip(&self.ways).map(|(way, count)| (way, *count, least_of_ways(cases)));
        lines_of_numbers(&self.numbers, cases).chain([several]).chain(ways).collect()
    }
}
