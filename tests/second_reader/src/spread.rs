//! How often the made sheets earned each number, each cause of 21 and each way.

pub mod orders;

use crate::making::sheets::damage::DAMAGES;
use crate::making::sheets::MadeSheets;
use crate::printing::Run;
use crate::ways::sheets::{all_ways, ways_of_pair};

/// A sum, and the refusals.
pub const NUMBERS: [u8; 6] = [0, 21, 22, 23, 24, 25];

/// Each number comes three times in a hundred, 300 times in 10,000.
fn least_of_numbers(cases: u64) -> u64 {
    cases * 3 / 100
}

/// Each cause and each way comes once in 500, and at all.
fn least_of_ways(cases: u64) -> u64 {
    (cases / 500).max(1)
}

/// What is counted, how often it came and how often it has to.
pub type Line = (String, u64, u64);

/// Prints the figures; true if all came often enough.
pub fn print_lines(lines: &[Line]) -> bool {
    for (what, count, least) in lines {
        println!("{what}: {count} times{}", if count < least { ", too rare" } else { "" });
    }
    lines.iter().all(|(_, count, least)| count >= least)
}

fn lines_of_numbers(counts: &[u64; NUMBERS.len()], cases: u64) -> impl Iterator<Item = Line> + '_ {
    let least = least_of_numbers(cases);
    NUMBERS.iter().zip(counts).map(move |(number, count)| (format!("number {number}"), *count, least))
}

pub struct Spread {
    numbers: [u64; NUMBERS.len()],
    /// Of each cause, by itself in the first sheet of a pair and in the second.
    causes: [[u64; 2]; DAMAGES.len()],
    ways: Vec<u64>,
    /// Calls with more than two sheets.
    series: u64,
}

impl Default for Spread {
    fn default() -> Spread {
        Spread {
            numbers: [0; NUMBERS.len()],
            causes: [[0; 2]; DAMAGES.len()],
            ways: vec![0; all_ways().len()],
            series: 0,
        }
    }
}

/// The number of an answer to sheets: `refused N`, or 0 for a sum.
pub fn number_of_sum(printed: &str) -> Option<u8> {
    printed.strip_prefix("refused ").map_or(Some(0), |number| number.trim_end().parse().ok())
}

impl Spread {
    pub fn count(&mut self, made: &MadeSheets, answer: &Run) {
        let number = number_of_sum(&answer.printed);
        for (count, known) in self.numbers.iter_mut().zip(NUMBERS) {
            *count += u64::from(number == Some(known));
        }
        if let (Some(damaged), Some(21)) = (made.damaged, number) {
            self.causes[damaged.cause][damaged.sheet] += 1;
        }
        match made.sheets.as_slice() {
            [first, second] => {
                for (count, gone) in self.ways.iter_mut().zip(ways_of_pair(first, second)) {
                    *count += u64::from(gone);
                }
            }
            _ => self.series += 1,
        }
    }

    /// How often all of it came in so many cases.
    pub fn lines(&self, cases: u64) -> Vec<Line> {
        let least = least_of_ways(cases);
        let causes = DAMAGES.iter().zip(self.causes).flat_map(|(damage, [first, second])| {
            let line = |sheet: &str, count: u64| (format!("21: {}, {sheet} sheet", damage.name), count, least);
            [line("first", first), line("second", second)]
        });
        let ways = all_ways().into_iter().zip(&self.ways).map(|(way, count)| (way.to_string(), *count, least));
        let series = [("more than two sheets".to_string(), self.series, least)];
        lines_of_numbers(&self.numbers, cases).chain(causes).chain(ways).chain(series).collect()
    }
}
