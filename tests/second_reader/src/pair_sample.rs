//! The fixed sample of pairs of sheets, all made from one seed, for a test
//! program that holds the whole container in memory. It is the same whenever it
//! is written.

use crate::adding::add_all;
use crate::making::sheets::damage::DAMAGES;
use crate::making::sheets::{make_sheets, MadeSheets};
use crate::pairs::Pair;
use crate::spread::NUMBERS;
use crate::ways::sheets::{all_ways, ways_of_pair};

const SEED: u64 = 221;

/// The pairs that are looked through.
const MADE: u64 = 8_000;

/// The container stays below this many bytes.
pub const MOST_BYTES: usize = 60_000;

/// At least so many sums, and so many pairs of each refusal.
const SUMS: usize = 24;
const REFUSED: usize = 12;

/// A pair of at most so many bytes is small; where none of the small ones is
/// right, the smallest is taken.
const SMALL: usize = 300;

/// What is known of a made pair.
struct Candidate {
    pair: Pair,
    number: u8,
    /// Cause and sheet, if it is damaged.
    damaged: Option<(usize, usize)>,
    ways: Vec<bool>,
}

/// Each cause of 21 in either sheet, each way, and then each number until it
/// comes often enough.
pub fn fixed_pairs() -> Vec<Pair> {
    let candidates: Vec<Candidate> = (0..MADE).filter_map(|index| candidate(make_sheets(SEED, index))).collect();
    let mut chosen: Vec<&Candidate> = Vec::new();
    for cause in 0..DAMAGES.len() {
        for sheet in 0..2 {
            choose(&candidates, &mut chosen, 1, |one| one.damaged == Some((cause, sheet)));
        }
    }
    for way in 0..all_ways().len() {
        choose(&candidates, &mut chosen, 1, |one| one.ways[way]);
    }
    for number in NUMBERS {
        let least = if number == 0 { SUMS } else { REFUSED };
        choose(&candidates, &mut chosen, least, |one| one.number == number);
    }
    chosen.into_iter().map(|one| one.pair.clone()).collect()
}

fn candidate(made: MadeSheets) -> Option<Candidate> {
    let number = add_all(&made.sheets).err().unwrap_or(0);
    let damaged = made.damaged.map(|damaged| (damaged.cause, damaged.sheet));
    let pair: Pair = made.sheets.try_into().ok()?;
    let ways = ways_of_pair(&pair[0], &pair[1]);
    Some(Candidate { pair, number, damaged, ways })
}

/// Adds pairs until at least `count` are right.
fn choose<'a>(
    candidates: &'a [Candidate],
    chosen: &mut Vec<&'a Candidate>,
    count: usize,
    is_right: impl Fn(&Candidate) -> bool,
) {
    let there = chosen.iter().filter(|one| is_right(one)).count();
    let is_new = |one: &&Candidate| chosen.iter().all(|other| other.pair != one.pair);
    let mut right: Vec<&Candidate> = candidates.iter().filter(|one| is_right(one)).filter(is_new).collect();
    // The order of the small ones stays.
    right.sort_by_key(|one| size(one).max(SMALL));
    chosen.extend(right.into_iter().take(count.saturating_sub(there)));
}

fn size(one: &Candidate) -> usize {
    one.pair[0].len() + one.pair[1].len()
}
