//! Document 02, No. 2: how two well-formed sheets differ or are at odds, which
//! the number of the answer doesn't show.

use crate::adding::reading::{read_sheet, PrintedSheet};
use crate::adding::summing::{add, has_another_kind, has_too_many_rows, is_too_long, refusal_of};
use crate::forms::LATEST_TIME;
use crate::sheet::Ticks;

/// A way and whether a pair goes it. The sum is there for refused pairs too.
type Way = (&'static str, fn(&Pair) -> bool);

struct Pair {
    first: PrintedSheet,
    second: PrintedSheet,
    sum: PrintedSheet,
    /// 0 for a sum.
    number: u8,
}

const WAYS: [Way; 39] = [
    ("sum: a core missing from the first sheet", |pair| pair.is_sum() && pair.adds_cores_to(&pair.first)),
    ("sum: a core missing from the second sheet", |pair| pair.is_sum() && pair.adds_cores_to(&pair.second)),
    ("sum: a process missing from the first sheet", |pair| pair.is_sum() && pair.adds_processes_to(&pair.first)),
    ("sum: a process missing from the second sheet", |pair| pair.is_sum() && pair.adds_processes_to(&pair.second)),
    ("sum: the same names in both sheets", |pair| pair.is_sum() && pair.shared() == rows(&pair.sum)),
    ("sum: some names in both sheets", |pair| pair.is_sum() && (1..rows(&pair.sum)).contains(&pair.shared())),
    ("sum: no name in both sheets", |pair| pair.is_sum() && pair.shared() == 0),
    ("sum: a sheet that isn't sorted", |pair| pair.is_sum() && !pair.is_sorted()),
    ("sum: two sorted sheets", |pair| pair.is_sum() && pair.is_sorted()),
    ("sum: a name that begins another", |pair| pair.is_sum() && has_beginnings(&pair.sum)),
    ("sum: a name of 64 bytes", |pair| pair.is_sum() && longest_name(&pair.sum) == 64),
    ("sum: a name of one byte", |pair| pair.is_sum() && shortest_name(&pair.sum) == 1),
    ("sum: no core", |pair| pair.is_sum() && pair.sum.sheet.cores.is_empty()),
    ("sum: no process", |pair| pair.is_sum() && pair.sum.sheet.processes.is_empty()),
    ("sum: a sheet of span 0", |pair| pair.is_sum() && (pair.first.span == 0 || pair.second.span == 0)),
    ("sum: 64 cores in one sheet", |pair| pair.is_sum() && pair.both().any(|one| one.sheet.cores.len() == 64)),
    ("sum: 256 names in one sheet", |pair| pair.is_sum() && pair.both().any(|one| rows(one) == 256)),
    ("sum: 64 cores", |pair| pair.is_sum() && pair.sum.sheet.cores.len() == 64),
    ("sum: 256 names", |pair| pair.is_sum() && rows(&pair.sum) == 256),
    ("sum: a span of 2^56 - 1", |pair| pair.is_sum() && pair.sum.span == Ticks::from(LATEST_TIME)),
    ("sum: in ps", |pair| pair.is_sum() && pair.sum.scale == "ps"),
    ("sum: in ns", |pair| pair.is_sum() && pair.sum.scale == "ns"),
    ("sum: in us", |pair| pair.is_sum() && pair.sum.scale == "us"),
    ("sum: in ms", |pair| pair.is_sum() && pair.sum.scale == "ms"),
    ("sum: in s", |pair| pair.is_sum() && pair.sum.scale == "s"),
    ("22: nothing else", |pair| pair.number == 22 && pair.conflicts() == 1),
    ("22: also a core and a process", |pair| pair.number == 22 && has_another_kind(&pair.first, &pair.second)),
    ("22: also too many", |pair| pair.number == 22 && has_too_many_rows(&pair.sum.sheet)),
    ("22: also too long", |pair| pair.number == 22 && is_too_long(pair.sum.span)),
    ("23: a core of the first sheet", |pair| pair.number == 23 && has_core_as_process(&pair.first, &pair.second)),
    ("23: a core of the second sheet", |pair| pair.number == 23 && has_core_as_process(&pair.second, &pair.first)),
    ("23: also too many", |pair| pair.number == 23 && has_too_many_rows(&pair.sum.sheet)),
    ("23: also too long", |pair| pair.number == 23 && is_too_long(pair.sum.span)),
    ("24: 65 cores", |pair| pair.number == 24 && pair.sum.sheet.cores.len() == 65),
    ("24: 257 names", |pair| pair.number == 24 && rows(&pair.sum) == 257),
    ("24: too many names of both kinds", |pair| pair.number == 24 && has_too_many_of_both_kinds(&pair.sum)),
    ("24: also too long", |pair| pair.number == 24 && is_too_long(pair.sum.span)),
    ("25: a span of 2^56", |pair| pair.number == 25 && pair.sum.span == Ticks::from(LATEST_TIME) + 1),
    ("25: more than that", |pair| pair.number == 25 && pair.sum.span > Ticks::from(LATEST_TIME) + 1),
];

/// The names of all ways, in the order in which `ways_of_pair` tells of them.
pub fn all_ways() -> Vec<&'static str> {
    WAYS.iter().map(|(way, _)| *way).collect()
}

/// Of two sheets; a malformed one goes none of the ways.
pub fn ways_of_pair(first: &[u8], second: &[u8]) -> Vec<bool> {
    let (Ok(first), Ok(second)) = (read_sheet(first), read_sheet(second)) else {
        return vec![false; WAYS.len()];
    };
    let number = refusal_of(&first, &second).unwrap_or(0);
    let pair = Pair { sum: add(&[&first, &second]), first, second, number };
    WAYS.iter().map(|(_, is_gone)| is_gone(&pair)).collect()
}

impl Pair {
    fn is_sum(&self) -> bool {
        self.number == 0
    }

    fn both(&self) -> impl Iterator<Item = &PrintedSheet> {
        [&self.first, &self.second].into_iter()
    }

    fn is_sorted(&self) -> bool {
        self.both().all(PrintedSheet::is_sorted)
    }

    fn adds_cores_to(&self, one: &PrintedSheet) -> bool {
        self.sum.sheet.cores.len() > one.sheet.cores.len()
    }

    fn adds_processes_to(&self, one: &PrintedSheet) -> bool {
        self.sum.sheet.processes.len() > one.sheet.processes.len()
    }

    /// The names that both sheets list.
    fn shared(&self) -> usize {
        rows(&self.first) + rows(&self.second) - rows(&self.sum)
    }

    fn conflicts(&self) -> usize {
        let (one, other) = (&self.first, &self.second);
        let found = [
            one.scale != other.scale,
            has_another_kind(one, other),
            has_too_many_rows(&self.sum.sheet),
            is_too_long(self.sum.span),
        ];
        found.into_iter().filter(|is_there| *is_there).count()
    }
}

pub fn rows(one: &PrintedSheet) -> usize {
    one.sheet.cores.len() + one.sheet.processes.len()
}

/// Neither the cores nor the processes are too many by themselves.
fn has_too_many_of_both_kinds(sum: &PrintedSheet) -> bool {
    sum.sheet.cores.len() <= 64 && sum.sheet.processes.len() <= 256 && rows(sum) > 256
}

/// In one section of a sorted sheet: such names are neighbours.
fn has_beginnings(sum: &PrintedSheet) -> bool {
    let begins = |names: Vec<&str>| names.windows(2).any(|pair| pair[1].starts_with(pair[0]));
    begins(sum.core_names()) || begins(sum.process_names())
}

fn lengths(one: &PrintedSheet) -> impl Iterator<Item = usize> + '_ {
    one.core_names().into_iter().chain(one.process_names()).map(str::len)
}

fn longest_name(one: &PrintedSheet) -> usize {
    lengths(one).max().unwrap_or(0)
}

fn shortest_name(one: &PrintedSheet) -> usize {
    lengths(one).min().unwrap_or(0)
}

fn has_core_as_process(cores: &PrintedSheet, processes: &PrintedSheet) -> bool {
    cores.core_names().iter().any(|name| processes.process_names().contains(name))
}
