//! Three sheets, to be added in every order and grouping.

use super::super::random::Random;
use super::damage::DAMAGES;
use super::odds::{fill_rows, fill_span, set_at_odds};
use super::plan::Plan;
use super::pool::Size;
use super::wild::{change_bytes, change_lines, printed, printed_beside};
use super::wishes::{other_scale, Conflicts, Wishes};
use super::{damage_one, texts, Damaged};
use crate::orders::Triple;

pub struct MadeTriple {
    pub sheets: Triple,
    /// The numbers that they were made to earn: each in some order and grouping,
    /// and no other in any. 0 is a sum. Nothing where the maker doesn't know.
    pub aim: Option<Vec<u8>>,
}

impl MadeTriple {
    fn new(sheets: Vec<Vec<u8>>, aim: Option<Vec<u8>>) -> MadeTriple {
        MadeTriple { sheets: sheets.try_into().expect("three sheets"), aim }
    }
}

/// The kinds take turns, and so do the reasons that differ.
const TURNS: u64 = 23;
const REASON_TURNS: u64 = 4;

/// Which numbers come together, each in another order or grouping. A malformed
/// sheet or another scale is at odds with both others, so that the only three
/// that can come are 23 to 25.
pub const REASONS: [&[u8]; 11] = [
    &[21, 22],
    &[21, 23],
    &[21, 24],
    &[21, 25],
    &[22, 23],
    &[22, 24],
    &[22, 25],
    &[23, 24],
    &[23, 25],
    &[24, 25],
    &[23, 24, 25],
];

pub fn make_triple(seed: u64, index: u64) -> MadeTriple {
    let random = &mut Random::new(seed, index);
    let turn = index % TURNS;
    match turn {
        0..REASON_TURNS => {
            let number = (index / TURNS * REASON_TURNS + turn) as usize;
            different_reasons(random, REASONS[number % REASONS.len()])
        }
        4..=7 => sum(random, |random| fitting(random, 3)),
        8 | 9 => sum(random, just_fitting),
        10 | 11 => sum(random, empty_beside_two),
        12 => empty_and_refused(random),
        13 | 14 => one_damaged(random),
        15 => another_scale(random),
        16 | 17 => two_at_odds(random),
        18 | 19 => only_together(random, 24),
        20 => only_together(random, 25),
        21 => changed(random),
        _ => of_traces(random),
    }
}

fn fitting(random: &mut Random, sheets: usize) -> Vec<Plan> {
    Wishes::new(random, sheets, Conflicts::default()).plans(random)
}

/// Three that fit, with few rows, so that there is room for conflicts.
fn few(random: &mut Random) -> Vec<Plan> {
    Wishes { size: Size::Few, ..Wishes::new(random, 3, Conflicts::default()) }.plans(random)
}

/// All three are sorted at times, which by chance they seldom are.
fn sum(random: &mut Random, make: fn(&mut Random) -> Vec<Plan>) -> MadeTriple {
    let mut plans = make(random);
    if random.chance(30) {
        for plan in &mut plans {
            plan.cores.sort();
            plan.processes.sort();
        }
    }
    MadeTriple::new(texts(random, &plans), Some(vec![0]))
}

fn refused(random: &mut Random, plans: &[Plan], numbers: &[u8]) -> MadeTriple {
    MadeTriple::new(texts(random, plans), Some(numbers.to_vec()))
}

/// Only all three together have as many cores or names as may be, or the
/// longest span, or both.
fn just_fitting(random: &mut Random) -> Vec<Plan> {
    let mut plans = few(random);
    let which = random.below(3);
    if which != 0 {
        fill_rows(random, &mut plans, &[0, 1, 2], 0);
    }
    if which != 1 {
        fill_span(random, &mut plans, &[0, 1, 2], 0);
    }
    plans
}

fn empty_beside_two(random: &mut Random) -> Vec<Plan> {
    let mut plans = fitting(random, 2);
    plans.push(Plan::empty(plans[0].scale));
    plans
}

/// An empty sheet changes no reason; but its scale may be one.
fn empty_and_refused(random: &mut Random) -> MadeTriple {
    let number = random.between(21, 25) as u8;
    let mut plans = few(random);
    if number > 22 {
        set_at_odds(random, &mut plans, &[0, 1], number);
    }
    plans[2] = Plan::empty(plans[0].scale);
    match number {
        21 => damaged(random, plans, 1, &[21]),
        22 => one_in_another_scale(random, plans),
        _ => refused(random, &plans, &[number]),
    }
}

fn damaged(random: &mut Random, mut plans: Vec<Plan>, sheet: usize, numbers: &[u8]) -> MadeTriple {
    let cause = random.below(DAMAGES.len());
    MadeTriple::new(damage_one(random, &mut plans, Damaged { cause, sheet }), Some(numbers.to_vec()))
}

fn one_damaged(random: &mut Random) -> MadeTriple {
    let plans = fitting(random, 3);
    damaged(random, plans, 2, &[21])
}

fn another_scale(random: &mut Random) -> MadeTriple {
    let plans = fitting(random, 3);
    one_in_another_scale(random, plans)
}

fn one_in_another_scale(random: &mut Random, mut plans: Vec<Plan>) -> MadeTriple {
    let plan = &mut plans[random.below(3)];
    plan.scale = other_scale(random, plan.scale);
    refused(random, &plans, &[22])
}

/// The third one fits with each of them.
fn two_at_odds(random: &mut Random) -> MadeTriple {
    let number = random.between(23, 25) as u8;
    let mut plans = few(random);
    set_at_odds(random, &mut plans, &[0, 1], number);
    refused(random, &plans, &[number])
}

/// Any two of the three fit.
fn only_together(random: &mut Random, number: u8) -> MadeTriple {
    let mut plans = few(random);
    set_at_odds(random, &mut plans, &[0, 1, 2], number);
    refused(random, &plans, &[number])
}

/// Which two come first decides the reason.
fn different_reasons(random: &mut Random, reasons: &[u8]) -> MadeTriple {
    let mut plans = few(random);
    match *reasons {
        [21, number] => {
            set_at_odds(random, &mut plans, &[0, 1], number);
            return damaged(random, plans, 2, reasons);
        }
        [22, number] => {
            set_at_odds(random, &mut plans, &[2, 0], 22);
            set_at_odds(random, &mut plans, &[0, 1], number);
        }
        _ => {
            for (pair, number) in [[0, 1], [0, 2], [1, 2]].iter().zip(reasons) {
                set_at_odds(random, &mut plans, pair, *number);
            }
        }
    }
    refused(random, &plans, reasons)
}

/// Bytes or lines of one sheet, blindly.
fn changed(random: &mut Random) -> MadeTriple {
    let plans = fitting(random, 3);
    let mut sheets = texts(random, &plans);
    let change = if random.chance(50) { change_bytes } else { change_lines };
    change(random, &mut sheets[2]);
    MadeTriple::new(sheets, None)
}

fn of_traces(random: &mut Random) -> MadeTriple {
    let first = printed(random);
    let others = [printed_beside(random, &first), printed_beside(random, &first)];
    MadeTriple::new([vec![first], others.to_vec()].concat(), None)
}
