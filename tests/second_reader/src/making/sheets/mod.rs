//! Making sheets to be added, from a seed: two at a time or more, and three for
//! every order.

pub mod damage;
mod damaged_numbers;
mod damaged_rows;
mod damaged_text;
mod damaged_totals;
mod draft;
mod odds;
mod plan;
mod pool;
mod series;
mod sharing;
pub mod triples;
mod wild;
mod wishes;

use super::random::Random;
use damage::DAMAGES;
use plan::Plan;
use pool::{Size, MOST_CORES, MOST_NAMES};
use sharing::Sharing;
use wishes::{Conflicts, Wishes};

pub struct MadeSheets {
    pub sheets: Vec<Vec<u8>>,
    /// The number that they were made to earn, 0 for a sum. Nothing where the
    /// maker doesn't know: those are for comparing alone.
    pub aim: Option<u8>,
    /// Of a pair that earns 21: its only cause.
    pub damaged: Option<Damaged>,
}

#[derive(Clone, Copy)]
pub struct Damaged {
    /// Its place in the list of damages.
    pub cause: usize,
    /// 0 for the first sheet, 1 for the second.
    pub sheet: usize,
}

impl MadeSheets {
    fn aimed(aim: u8, sheets: Vec<Vec<u8>>) -> MadeSheets {
        MadeSheets { sheets, aim: Some(aim), damaged: None }
    }

    fn unaimed(sheets: Vec<Vec<u8>>) -> MadeSheets {
        MadeSheets { sheets, aim: None, damaged: None }
    }
}

/// The kinds take turns, and so do the causes of 21, so that each of them comes
/// in a short run too.
const TURNS: u64 = 20;
const DAMAGED_TURNS: u64 = 7;

pub fn make_sheets(seed: u64, index: u64) -> MadeSheets {
    let random = &mut Random::new(seed, index);
    let turn = index % TURNS;
    match turn {
        0..DAMAGED_TURNS => {
            let number = (index / TURNS * DAMAGED_TURNS + turn) as usize;
            let (cause, sheet) = (number % DAMAGES.len(), number / DAMAGES.len() % 2);
            damaged_pair(random, Damaged { cause, sheet })
        }
        7..=10 => fitting_pair(random),
        11 => full_pair(random),
        12..=15 => {
            // 22 to 25.
            let number = turn as u8 + 10;
            let conflicts = Conflicts::earning(random, number);
            MadeSheets::aimed(number, make_pair(random, conflicts))
        }
        16 => wild::changed_bytes(random),
        17 => wild::changed_lines(random),
        18 => wild::sheets_of_traces(random),
        _ => series::make(random),
    }
}

fn texts(random: &mut Random, plans: &[Plan]) -> Vec<Vec<u8>> {
    plans.iter().map(|plan| plan.draft(random).text()).collect()
}

fn make_pair(random: &mut Random, conflicts: Conflicts) -> Vec<Vec<u8>> {
    let plans = Wishes::new(random, 2, conflicts).plans(random);
    texts(random, &plans)
}

fn fitting_pair(random: &mut Random) -> MadeSheets {
    MadeSheets::aimed(0, make_pair(random, Conflicts::default()))
}

/// Exactly as many cores or names as fit, and often the longest span.
fn full_pair(random: &mut Random) -> MadeSheets {
    let size = *random.pick(&[&Size::Cores(MOST_CORES), &Size::Names(MOST_NAMES)]);
    let wishes = Wishes { size, ..Wishes::new(random, 2, Conflicts::default()) };
    let plans = wishes.plans(random);
    MadeSheets::aimed(0, texts(random, &plans))
}

/// A pair that would fit but for the one damage; at times it wouldn't, since 21
/// comes before the other numbers.
fn damaged_pair(random: &mut Random, damaged: Damaged) -> MadeSheets {
    let number = if random.chance(20) { 22 + random.below(4) as u8 } else { 0 };
    let conflicts = if number == 0 { Conflicts::default() } else { Conflicts::earning(random, number) };
    let mut wishes = Wishes::new(random, 2, conflicts);
    if !conflicts.rows && random.chance(80) {
        wishes = Wishes { size: Size::Few, sharing: Sharing::All, ..wishes };
    }
    let mut plans = wishes.plans(random);
    let sheets = damage_one(random, &mut plans, damaged);
    MadeSheets { sheets, aim: Some(21), damaged: Some(damaged) }
}

fn damage_one(random: &mut Random, plans: &mut [Plan], damaged: Damaged) -> Vec<Vec<u8>> {
    let (plan, damage) = (&mut plans[damaged.sheet], &DAMAGES[damaged.cause]);
    if damage.needs_rows {
        plan.make_room_for_damage(random);
    }
    let draft = plan.draft(random);
    let mut sheets = texts(random, plans);
    sheets[damaged.sheet] = (damage.apply)(random, draft);
    sheets
}
