//! Three sheets or more, added from the left: the first refusal ends it.

use super::super::random::Random;
use super::damage::DAMAGES;
use super::wishes::{Conflicts, Wishes};
use super::{damage_one, fitting_pair, make_pair, texts, Damaged, MadeSheets};

const MOST_SHEETS: u64 = 6;

pub fn make(random: &mut Random) -> MadeSheets {
    match random.below(6) {
        0..=2 => ends_with_conflict(random, Conflicts::default()),
        3 => {
            let number = random.between(22, 25) as u8;
            let conflicts = Conflicts::earning(random, number);
            ends_with_conflict(random, conflicts)
        }
        4 => one_damaged(random),
        _ => refused_early(random),
    }
}

/// All but the last one fit together.
fn ends_with_conflict(random: &mut Random, conflicts: Conflicts) -> MadeSheets {
    let sheets = random.between(3, MOST_SHEETS) as usize;
    let plans = Wishes::new(random, sheets, conflicts).plans(random);
    MadeSheets::aimed(conflicts.number(), texts(random, &plans))
}

fn one_damaged(random: &mut Random) -> MadeSheets {
    let sheets = random.between(3, MOST_SHEETS) as usize;
    let mut plans = Wishes::new(random, sheets, Conflicts::default()).plans(random);
    let damaged = Damaged { cause: random.below(DAMAGES.len()), sheet: sheets - 1 };
    MadeSheets::aimed(21, damage_one(random, &mut plans, damaged))
}

/// The first two are refused, so that a third one isn't looked at, though a
/// lower number waits there.
fn refused_early(random: &mut Random) -> MadeSheets {
    let number = random.between(22, 25) as u8;
    let conflicts = Conflicts::earning(random, number);
    let mut sheets = make_pair(random, conflicts);
    let mut third = fitting_pair(random).sheets.remove(0);
    if random.chance(70) {
        third.truncate(random.below(third.len()));
    }
    sheets.push(third);
    MadeSheets::aimed(number, sheets)
}
