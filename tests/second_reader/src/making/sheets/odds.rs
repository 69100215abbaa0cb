//! Sheets that fit together are set at odds: two of them, or all together only.

use std::collections::BTreeSet;

use super::super::random::Random;
use super::super::world::LATEST;
use super::plan::{split, Plan};
use super::pool::{more_names, MOST_CORES, MOST_NAMES};
use super::sharing::{any_sharing, insert, put_in_order, share_out};
use super::wishes::other_scale;

/// The members earn the number together; without any one of them the sheets
/// fit as before, but for a scale, which is the first member's alone. The plans
/// have few rows, and lower numbers are set first.
pub fn set_at_odds(random: &mut Random, plans: &mut [Plan], members: &[usize], number: u8) {
    match number {
        22 => plans[members[0]].scale = other_scale(random, plans[members[0]].scale),
        23 => give_two_kinds(random, plans, members),
        24 => {
            let more = if random.chance(60) { 1 } else { 1 + random.below(8) };
            fill_rows(random, plans, members, more);
        }
        _ => {
            let more = if random.chance(60) { 1 } else { random.between(2, LATEST / 2) };
            fill_span(random, plans, members, more);
        }
    }
}

/// A new name is a core in one of two and a process in the other.
fn give_two_kinds(random: &mut Random, plans: &mut [Plan], members: &[usize]) {
    let name = &new_names(random, plans, 1)[0];
    let core = random.below(2);
    insert(random, &mut plans[members[core]].cores, name);
    insert(random, &mut plans[members[1 - core]].processes, name);
}

/// What is counted of a sheet, how many may be, and where new names go.
struct Rows {
    counted: fn(&Plan) -> Vec<String>,
    most: usize,
    section: fn(&mut Plan) -> &mut Vec<String>,
}

const CORES: Rows = Rows { counted: |plan| plan.cores.clone(), most: MOST_CORES, section: |plan| &mut plan.cores };
const NAMES: Rows = Rows { counted: Plan::names, most: MOST_NAMES, section: |plan| &mut plan.processes };

impl Rows {
    fn count<'a>(&self, plans: impl Iterator<Item = &'a Plan>) -> usize {
        plans.flat_map(self.counted).collect::<BTreeSet<String>>().len()
    }
}

/// The members list together so many cores or names more than may be; with 0,
/// just as many as may be. Each lists some alone, so that without it the others
/// and the sheets beside them fit, and are fewer.
pub fn fill_rows(random: &mut Random, plans: &mut [Plan], members: &[usize], more: usize) {
    let rows = if random.chance(50) { CORES } else { NAMES };
    let of_members = rows.count(members.iter().map(|&member| &plans[member]));
    let beside = rows.count(plans.iter()) - of_members;
    let names = new_names(random, plans, rows.most + more - of_members);
    let alone = (more + beside).max(1);
    let takers: Vec<_> = (0..members.len()).flat_map(|member| vec![member..member + 1; alone]).collect();
    let sharing = any_sharing(random);
    let lists = share_out(random, &names, members.len(), sharing, &takers);
    for (&member, list) in members.iter().zip(lists) {
        let section = (rows.section)(&mut plans[member]);
        section.extend(list);
        put_in_order(random, section);
    }
}

fn new_names(random: &mut Random, plans: &[Plan], count: usize) -> Vec<String> {
    let mut used: Vec<String> = plans.iter().flat_map(Plan::names).collect();
    let before = used.len();
    more_names(random, &mut used, count);
    used.split_off(before)
}

/// The members' spans make so many ticks more than the latest time; with 0, just
/// that. Each is so long that without it the others and the sheets beside them
/// fit, and are shorter.
pub fn fill_span(random: &mut Random, plans: &mut [Plan], members: &[usize], more: u64) {
    for plan in plans.iter_mut() {
        plan.span = random.between(0, 2_000);
    }
    let beside: u64 = (0..plans.len()).filter(|place| !members.contains(place)).map(|place| plans[place].span).sum();
    let alone = (more + beside).max(1);
    let rest = LATEST + more - alone * members.len() as u64;
    for (&member, part) in members.iter().zip(split(random, rest, members.len())) {
        plans[member].span = alone + part;
    }
}
