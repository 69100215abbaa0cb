//! Which sheet lists which names, and in which order.

use std::ops::Range;

use super::super::random::Random;

#[derive(Clone, Copy)]
pub enum Sharing {
    /// Every sheet lists every name.
    All,
    Some,
    /// No name is listed twice.
    None,
}

pub fn any_sharing(random: &mut Random) -> Sharing {
    *random.pick(&[&Sharing::All, &Sharing::Some, &Sharing::Some, &Sharing::None])
}

/// The names of each sheet. The first names have their takers, so that others
/// don't list them; any sheet may list the rest.
pub fn share_out(
    random: &mut Random,
    names: &[String],
    sheets: usize,
    sharing: Sharing,
    first_takers: &[Range<usize>],
) -> Vec<Vec<String>> {
    let mut lists = vec![Vec::new(); sheets];
    for (place, name) in names.iter().enumerate() {
        let takers = first_takers.get(place).cloned().unwrap_or(0..sheets);
        for taker in some_of(random, takers, sharing) {
            lists[taker].push(name.clone());
        }
    }
    for list in &mut lists {
        put_in_order(random, list);
    }
    lists
}

/// At least one of them.
fn some_of(random: &mut Random, takers: Range<usize>, sharing: Sharing) -> Vec<usize> {
    let sure = takers.start + random.below(takers.len());
    let mut takes = |taker: &usize| match sharing {
        Sharing::All => true,
        Sharing::Some => *taker == sure || random.chance(50),
        Sharing::None => *taker == sure,
    };
    takers.filter(|taker| takes(taker)).collect()
}

pub fn put_in_order(random: &mut Random, names: &mut [String]) {
    match random.below(4) {
        0 => names.sort(),
        1 => names.sort_by(|one, other| other.cmp(one)),
        _ => shuffle(random, names),
    }
}

pub fn shuffle<T>(random: &mut Random, items: &mut [T]) {
    for place in 1..items.len() {
        items.swap(place, random.below(place + 1));
    }
}

/// Puts a name anywhere among them.
pub fn insert(random: &mut Random, names: &mut Vec<String>, name: &str) {
    names.insert(random.below(names.len() + 1), name.to_string());
}
