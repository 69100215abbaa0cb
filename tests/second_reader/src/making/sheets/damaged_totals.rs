//! Damage to the two totals, one of them at a time: a core's figures and the
//! span, the charges and all held ticks.

use super::super::random::Random;
use super::draft::{value_of, Draft};

const IDLE: usize = 1;
const UNKNOWN: usize = 2;

fn add_to(figure: &mut String, more: u128) {
    *figure = (value_of(figure) + more).to_string();
}

fn take_one(figure: &mut String) {
    *figure = (value_of(figure) - 1).to_string();
}

fn is_not_zero(figure: &&mut String) -> bool {
    value_of(figure) > 0
}

/// Idle or unknown: held ticks would change the other total.
fn idle_or_unknown<'a>(random: &mut Random, draft: &'a mut Draft) -> &'a mut String {
    let core = random.below(draft.cores.len());
    &mut draft.cores[core].figures[*random.pick(&[&IDLE, &UNKNOWN])]
}

fn any_charge<'a>(random: &mut Random, draft: &'a mut Draft) -> &'a mut String {
    let process = random.below(draft.processes.len());
    &mut draft.processes[process].figures[0]
}

/// At times it is a held tick, with its charge.
pub fn core_one_more(random: &mut Random, mut draft: Draft) -> Vec<u8> {
    if random.chance(30) {
        let core = random.below(draft.cores.len());
        add_to(&mut draft.cores[core].figures[0], 1);
        add_to(any_charge(random, &mut draft), 1);
    } else {
        add_to(idle_or_unknown(random, &mut draft), 1);
    }
    draft.text()
}

/// There is at least one tick: a held one is taken with its charge.
pub fn core_one_less(random: &mut Random, mut draft: Draft) -> Vec<u8> {
    let core = random.below(draft.cores.len());
    let figures = draft.cores[core].figures.iter_mut();
    let mut there: Vec<(usize, &mut String)> = figures.enumerate().filter(|(_, figure)| is_not_zero(figure)).collect();
    let chosen = random.below(there.len());
    let (place, figure) = &mut there[chosen];
    take_one(figure);
    if *place == 0 {
        draft.processes.iter_mut().map(|process| &mut process.figures[0]).find(is_not_zero).map(take_one);
    }
    draft.text()
}

/// One core has a tick too many that another one lacks.
pub fn cores_together(random: &mut Random, mut draft: Draft) -> Vec<u8> {
    let all = draft.cores.iter_mut().enumerate();
    let figures = all.flat_map(|(core, row)| row.figures[IDLE..].iter_mut().map(move |figure| (core, figure)));
    match figures.into_iter().find(|(_, figure)| is_not_zero(figure)) {
        Some((core, figure)) => {
            take_one(figure);
            let other = (core + 1) % draft.cores.len();
            add_to(&mut draft.cores[other].figures[*random.pick(&[&IDLE, &UNKNOWN])], 1);
        }
        // Every tick is held; so one is held on the wrong core.
        None => {
            take_one(&mut draft.cores[0].figures[0]);
            add_to(&mut draft.cores[1].figures[0], 1);
        }
    }
    draft.text()
}

/// Right in 64 bits, by one figure or by two.
pub fn core_wraps(random: &mut Random, mut draft: Draft) -> Vec<u8> {
    if random.chance(50) {
        add_to(idle_or_unknown(random, &mut draft), 1 << 64);
    } else {
        let core = random.below(draft.cores.len());
        add_to(&mut draft.cores[core].figures[IDLE], 1 << 63);
        add_to(&mut draft.cores[core].figures[UNKNOWN], 1 << 63);
    }
    draft.text()
}

/// A charge has one too many, or a core one held tick too few.
pub fn charges_one_more(random: &mut Random, mut draft: Draft) -> Vec<u8> {
    let held = draft.cores.iter_mut().find(|core| value_of(&core.figures[0]) > 0);
    match held {
        Some(core) if random.chance(40) => {
            take_one(&mut core.figures[0]);
            add_to(&mut core.figures[IDLE], 1);
        }
        _ => add_to(any_charge(random, &mut draft), 1),
    }
    draft.text()
}

/// A charge has one too few, or a core one held tick too many. Where nothing is
/// charged, nothing is held and a tick is idle or unknown.
pub fn charges_one_less(random: &mut Random, mut draft: Draft) -> Vec<u8> {
    let charged = draft.processes.iter_mut().map(|process| &mut process.figures[0]).find(is_not_zero);
    let free = draft.cores.iter_mut().find(|core| core.figures[IDLE..].iter().any(|figure| value_of(figure) > 0));
    match (charged, free) {
        (Some(charge), None) => take_one(charge),
        (Some(charge), _) if random.chance(60) => take_one(charge),
        (_, Some(core)) => {
            core.figures[IDLE..].iter_mut().find(is_not_zero).map(take_one);
            add_to(&mut core.figures[0], 1);
        }
        (None, None) => unreachable!("a sheet without a tick"),
    }
    draft.text()
}

/// Right in 64 bits, by one charge or by two.
pub fn charges_wrap(random: &mut Random, mut draft: Draft) -> Vec<u8> {
    if random.chance(50) {
        add_to(any_charge(random, &mut draft), 1 << 64);
    } else {
        add_to(&mut draft.processes[0].figures[0], 1 << 63);
        add_to(&mut draft.processes[1].figures[0], 1 << 63);
    }
    draft.text()
}

/// Right in 128 bits, so that a reader in numbers of that size would take it.
pub fn wraps_128(random: &mut Random, mut draft: Draft) -> Vec<u8> {
    let figure = if random.chance(50) { idle_or_unknown(random, &mut draft) } else { any_charge(random, &mut draft) };
    // 2^128 is 340282366920938463463 374607431768211456, in two halves.
    let low = 374_607_431_768_211_456 + value_of(figure);
    let (carry, low) = (low / 10u128.pow(18), low % 10u128.pow(18));
    *figure = format!("{}{low:018}", 340_282_366_920_938_463_463 + carry);
    draft.text()
}
