//! Traces that fill the tables of names, cores and instances to the last entry
//! or one past it.

use super::draft::EventText;
use super::filling::{Filling, ACTIVATED, CORES, CORE_EVENTS, INSTANCES, NAMES};
use super::names::name_of_length;
use super::random::Random;
use super::Made;

/// A full table that is still taken, or a line that earns 9 there, which is
/// lower than the 10 that the line would earn besides.
pub fn make(random: &mut Random) -> Made {
    let mut filling = fill(random);
    add_nothing_new(random, &mut filling);
    if random.chance(40) {
        let line = second_kind(random, &mut filling);
        filling.add_now(line);
        return Made::aimed(9, filling.draft.finish(random));
    }
    Made::aimed(0, filling.draft.finish(random))
}

/// A name in a second kind, with names and an instance that may not fit.
fn second_kind(random: &mut Random, filling: &mut Filling) -> EventText {
    let event = random.pick(&CORE_EVENTS);
    let what = (random.pick(&["T", "I"]), event);
    let (new, also_new) = (filling.new_name(random), filling.new_name(random));
    let known = match random.below(3) {
        0 => filling.any_other(random),
        1 => filling.any_core(random),
        _ => filling.any_process(random).map(|(name, _)| name),
    };
    match (random.below(3), known, filling.any_other(random)) {
        (0, Some(known), _) => EventText::new(0, (&known, 0), what, (&known, 0)),
        (1, _, Some(other)) => EventText::new(0, (&other, 0), what, (&also_new, 77)),
        (2, _, Some(other)) => EventText::new(0, (&new, 0), what, (&other, 77)),
        _ => EventText::new(0, (&new, 0), what, (&new, 0)),
    }
}

/// Aim 10: one name, core or instance too many.
pub fn overflow(random: &mut Random) -> Vec<u8> {
    let mut filling;
    let line = match random.below(4) {
        0 => {
            filling = fill_names(random, NAMES);
            one_name_too_many(random, &mut filling)
        }
        1 => {
            // One name would fit, but the line brings two.
            filling = fill_names(random, NAMES - 1);
            new_core_and_process(random, &mut filling)
        }
        2 => {
            filling = fill_cores(random);
            one_core_too_many(random, &mut filling)
        }
        _ => {
            filling = fill_instances(random);
            one_instance_too_many(random, &mut filling)
        }
    };
    if random.chance(30) {
        add_nothing_new(random, &mut filling);
        filling.add_now(line);
    } else {
        filling.add(&line);
    }
    filling.draft.finish(random)
}

/// One table full, or all three.
fn fill(random: &mut Random) -> Filling {
    match random.below(5) {
        0 => fill_names(random, NAMES),
        1 => fill_names(random, NAMES - 1),
        2 => fill_cores(random),
        3 => fill_instances(random),
        _ => fill_everything(random),
    }
}

fn fill_names(random: &mut Random, names: usize) -> Filling {
    let mut filling = Filling::begin(random);
    let most_cores = random.between(0, CORES as u64 - 1) as usize;
    while filling.names < names {
        let two_fit = filling.names + 2 <= names && filling.cores < most_cores;
        match random.below(3) {
            0 if two_fit => filling.add_core_and_process(random),
            1 => filling.add_semaphore(random),
            _ => filling.add_entity(random),
        }
    }
    filling
}

fn fill_cores(random: &mut Random) -> Filling {
    let mut filling = Filling::begin(random);
    filling.add_process(random);
    while filling.cores < CORES {
        if random.chance(50) {
            filling.add_core_and_process(random);
        } else {
            filling.add_core_of_known_process(random);
        }
    }
    filling
}

fn fill_instances(random: &mut Random) -> Filling {
    let mut filling = Filling::begin(random);
    filling.long_names = false;
    for _ in 0..random.between(0, 3) {
        filling.add_entity(random);
        filling.add_core_and_process(random);
    }
    while filling.instances < INSTANCES {
        let most = random.between(1, INSTANCES as u64) as usize;
        filling.add_series(random, most);
    }
    filling
}

fn fill_everything(random: &mut Random) -> Filling {
    let mut filling = fill_cores(random);
    while filling.names < NAMES - 1 {
        filling.add_entity(random);
    }
    filling.add_series(random, INSTANCES);
    filling
}

/// Lines whose names and instances are all there, or that track none.
fn add_nothing_new(random: &mut Random, filling: &mut Filling) {
    for _ in 0..random.between(1, 4) {
        filling.time += random.between(0, 1 << 50);
        let stranger = name_of_length(random, 20);
        let (from, to) = ((stranger.as_str(), 0), (stranger.as_str(), 0));
        let line = match random.below(4) {
            0 => EventText::new(0, from, ("STI", "trigger"), to),
            1 => EventText::new(0, from, ("SIG", "read"), to),
            2 => EventText::new(0, from, ("EVENT", "set_event"), to).with_note(&stranger),
            _ => filling.follow_up(random).unwrap_or_else(|| EventText::new(0, from, ("SCHED", "schedule"), to)),
        };
        filling.add_now(line);
    }
}

/// The line may break higher numbers as well: 11, 13 or 14.
fn one_name_too_many(random: &mut Random, filling: &mut Filling) -> EventText {
    let new = filling.new_name(random);
    let (time, target) = (filling.time, (new.as_str(), 0));
    match random.below(5) {
        0 => EventText::new(time, ("P", 0), ("SEM", random.pick(&["queued", "increment"])), target).with_note("0"),
        1 => EventText::new(time, target, ("SEM", random.pick(&["free", "lock", "overfull"])), target).with_note("1"),
        2 => EventText::new(time, ("P", 0), ("R", random.pick(&["start", "suspend", "resume"])), target),
        3 => EventText::new(time, ("S", 0), ("T", random.pick(&["activate", "release", "mtalimitexceeded"])), target),
        _ => one_core_too_many(random, filling),
    }
}

/// A new core, and a process that is known or new. The step of a known
/// instance may be wrong, or its core another one.
fn one_core_too_many(random: &mut Random, filling: &mut Filling) -> EventText {
    let Some((name, type_word)) = filling.any_process(random).filter(|_| random.chance(70)) else {
        return new_core_and_process(random, filling);
    };
    let core = filling.new_name(random);
    let number = *random.pick(&[&0, &0, &77]);
    EventText::new(filling.time, (&core, 0), (type_word, random.pick(&CORE_EVENTS)), (&name, number))
}

fn new_core_and_process(random: &mut Random, filling: &mut Filling) -> EventText {
    let (core, process) = (filling.new_name(random), filling.new_name(random));
    let what = (random.pick(&["T", "I"]), random.pick(&CORE_EVENTS));
    EventText::new(filling.time, (&core, 0), what, (&process, 0))
}

/// A new instance of a known or new process or runnable. Its number may be out
/// of series, or its core held. One that can't be old needs no room, so that it
/// isn't drawn here.
fn one_instance_too_many(random: &mut Random, filling: &mut Filling) -> EventText {
    let time = filling.time;
    let core = filling.any_core(random).unwrap_or_else(|| "C".to_string());
    if let Some((name, type_word)) = filling.any_process(random).filter(|_| random.chance(60)) {
        let next = ("activate", ACTIVATED + 1);
        let lines = [&("release", 77), &("start", 77), &("preempt", 77), &("run", 77), &("activate", 77), &next];
        let (event, number) = *random.pick(&lines);
        return EventText::new(time, (&core, 0), (type_word, event), (&name, number));
    }
    let name = filling.new_name(random);
    let what = *random.pick(&[&("R", "start"), &("R", "resume"), &("T", "activate"), &("I", "start"), &("I", "poll")]);
    EventText::new(time, (&core, 0), what, (&name, 0))
}
