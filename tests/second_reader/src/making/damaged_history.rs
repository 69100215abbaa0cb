//! Damage that earns 8, 9 and 11 to 14: lines that are well formed but don't
//! follow from the lines before.

use super::draft::EventText;
use super::entity::Entity;
use super::{long_runs, old_instances};
use super::random::Random;
use super::steps::{
    all_process_steps, all_runnable_steps, all_semaphore_steps, count_is_right, needs_own_core,
    process_steps, runnable_steps, semaphore_steps, takes_core, Step, REQUEST_EVENTS,
};
use super::story::Story;
use super::world::{Semaphore, World};
use super::world_semaphores::{allowed_steps, COUNTS};

/// Aim 8: a time before the last one.
pub fn time_back(random: &mut Random) -> Vec<u8> {
    let mut story = Story::some_events(random);
    story.world.time = story.world.time.max(1);
    let last = story.world.plain_event(random);
    story.add_event(&last);
    let time = story.world.time;
    let earlier = *random.pick(&[&(time - 1), &(time - 1), &(time / 2), &0]);
    let mut event = story.possible_event(random);
    if random.chance(30) {
        event = well_formed_but_wrong(random, &story.world);
    }
    event.set(1, earlier.to_string().as_bytes());
    story.finish_with_damage(random, event.line())
}

/// A line that would earn 9 to 14, or be taken, at the right time.
fn well_formed_but_wrong(random: &mut Random, world: &World) -> EventText {
    let (source, target) = (world.any_name(random), world.any_name(random));
    let process = random.pick(&["T", "I"]);
    let event = random.pick(&["start", "resume", "preempt", "run", "release"]);
    EventText::new(world.time, (&source, 0), (process, event), (&target, 0))
}

/// Aim 9: a tracked name in a second kind.
pub fn second_kind(random: &mut Random) -> Vec<u8> {
    let mut story = Story::some_events(random);
    story.until(random, |world| world.tracked.len() > 1);
    let world = &story.world;
    let (name, kind) = world.tracked[random.below(world.tracked.len())].clone();
    let line = match random.below(4) {
        0 if kind != "core" => {
            let process = target_for(random, world, &name);
            core_line(random, world.time, &name, &process)
        }
        1 => core_line(random, world.time, &name, &name),
        2 => {
            let new = world.new_name(random);
            core_line(random, world.time, &new, &new)
        }
        _ => line_of_other_kind(random, world.time, &name, kind),
    };
    story.finish_with_damage(random, line.line())
}

/// A name that may be a process's, other than `name`.
fn target_for(random: &mut Random, world: &World, name: &str) -> String {
    let process = &world.processes[random.below(world.processes.len())].name;
    if process == name {
        world.new_name(random)
    } else {
        process.clone()
    }
}

fn core_line(random: &mut Random, time: u64, core: &str, process: &str) -> EventText {
    let event = random.pick(&["start", "resume", "poll_parking", "preempt", "wait", "park", "terminate", "poll", "run"]);
    EventText::new(time, (core, 0), (random.pick(&["T", "I"]), event), (process, 0))
}

fn line_of_other_kind(random: &mut Random, time: u64, name: &str, kind: &str) -> EventText {
    let others: Vec<&str> = ["T", "I", "R", "SEM"].into_iter().filter(|other| *other != kind).collect();
    let number = *random.pick(&[&0, &1]);
    match random.pick(&others) {
        "SEM" => EventText::new(time, ("P", 0), ("SEM", "queued"), (name, 0)).with_note("1"),
        "R" => EventText::new(time, ("P", 0), ("R", random.pick(&["start", "suspend"])), (name, number)),
        process => EventText::new(
            time,
            ("new_core", 0),
            (process, random.pick(&["activate", "start", "release", "preempt"])),
            (name, number),
        ),
    }
}

/// Aim 11: a step that the chart doesn't have from the known state, or a first
/// event of an instance that was never activated; also after many have ended.
pub fn wrong_step(random: &mut Random) -> Vec<u8> {
    match random.below(100) {
        0..=44 => return old_instances::never_activated(random),
        45..=59 => return long_runs::absent_after_a_short_run(random, 11),
        _ => {}
    }
    let mut story = Story::some_events(random);
    let line = match random.below(4) {
        0 => {
            story.until(random, |world| has_instances(&world.runnables));
            wrong_runnable_step(random, &story.world)
        }
        1 => {
            story.until(random, |world| world.semaphores.iter().any(|semaphore| semaphore.state.is_some()));
            wrong_semaphore_step(random, &story.world)
        }
        _ => {
            story.until(random, |world| has_instances(&world.processes));
            wrong_process_step(random, &story.world)
        }
    };
    story.finish_with_damage(random, line.line())
}

fn has_instances(entities: &[Entity]) -> bool {
    entities.iter().any(|entity| !entity.instances.is_empty())
}

fn any_instance<'a>(random: &mut Random, entities: &'a [Entity]) -> (&'a Entity, u32, &'static str) {
    let all: Vec<(&Entity, u32, &'static str)> = entities
        .iter()
        .flat_map(|entity| entity.instances.iter().map(move |&(number, state)| (entity, number, state)))
        .collect();
    all[random.below(all.len())]
}

fn any_other_event(random: &mut Random, all: Vec<Step>, allowed: Vec<Step>) -> &'static str {
    let wrong: Vec<&str> = all
        .into_iter()
        .map(|step| step.0)
        .filter(|event| !allowed.iter().any(|step| step.0 == *event))
        .collect();
    random.pick(&wrong)
}

fn wrong_process_step(random: &mut Random, world: &World) -> EventText {
    let (entity, number, state) = any_instance(random, &world.processes);
    let all = all_process_steps(entity.type_word);
    let event = any_other_event(random, all, process_steps(entity.type_word, state));
    let core = &world.cores[random.below(world.cores.len())].name;
    EventText::new(world.time, (core, 0), (entity.type_word, event), (&entity.name, number))
}

fn wrong_runnable_step(random: &mut Random, world: &World) -> EventText {
    let (entity, number, state) = any_instance(random, &world.runnables);
    let event = any_other_event(random, all_runnable_steps(), runnable_steps(state));
    EventText::new(world.time, ("P", 0), ("R", event), (&entity.name, number))
}

fn wrong_semaphore_step(random: &mut Random, world: &World) -> EventText {
    let known: Vec<&Semaphore> = world.semaphores.iter().filter(|one| one.state.is_some()).collect();
    let semaphore = known[random.below(known.len())];
    let allowed = semaphore.state.map(semaphore_steps).unwrap_or_default();
    let event = any_other_event(random, all_semaphore_steps(), allowed);
    let count = semaphore.count.unwrap_or(0);
    let name = (semaphore.name.as_str(), 0);
    EventText::new(world.time, name, ("SEM", event), name).with_note(&count.to_string())
}

/// Aim 12: an instance number that isn't the next one of its series, or that
/// begins the series too low; also the number of one that has ended.
pub fn wrong_number(random: &mut Random) -> Vec<u8> {
    match random.below(100) {
        0..=44 => return old_instances::low_activation(random),
        45..=59 => return long_runs::absent_after_a_short_run(random, 12),
        _ => {}
    }
    let mut story = Story::some_events(random);
    let runnables = random.chance(35);
    let entities = |world: &World| if runnables { world.runnables.clone() } else { world.processes.clone() };
    story.until(random, |world| entities(world).iter().any(|entity| entity.last.is_some()));
    let world = &story.world;
    let counted: Vec<Entity> = entities(world).into_iter().filter(|entity| entity.last.is_some()).collect();
    let entity = &counted[random.below(counted.len())];
    let number = number_out_of_series(random, entity);
    let event = match entity.type_word {
        "R" => "start",
        "T" => random.pick(&["activate", "mtalimitexceeded"]),
        _ => "activate",
    };
    let source = world.any_name(random);
    let line = EventText::new(world.time, (&source, 0), (entity.type_word, event), (&entity.name, number));
    story.finish_with_damage(random, line.line())
}

/// A number that the chart allows, since no instance bears it or that instance
/// is TERMINATED, but that isn't the next one.
fn number_out_of_series(random: &mut Random, entity: &Entity) -> u32 {
    let last = entity.last.unwrap_or(0);
    loop {
        let drawn = random.next() as u32;
        let near = last.wrapping_add(*random.pick(&[&0, &1, &2, &3, &u32::MAX]));
        let number = *random.pick(&[&near, &near, &0, &u32::MAX, &drawn]);
        let chart_allows = matches!(entity.state_of(number), None | Some("TERMINATED"));
        if chart_allows && !entity.may_be_next(number) {
            return number;
        }
    }
}

/// Aim 13: a core that isn't as the event needs it.
pub fn wrong_core(random: &mut Random) -> Vec<u8> {
    let mut story = Story::some_events(random);
    story.until(random, |world| world.cores.iter().any(|core| core.holder.is_some()));
    let world = &story.world;
    let drawn = match random.below(4) {
        0 | 1 => new_instance_on_wrong_core(random, world),
        2 => known_instance_takes_held_core(random, world),
        _ => None,
    };
    let line = drawn.unwrap_or_else(|| known_instance_on_other_core(random, world));
    story.finish_with_damage(random, line.line())
}

fn held_core(random: &mut Random, world: &World) -> String {
    let held: Vec<&str> =
        world.cores.iter().filter(|core| core.holder.is_some()).map(|core| core.name.as_str()).collect();
    random.pick(&held).to_string()
}

/// A first event of an old instance on a held core, or one of the six on any
/// tracked core.
fn new_instance_on_wrong_core(random: &mut Random, world: &World) -> Option<EventText> {
    let entity = &world.processes[random.below(world.processes.len())];
    let number = entity.old_number(random)?;
    let event = random.pick(&["start", "resume", "poll_parking", "preempt", "wait", "park", "terminate", "poll", "run"]);
    let tracked: Vec<&str> =
        world.cores.iter().filter(|core| core.tracked).map(|core| core.name.as_str()).collect();
    let core = if takes_core(event) { held_core(random, world) } else { random.pick(&tracked).to_string() };
    Some(EventText::new(world.time, (&core, 0), (entity.type_word, event), (&entity.name, number)))
}

/// ACTIVE, READY or PARKING instances want a core that another one holds.
fn known_instance_takes_held_core(random: &mut Random, world: &World) -> Option<EventText> {
    let mut lines = Vec::new();
    for entity in &world.processes {
        for &(number, state) in &entity.instances {
            for (event, _) in process_steps(entity.type_word, state) {
                if takes_core(event) {
                    let core = held_core(random, world);
                    lines.push(EventText::new(world.time, (&core, 0), (entity.type_word, event), (&entity.name, number)));
                }
            }
        }
    }
    (!lines.is_empty()).then(|| lines[random.below(lines.len())].clone())
}

/// An instance that holds a core leaves or stays on another one, which may be
/// idle, held by another instance, or not tracked yet.
fn known_instance_on_other_core(random: &mut Random, world: &World) -> EventText {
    let held: Vec<usize> = (0..world.cores.len()).filter(|&core| world.cores[core].holder.is_some()).collect();
    let own = held[random.below(held.len())];
    let (process, number) = world.cores[own].holder.expect("it is held");
    let entity = &world.processes[process];
    let state = entity.state_of(number).expect("a holder has been seen");
    let steps: Vec<Step> =
        process_steps(entity.type_word, state).into_iter().filter(|step| needs_own_core(step.0)).collect();
    let event = steps[random.below(steps.len())].0;
    let other = random.below(world.cores.len());
    let core = if other == own { world.new_name(random) } else { world.cores[other].name.clone() };
    EventText::new(world.time, (&core, 0), (entity.type_word, event), (&entity.name, number))
}

/// Aim 14: a count that doesn't follow, or one that the event never bears.
pub fn wrong_count(random: &mut Random) -> Vec<u8> {
    let mut story = Story::some_events(random);
    if random.chance(70) {
        story.until(random, |world| world.semaphores.iter().any(|semaphore| semaphore.count.is_some()));
    }
    let line = loop {
        let semaphore = &story.world.semaphores[random.below(story.world.semaphores.len())];
        if let Some(line) = line_with_wrong_count(random, story.world.time, semaphore) {
            break line;
        }
    };
    story.finish_with_damage(random, line.line())
}

fn line_with_wrong_count(random: &mut Random, time: u64, semaphore: &Semaphore) -> Option<EventText> {
    let steps = allowed_steps(semaphore);
    let state_event = random.chance(60);
    let event = if state_event { steps[random.below(steps.len())].0 } else { random.pick(&REQUEST_EVENTS) };
    let near = semaphore.count.unwrap_or(0).wrapping_add(*random.pick(&[&0, &1, &2, &u32::MAX]));
    let count = if random.chance(75) { near } else { *random.pick(&COUNTS) };
    if count_is_right(event, semaphore.count, count) {
        return None;
    }
    let name = (semaphore.name.as_str(), 0);
    let source = if state_event { name } else { ("P", 3) };
    Some(EventText::new(time, source, ("SEM", event), name).with_note(&count.to_string()))
}
