//! Instances that are older than the first activation of their process or
//! runnable, and instances that can't be, as document 02, No. 5, tells it: "A
//! trace activated instance 4 of a task and then resumed instance 9. 9 can't be
//! an old one."

use super::draft::EventText;
use super::entity::{new_entity, Entity};
use super::random::Random;
use super::steps::{all_process_steps, all_runnable_steps, counts_up, Step};
use super::story::Story;
use super::world::new_core;
use super::world_runnables::{first_choices, next_choices};
use super::Made;

/// A process or runnable of which nothing has been told when it comes.
struct Newcomer {
    story: Story,
    is_runnable: bool,
    /// Its place among the processes or the runnables of the world.
    place: usize,
}

pub fn make(random: &mut Random) -> Made {
    match random.below(10) {
        0..=2 => Made::aimed(11, never_activated(random)),
        3..=5 => Made::aimed(12, low_activation(random)),
        6 => activation_of_one_seen(random),
        _ => Made::aimed(0, old_and_new(random)),
    }
}

/// Aim 11: an event of an instance that was never activated.
pub fn never_activated(random: &mut Random) -> Vec<u8> {
    let mut newcomer = Newcomer::with_activation(random);
    newcomer.story.go_on(random, 6);
    let line = newcomer.impossible_event(random);
    newcomer.story.finish_with_damage(random, line.line())
}

/// Aim 12: a first activation that isn't above all seen.
pub fn low_activation(random: &mut Random) -> Vec<u8> {
    let mut newcomer = Newcomer::with_old_ones(random, 1);
    if random.chance(20) {
        newcomer.see(random, u32::MAX - 1);
    }
    let number = newcomer.low_number(random);
    let line = newcomer.activation(random, number);
    newcomer.story.finish_with_damage(random, line.line())
}

/// A first activation of an instance that was seen: the chart forbids it while
/// the instance lives, its number forbids it ever after.
fn activation_of_one_seen(random: &mut Random) -> Made {
    let newcomer = Newcomer::with_old_ones(random, 1);
    let instances = &newcomer.entity().instances;
    let (number, state) = instances[random.below(instances.len())];
    let line = newcomer.activation(random, number);
    let aim = if state == "TERMINATED" { 12 } else { 11 };
    Made::aimed(aim, newcomer.story.finish_with_damage(random, line.line()))
}

/// Old instances before and after the first activation, and a going on.
fn old_and_new(random: &mut Random) -> Vec<u8> {
    let mut newcomer = Newcomer::with_activation(random);
    newcomer.story.go_on(random, 20);
    newcomer.see_older(random);
    newcomer.story.finish(random)
}

impl Newcomer {
    /// Joins a story, with a core that is free at first.
    fn join(random: &mut Random) -> Newcomer {
        let mut story = Story::some_events(random);
        let is_runnable = random.chance(35);
        let type_word = if is_runnable { "R" } else { random.pick(&["T", "T", "I"]) };
        let world = &mut story.world;
        let entity = new_entity(world.new_name(random), type_word);
        let entities = if is_runnable { &mut world.runnables } else { &mut world.processes };
        let place = entities.len();
        entities.push(entity);
        world.cores.push(new_core(world.new_name(random)));
        Newcomer { story, is_runnable, place }
    }

    /// At least so many old instances and at most two, of numbers that leave
    /// room between them, below and above.
    fn with_old_ones(random: &mut Random, least: u64) -> Newcomer {
        let mut newcomer = Newcomer::join(random);
        for _ in 0..random.between(least, 2) {
            let drawn = 2 + random.below(1000) as u32;
            let number = *random.pick(&[&2, &3, &9, &drawn]);
            newcomer.see(random, number);
        }
        newcomer
    }

    /// The first activation, close above the old instances, and older ones.
    fn with_activation(random: &mut Random) -> Newcomer {
        let mut newcomer = Newcomer::with_old_ones(random, 0);
        let next = newcomer.entity().highest_seen().map_or(0, |highest| highest + 1);
        let number = *random.pick(&[&next, &(next + 1), &(next + 4)]);
        newcomer.tell(random, number, true);
        newcomer.see_older(random);
        newcomer
    }

    fn entity(&self) -> &Entity {
        let world = &self.story.world;
        if self.is_runnable {
            &world.runnables[self.place]
        } else {
            &world.processes[self.place]
        }
    }

    /// An instance just below the first activation or further down, if it was
    /// never seen.
    fn see_older(&mut self, random: &mut Random) {
        let first = self.entity().first.unwrap_or(0);
        let below = first.saturating_sub(1);
        let number = *random.pick(&[&below, &below, &below.saturating_sub(1), &(first / 2), &0]);
        self.see(random, number);
    }

    /// An old instance, and perhaps what becomes of it up to its end.
    fn see(&mut self, random: &mut Random, number: u32) {
        if self.entity().state_of(number).is_some() {
            return;
        }
        self.tell(random, number, false);
        for _ in 0..random.below(8) {
            if self.entity().state_of(number) == Some("TERMINATED") {
                return;
            }
            self.tell(random, number, false);
        }
    }

    /// One event that the instance may have now, if there is one.
    fn tell(&mut self, random: &mut Random, number: u32, activation: bool) {
        self.story.world.let_time_pass(random);
        let told = if self.is_runnable {
            self.tell_of_runnable(random, number, activation)
        } else {
            self.tell_of_process(random, number, activation)
        };
        if let Some(event) = told {
            self.story.add_event(&event);
        }
    }

    fn tell_of_process(&mut self, random: &mut Random, number: u32, activation: bool) -> Option<EventText> {
        let is_seen = self.entity().state_of(number).is_some();
        let world = &mut self.story.world;
        let mut choices =
            if is_seen { world.next_choices(self.place) } else { world.first_choices(self.place, number) };
        choices.retain(|choice| choice.number == number && counts_up(choice.step.0) == activation);
        if choices.is_empty() {
            return None;
        }
        let choice = choices[random.below(choices.len())].clone();
        Some(world.tell_process_event(random, &choice))
    }

    fn tell_of_runnable(&mut self, random: &mut Random, number: u32, activation: bool) -> Option<EventText> {
        let entity = self.entity();
        let is_seen = entity.state_of(number).is_some();
        let mut choices = if is_seen { next_choices(entity) } else { first_choices(entity, number) };
        choices.retain(|(chosen, step)| *chosen == number && (step.0 == "start") == activation);
        if choices.is_empty() {
            return None;
        }
        let (_, step) = choices[random.below(choices.len())];
        Some(self.story.world.tell_runnable_event(random, self.place, number, step))
    }

    /// An event that doesn't activate, of an instance above the last activated
    /// one: just above it or far. Its core may be held.
    fn impossible_event(&self, random: &mut Random) -> EventText {
        let next = self.entity().last.map_or(0, |last| last + 1);
        let number = *random.pick(&[&next, &next, &(next + 1), &u32::MAX]);
        let event = self.any_event(random, false);
        let cores = &self.story.world.cores;
        let core = cores[random.below(cores.len())].name.clone();
        self.line(&core, event, number)
    }

    /// A number that the chart allows, since no instance bears it or that
    /// instance is TERMINATED, but that isn't above all seen: often on the edge.
    fn low_number(&self, random: &mut Random) -> u32 {
        let entity = self.entity();
        let highest = entity.highest_seen().unwrap_or(0);
        loop {
            let (seen, _) = entity.instances[random.below(entity.instances.len())];
            let number = *random.pick(&[&highest, &(highest - 1), &seen, &(seen - 1), &0]);
            if matches!(entity.state_of(number), None | Some("TERMINATED")) {
                return number;
            }
        }
    }

    fn activation(&self, random: &mut Random, number: u32) -> EventText {
        let source = self.story.world.any_name(random);
        let event = self.any_event(random, true);
        self.line(&source, event, number)
    }

    /// Any event that activates, or any that doesn't.
    fn any_event(&self, random: &mut Random, activation: bool) -> &'static str {
        let activates = |step: &Step| if self.is_runnable { step.0 == "start" } else { counts_up(step.0) };
        let all = if self.is_runnable { all_runnable_steps() } else { all_process_steps(self.entity().type_word) };
        let steps: Vec<Step> = all.into_iter().filter(|step| activates(step) == activation).collect();
        steps[random.below(steps.len())].0
    }

    fn line(&self, source: &str, event: &str, number: u32) -> EventText {
        let entity = self.entity();
        EventText::new(self.story.world.time, (source, 0), (entity.type_word, event), (&entity.name, number))
    }
}
