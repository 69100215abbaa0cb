//! The events of runnables that a world may tell.

use super::draft::EventText;
use super::entity::Entity;
use super::random::Random;
use super::steps::{all_runnable_steps, runnable_steps, Step};
use super::world::{any_number, World};

impl World {
    pub fn runnable_event(&mut self, random: &mut Random) -> Option<EventText> {
        let runnable = random.below(self.runnables.len());
        let entity = &self.runnables[runnable];
        let choices = if random.chance(65) {
            next_choices(entity)
        } else {
            let number = entity.unused_number(random)?;
            first_choices(entity, number)
        };
        if choices.is_empty() {
            return None;
        }
        let (number, step) = choices[random.below(choices.len())];
        Some(self.tell_runnable_event(random, runnable, number, step))
    }

    pub fn tell_runnable_event(
        &mut self,
        random: &mut Random,
        runnable: usize,
        number: u32,
        (event, state): Step,
    ) -> EventText {
        let entity = &mut self.runnables[runnable];
        entity.set_state(number, state);
        if event == "start" {
            entity.count_up(number);
        }
        let target = entity.name.clone();
        let source = self.any_name(random);
        self.track(&target, "R");
        EventText::new(self.time, (&source, any_number(random)), ("R", event), (&target, number))
    }
}

pub fn next_choices(entity: &Entity) -> Vec<(u32, Step)> {
    let mut choices = Vec::new();
    for &(number, state) in &entity.instances {
        let steps = runnable_steps(state).into_iter();
        let free = steps.filter(|step| step.0 != "start" || entity.may_be_next(number));
        choices.extend(free.map(|step| (number, step)));
    }
    choices
}

pub fn first_choices(entity: &Entity, number: u32) -> Vec<(u32, Step)> {
    all_runnable_steps()
        .into_iter()
        .filter(|step| entity.may_be_new(number, step.0 == "start"))
        .map(|step| (number, step))
        .collect()
}
