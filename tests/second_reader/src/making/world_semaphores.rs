//! The events of semaphores that a world may tell.

use super::draft::EventText;
use super::random::Random;
use super::steps::{all_semaphore_steps, count_is_right, semaphore_steps, Step, REQUEST_EVENTS};
use super::world::{any_number, Semaphore, World};

impl World {
    pub fn semaphore_event(&mut self, random: &mut Random) -> Option<EventText> {
        let place = random.below(self.semaphores.len());
        let semaphore = &self.semaphores[place];
        if random.chance(55) {
            let event = random.pick(&REQUEST_EVENTS);
            let count = right_count(random, event, semaphore.count)?;
            return Some(self.tell_request(random, place, event, count));
        }
        let steps = allowed_steps(semaphore);
        let step = steps[random.below(steps.len())];
        let count = right_count(random, step.0, semaphore.count)?;
        Some(self.tell_state(place, step, count))
    }

    fn tell_request(&mut self, random: &mut Random, place: usize, event: &str, count: u32) -> EventText {
        let source = self.any_name(random);
        let number = any_number(random);
        self.semaphores[place].count = Some(count);
        let target = self.semaphores[place].name.clone();
        self.track(&target, "SEM");
        EventText::new(self.time, (&source, number), ("SEM", event), (&target, 0))
            .with_note(&count.to_string())
    }

    fn tell_state(&mut self, place: usize, (event, state): Step, count: u32) -> EventText {
        let semaphore = &mut self.semaphores[place];
        semaphore.count = Some(count);
        semaphore.state = Some(state);
        let name = semaphore.name.clone();
        self.track(&name, "SEM");
        EventText::new(self.time, (&name, 0), ("SEM", event), (&name, 0)).with_note(&count.to_string())
    }
}

/// The state events that the chart allows; all of them before the first.
pub fn allowed_steps(semaphore: &Semaphore) -> Vec<Step> {
    semaphore.state.map_or_else(all_semaphore_steps, semaphore_steps)
}

pub const COUNTS: [&u32; 7] = [&0, &1, &1, &2, &3, &(u32::MAX - 1), &u32::MAX];

/// A count that the event may bear here, if the draw finds one.
fn right_count(random: &mut Random, event: &str, last: Option<u32>) -> Option<u32> {
    let drawn = match (event, last) {
        ("increment", Some(last)) => last.wrapping_add(1),
        ("decrement", Some(last)) => last.wrapping_sub(1),
        (_, Some(last)) => last,
        (_, None) => *random.pick(&COUNTS),
    };
    count_is_right(event, last, drawn).then_some(drawn)
}
