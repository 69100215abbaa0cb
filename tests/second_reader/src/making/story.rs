//! A valid beginning, a place for damage, and a going on after it.

use super::draft::{Draft, EventText};
use super::prelude::{comment, valid_prelude};
use super::random::Random;
use super::world::World;

pub struct Story {
    pub draft: Draft,
    pub world: World,
}

impl Story {
    /// A valid prelude, and a system of which nothing has been told.
    pub fn begin(random: &mut Random) -> Story {
        Story { draft: Draft { lines: valid_prelude(random) }, world: World::new(random) }
    }

    /// A valid prelude and some events.
    pub fn some_events(random: &mut Random) -> Story {
        let mut story = Story::begin(random);
        let most = *random.pick(&[&3, &10, &30]);
        story.go_on(random, most);
        story
    }

    /// Up to `most` further valid lines.
    pub fn go_on(&mut self, random: &mut Random, most: u64) {
        for _ in 0..random.between(0, most) {
            if random.chance(5) {
                self.add(comment(random));
            }
            let event = self.world.next_event(random);
            self.add_event(&event);
        }
    }

    pub fn add(&mut self, line: Vec<u8>) {
        self.draft.lines.push(line);
    }

    pub fn add_event(&mut self, event: &EventText) {
        self.add(event.line());
    }

    /// A line that could come next, without its coming.
    pub fn possible_event(&self, random: &mut Random) -> EventText {
        self.world.clone().next_event(random)
    }

    /// Tells lines until the condition holds; each try is a valid line.
    pub fn until(&mut self, random: &mut Random, holds: impl Fn(&World) -> bool) {
        while !holds(&self.world) {
            let told = match random.below(4) {
                0 => self.world.activate(random),
                1 => self.world.start(random),
                2 => self.world.runnable_event(random),
                _ => self.world.semaphore_event(random),
            };
            if let Some(event) = told {
                self.add_event(&event);
            }
        }
    }

    pub fn finish(&self, random: &mut Random) -> Vec<u8> {
        self.draft.finish(random)
    }

    /// Adds the damaged line and perhaps valid ones after it, which must not
    /// change the answer any more.
    pub fn finish_with_damage(mut self, random: &mut Random, line: Vec<u8>) -> Vec<u8> {
        self.add(line);
        if random.chance(50) {
            self.go_on(random, 5);
        }
        self.finish(random)
    }
}
