//! A queue at a semaphore, as document 02, No. 1, tells it: processes ask for it
//! and wait, and users leave while others still wait. It can be used by one
//! process at a time, so that all but one of its count wait.

use super::draft::EventText;
use super::random::Random;
use super::story::Story;
use super::Made;

struct Queue {
    story: Story,
    name: String,
    count: u32,
}

/// Two waiters, a user that leaves while one still waits, and a going on; now
/// and then a line that the semaphore can't have while processes wait.
pub fn make(random: &mut Random) -> Made {
    let story = Story::some_events(random);
    let name = story.world.new_name(random);
    let mut queue = Queue { story, name, count: 0 };
    for _ in 0..3 {
        queue.ask(random);
    }
    queue.leave(random);
    for _ in 0..random.between(0, 6) {
        if queue.count < 2 || random.chance(50) {
            queue.ask(random);
        } else {
            queue.leave(random);
        }
    }
    match random.below(10) {
        0 => queue.end_with_wrong_step(random),
        1 => queue.end_with_wrong_count(random),
        _ => Made::aimed(0, queue.story.finish(random)),
    }
}

impl Queue {
    fn ask(&mut self, random: &mut Random) {
        self.request(random, "requestsemaphore");
        self.count += 1;
        self.request(random, "increment");
        self.request(random, "queued");
        let (event, then) = if self.count == 1 { ("lock", "assigned") } else { ("overfull", "waiting") };
        self.own_state(event);
        self.request(random, then);
    }

    fn leave(&mut self, random: &mut Random) {
        self.request(random, "released");
        self.count -= 1;
        self.request(random, "decrement");
        self.own_state(match self.count {
            0 => "unlock",
            1 => "full",
            _ => "overfull",
        });
    }

    /// A line whose source is a process, and perhaps others before it.
    fn request(&mut self, random: &mut Random, event: &str) {
        self.story.go_on(random, 1);
        let source = self.story.world.any_name(random);
        let line = self.line((&source, 1), event, self.count);
        self.story.add_event(&line);
    }

    fn own_state(&mut self, event: &str) {
        let line = self.line((&self.name, 0), event, self.count);
        self.story.add_event(&line);
    }

    fn line(&self, source: (&str, u32), event: &str, count: u32) -> EventText {
        EventText::new(self.story.world.time, source, ("SEM", event), (&self.name, 0)).with_note(&count.to_string())
    }

    /// At least one process waits, so that the semaphore is OVERFULL.
    fn let_one_wait(&mut self, random: &mut Random) {
        while self.count < 2 {
            self.ask(random);
        }
    }

    fn end_with_wrong_step(mut self, random: &mut Random) -> Made {
        self.let_one_wait(random);
        let event = *random.pick(&[&"free", &"unlock", &"lock", &"lock_used", &"unlock_full", &"used"]);
        let line = self.line((&self.name, 0), event, self.count).line();
        Made::aimed(11, self.story.finish_with_damage(random, line))
    }

    fn end_with_wrong_count(mut self, random: &mut Random) -> Made {
        self.let_one_wait(random);
        let count = *random.pick(&[&0, &1, &(self.count + 1), &(self.count - 1)]);
        let line = self.line((&self.name, 0), "overfull", count).line();
        Made::aimed(14, self.story.finish_with_damage(random, line))
    }
}
