//! A trace that is being filled with names, cores and instances.

use super::draft::{Draft, EventText};
use super::names::name_of_length;
use super::prelude::valid_prelude;
use super::random::Random;

pub const NAMES: usize = 256;
pub const CORES: usize = 64;
pub const INSTANCES: usize = 1_024;

/// The number that processes are activated with.
pub const ACTIVATED: u32 = 1_000;

pub const CORE_EVENTS: [&str; 9] =
    ["start", "resume", "poll_parking", "preempt", "wait", "park", "terminate", "poll", "run"];

pub struct Filling {
    pub draft: Draft,
    pub time: u64,
    /// How many names, cores and instances are tracked so far.
    pub names: usize,
    pub cores: usize,
    pub instances: usize,
    /// Whether every name has 64 bytes.
    pub long_names: bool,
    /// Names given out, which keeps them different from one another.
    given: usize,
    /// Names and types of tasks and interrupt routines.
    processes: Vec<(String, &'static str)>,
    /// Names of cores, and of semaphores and runnables.
    core_names: Vec<String>,
    other_names: Vec<String>,
    /// Lines that may still come once, and that add nothing.
    follow_ups: Vec<EventText>,
}

impl Filling {
    pub fn begin(random: &mut Random) -> Filling {
        Filling {
            draft: Draft { lines: valid_prelude(random) },
            time: random.between(0, 1000),
            names: 0,
            cores: 0,
            instances: 0,
            long_names: random.chance(25),
            given: 0,
            processes: Vec::new(),
            core_names: Vec::new(),
            other_names: Vec::new(),
            follow_ups: Vec::new(),
        }
    }

    pub fn add(&mut self, event: &EventText) {
        self.draft.lines.push(event.line());
    }

    /// Adds a line that was made earlier, at the time that it is now.
    pub fn add_now(&mut self, mut event: EventText) {
        event.set(1, self.time.to_string().as_bytes());
        self.add(&event);
    }

    pub fn new_name(&mut self, random: &mut Random) -> String {
        let start = format!("{}{}.", random.pick(&["n", "N", "_"]), self.given);
        self.given += 1;
        let filler = if self.long_names { 64 - start.len() } else { 0 };
        start + &name_of_length(random, filler)
    }

    pub fn any_process(&self, random: &mut Random) -> Option<(String, &'static str)> {
        any_of(random, &self.processes)
    }

    pub fn any_core(&self, random: &mut Random) -> Option<String> {
        any_of(random, &self.core_names)
    }

    /// A tracked semaphore or runnable.
    pub fn any_other(&self, random: &mut Random) -> Option<String> {
        any_of(random, &self.other_names)
    }

    pub fn follow_up(&mut self, random: &mut Random) -> Option<EventText> {
        if self.follow_ups.is_empty() {
            return None;
        }
        let place = random.below(self.follow_ups.len());
        Some(self.follow_ups.swap_remove(place))
    }

    fn pass_time(&mut self, random: &mut Random) {
        self.time += random.between(0, 3);
    }

    /// A name and nothing else.
    pub fn add_semaphore(&mut self, random: &mut Random) {
        let name = self.new_name(random);
        self.names += 1;
        self.pass_time(random);
        let line = EventText::new(self.time, ("P", 0), ("SEM", "queued"), (&name, 0)).with_note("1");
        self.add(&line);
        self.follow_ups.push(line);
        self.other_names.push(name);
    }

    /// A name with one instance: a process or a runnable.
    pub fn add_entity(&mut self, random: &mut Random) {
        if random.chance(60) {
            return self.add_process(random);
        }
        let name = self.new_name(random);
        self.names += 1;
        self.instances += 1;
        self.pass_time(random);
        self.add(&EventText::new(self.time, ("P", 0), ("R", "start"), (&name, 5)));
        self.follow_ups.push(EventText::new(0, ("P", 0), ("R", "suspend"), (&name, 5)));
        self.other_names.push(name);
    }

    pub fn add_process(&mut self, random: &mut Random) {
        let name = self.new_name(random);
        let type_word = random.pick(&["T", "I"]);
        self.names += 1;
        self.instances += 1;
        self.pass_time(random);
        // The activated one is newer than those that get a core of their own.
        let (event, number) = *random.pick(&[&("activate", ACTIVATED), &("release", 0), &("release_parking", 0)]);
        self.add(&EventText::new(self.time, ("S", 0), (type_word, event), (&name, number)));
        self.processes.push((name, type_word));
    }

    /// Two names and an instance.
    pub fn add_core_and_process(&mut self, random: &mut Random) {
        let process = self.new_name(random);
        let type_word = random.pick(&["T", "I"]);
        self.names += 1;
        self.add_core(random, &process, type_word, 0);
        self.processes.push((process, type_word));
    }

    /// A name and an instance: a core for a further instance of a process.
    pub fn add_core_of_known_process(&mut self, random: &mut Random) {
        let (process, type_word) = self.any_process(random).expect("there is a process");
        let number = 100 + self.cores as u32;
        self.add_core(random, &process, type_word, number);
    }

    fn add_core(&mut self, random: &mut Random, process: &str, type_word: &str, number: u32) {
        let core = self.new_name(random);
        self.names += 1;
        self.cores += 1;
        self.instances += 1;
        self.pass_time(random);
        let event = random.pick(&CORE_EVENTS);
        self.add(&EventText::new(self.time, (&core, 0), (type_word, event), (process, number)));
        self.core_names.push(core);
    }

    /// A name with up to `most` instances, numbered on, as far as they fit. All
    /// of them live.
    pub fn add_series(&mut self, random: &mut Random, most: usize) {
        let name = self.new_name(random);
        self.names += 1;
        let what = *random.pick(&[&("R", "start"), &("T", "activate"), &("I", "activate")]);
        let first = *random.pick(&[&1000u32, &4_294_966_272]);
        for number in first..=first + 1023 {
            if self.instances == INSTANCES || (number - first) as usize == most {
                break;
            }
            self.instances += 1;
            self.pass_time(random);
            self.add(&EventText::new(self.time, ("S", 0), what, (&name, number)));
            if what.0 == "R" {
                // Not its end, which would give its room back.
                self.follow_ups.push(EventText::new(0, ("P", 0), ("R", "suspend"), (&name, number)));
            }
        }
    }
}

fn any_of<T: Clone>(random: &mut Random, items: &[T]) -> Option<T> {
    if items.is_empty() {
        return None;
    }
    Some(items[random.below(items.len())].clone())
}
