//! A small system with cores, processes, runnables and semaphores, which knows
//! its states and so tells valid event lines.

use super::draft::EventText;
use super::entity::{new_entity, Entity};
use super::names::fresh_name;
use super::random::Random;

pub const LATEST: u64 = (1 << 56) - 1;

#[derive(Clone)]
pub struct Core {
    pub name: String,
    pub tracked: bool,
    /// Place of the process, and the number of the instance.
    pub holder: Option<(usize, u32)>,
}

#[derive(Clone)]
pub struct Semaphore {
    pub name: String,
    pub state: Option<&'static str>,
    pub count: Option<u32>,
}

#[derive(Clone)]
pub struct World {
    pub time: u64,
    pub cores: Vec<Core>,
    pub processes: Vec<Entity>,
    pub runnables: Vec<Entity>,
    pub semaphores: Vec<Semaphore>,
    /// Stimuli, schedulers, signals and OS events, which nobody tracks.
    pub strangers: Vec<String>,
    /// The tracked names and their kinds: core, T, I, R or SEM.
    pub tracked: Vec<(String, &'static str)>,
}

impl World {
    /// A system of up to 4 cores and a few entities of each kind.
    pub fn new(random: &mut Random) -> World {
        let mut used = Vec::new();
        let mut name = |random: &mut Random| {
            let name = fresh_name(random, &used);
            used.push(name.clone());
            name
        };
        let cores = (0..random.between(1, 4)).map(|_| new_core(name(random))).collect();
        let processes = (0..random.between(1, 4))
            .map(|_| new_entity(name(random), if random.chance(70) { "T" } else { "I" }))
            .collect();
        let runnables = (0..random.between(1, 3)).map(|_| new_entity(name(random), "R")).collect();
        let semaphores = (0..random.between(1, 3)).map(|_| new_semaphore(name(random))).collect();
        let strangers = (0..3).map(|_| name(random)).collect();
        let time = *random.pick(&[&0, &0, &100, &6_150_000, &(1 << 40), &(LATEST - 5000)]);
        World { time, cores, processes, runnables, semaphores, strangers, tracked: Vec::new() }
    }

    /// One more valid line; the system has moved on by it.
    pub fn next_event(&mut self, random: &mut Random) -> EventText {
        self.let_time_pass(random);
        loop {
            let told = match random.below(20) {
                0..=9 => self.process_event(random),
                10..=12 => self.runnable_event(random),
                13..=16 => self.semaphore_event(random),
                _ => Some(self.plain_event(random)),
            };
            if let Some(event) = told {
                return event;
            }
        }
    }

    pub fn let_time_pass(&mut self, random: &mut Random) {
        let most = *random.pick(&[&0, &0, &1, &100, &100, &100, &1_000_000, &(1 << 40), &(1 << 50)]);
        let step = random.between(0, most);
        self.time = (self.time + step).min(LATEST);
    }

    /// Notes that the line tracks a name, if it is new.
    pub fn track(&mut self, name: &str, kind: &'static str) {
        if !self.tracked.iter().any(|(known, _)| known == name) {
            self.tracked.push((name.to_string(), kind));
        }
    }

    /// Any name at all: sources are free where they are no cores.
    pub fn any_name(&self, random: &mut Random) -> String {
        if !self.tracked.is_empty() && random.chance(40) {
            return self.tracked[random.below(self.tracked.len())].0.clone();
        }
        self.strangers[random.below(self.strangers.len())].clone()
    }

    /// A name that this system doesn't know.
    pub fn new_name(&self, random: &mut Random) -> String {
        fresh_name(random, &self.all_names())
    }

    fn all_names(&self) -> Vec<String> {
        let cores = self.cores.iter().map(|core| &core.name);
        let entities = self.processes.iter().chain(&self.runnables).map(|entity| &entity.name);
        let semaphores = self.semaphores.iter().map(|semaphore| &semaphore.name);
        cores.chain(entities).chain(semaphores).chain(&self.strangers).cloned().collect()
    }

    /// A line that only moves the time: STI, SCHED, EVENT or SIG.
    pub fn plain_event(&self, random: &mut Random) -> EventText {
        let (source, target) = (self.any_name(random), self.any_name(random));
        let number = any_number(random);
        let from = (source.as_str(), number);
        let to = (target.as_str(), 0);
        match random.below(8) {
            0 => EventText::new(self.time, from, ("STI", "trigger"), (&target, any_number(random))),
            1 => EventText::new(self.time, to, ("SCHED", "schedule"), to),
            2 => EventText::new(self.time, from, ("SCHED", "schedulepoint"), to),
            3 => EventText::new(self.time, from, ("EVENT", "clear_event"), to),
            4 => EventText::new(self.time, from, ("EVENT", "wait_event"), to),
            5 => EventText::new(self.time, from, ("EVENT", "set_event"), to)
                .with_note(&self.any_name(random)),
            _ => self.signal_event(random, from, to),
        }
    }

    fn signal_event(&self, random: &mut Random, from: (&str, u32), to: (&str, u32)) -> EventText {
        let event = random.pick(&["read", "write"]);
        let line = EventText::new(self.time, from, ("SIG", event), to);
        let digits = "9".repeat(64);
        match random.pick(&["", "", "0", "-0", "007", "12.3", "-12.50", "00.00", "4294967296", &digits]) {
            "" => line,
            note => line.with_note(note),
        }
    }
}

pub fn any_number(random: &mut Random) -> u32 {
    let drawn = random.next() as u32;
    *random.pick(&[&0, &0, &1, &2, &17, &drawn, &u32::MAX])
}

pub fn new_core(name: String) -> Core {
    Core { name, tracked: false, holder: None }
}

pub fn new_semaphore(name: String) -> Semaphore {
    Semaphore { name, state: None, count: None }
}
