//! Semaphores: asked for, used and given back.

use super::world::{State, World};

impl World {
    /// Gives back the semaphore that the process uses, or asks for one.
    pub fn use_semaphore(&mut self, core: usize, process: usize) {
        if let Some(semaphore) = self.processes[process].uses {
            return self.give_back(process, semaphore);
        }
        if self.semaphores.is_empty() {
            return;
        }
        let semaphore = self.random.index(self.semaphores.len());
        if self.semaphores[semaphore].waiter.is_none() {
            self.ask(core, process, semaphore);
        }
    }

    fn ask(&mut self, core: usize, process: usize, semaphore: usize) {
        self.request_event(process, semaphore, "requestsemaphore");
        self.semaphores[semaphore].count += 1;
        self.request_event(process, semaphore, "increment");
        self.request_event(process, semaphore, "queued");
        let (count, most) = (self.semaphores[semaphore].count, self.semaphores[semaphore].most);
        if count > most {
            self.semaphores[semaphore].waiter = Some(process);
            self.own_state(semaphore, "overfull");
            self.request_event(process, semaphore, "waiting");
            return self.core_event(core, process, "poll", State::Polling);
        }
        self.own_state(semaphore, taken_event(count, most));
        self.assign(process, semaphore);
    }

    fn give_back(&mut self, process: usize, semaphore: usize) {
        self.request_event(process, semaphore, "released");
        self.semaphores[semaphore].count -= 1;
        self.request_event(process, semaphore, "decrement");
        self.processes[process].uses = None;
        if let Some(waiter) = self.semaphores[semaphore].waiter.take() {
            self.own_state(semaphore, "full");
            self.assign(waiter, semaphore);
            self.go_on(waiter);
        } else {
            let (count, most) = (self.semaphores[semaphore].count, self.semaphores[semaphore].most);
            self.own_state(semaphore, given_back_event(count, most));
        }
    }

    fn assign(&mut self, process: usize, semaphore: usize) {
        self.request_event(process, semaphore, "assigned");
        self.processes[process].uses = Some(semaphore);
    }

    /// A process that waited for a semaphore has it: it runs if it is on a core,
    /// and is ready if it is parked.
    fn go_on(&mut self, process: usize) {
        let core = self.processes[process].core;
        if self.processes[process].state == State::Polling {
            self.core_event(core, process, "run", State::Running);
        } else {
            self.core_event(core, process, "release_parking", State::Ready);
        }
    }

    /// A line of a semaphore whose source is a process.
    fn request_event(&mut self, process: usize, semaphore: usize, event: &str) {
        let (source, target) = (&self.processes[process], &self.semaphores[semaphore]);
        let count = format_args!("{}", target.count);
        self.lines.event_with_note((&source.name, source.instance), "SEM", (&target.name, 0), event, count);
    }

    /// A line of a semaphore's own state.
    fn own_state(&mut self, semaphore: usize, event: &str) {
        let semaphore = &self.semaphores[semaphore];
        let itself = (semaphore.name.as_str(), 0);
        self.lines.event_with_note(itself, "SEM", itself, event, format_args!("{}", semaphore.count));
    }
}

/// How a semaphore changes that has one user more.
fn taken_event(count: u64, most: u64) -> &'static str {
    match count {
        1 if most == 1 => "lock",
        count if count == most => "lock_used",
        _ => "used",
    }
}

/// How a semaphore changes that has one user less, and nobody waiting.
fn given_back_event(count: u64, most: u64) -> &'static str {
    match (count, count + 1 == most) {
        (0, true) => "unlock",
        (0, false) => "free",
        (_, true) => "unlock_full",
        (_, false) => "used",
    }
}
