//! Processes come to cores and leave them, and their runnables with them.

use super::world::{State, World};

/// Nanoseconds between two steps, at most.
const STEP: u64 = 8000;

/// Steps for each stimulus, about: processes are activated nearly as often as
/// they can be carried out, so that cores seldom idle and few processes wait.
const STIMULI: u64 = 8;

impl World {
    /// One thing that happens, on a core chosen by chance.
    pub fn step(&mut self) {
        self.pass(STEP);
        if self.random.once_in(STIMULI) {
            self.stimulate();
        }
        let core = self.random.index(self.cores.len());
        match self.cores[core].holder {
            None => self.dispatch(core),
            Some(process) if self.processes[process].state == State::Polling => self.poll_on(core, process),
            Some(process) => self.run_on(core, process),
        }
    }

    /// Gives an idle core to a process that is ready, if there is one.
    pub fn dispatch(&mut self, core: usize) {
        let Some(process) = self.random.draw(&mut self.ready) else {
            return;
        };
        if self.random.once_in(2) {
            self.schedule(core);
        }
        self.pass(200);
        self.enter(core, process);
    }

    fn enter(&mut self, core: usize, process: usize) {
        match self.processes[process].state {
            State::Active => self.start(core, process),
            State::Parking => self.core_event(core, process, "poll_parking", State::Polling),
            _ => self.core_event(core, process, "resume", State::Running),
        }
        self.cores[core].holder = Some(process);
        self.processes[process].core = core;
        for place in 0..self.processes[process].living.len() {
            self.runnable_event(process, self.processes[process].living[place], "resume");
        }
    }

    fn start(&mut self, core: usize, process: usize) {
        let target = &self.processes[process];
        if target.of == "I" && self.random.once_in(3) {
            let scheduler = (self.cores[core].scheduler.as_str(), 0);
            self.lines.event(scheduler, "I", (&target.name, target.instance), "interrupt_suspended");
            self.pass(300);
        }
        self.core_event(core, process, "start", State::Running);
    }

    /// Takes a process from its core; its runnables are suspended first, the
    /// innermost one before all.
    pub fn leave(&mut self, core: usize, process: usize, event: &str, state: State) {
        for place in (0..self.processes[process].living.len()).rev() {
            self.runnable_event(process, self.processes[process].living[place], "suspend");
        }
        self.core_event(core, process, event, state);
        self.cores[core].holder = None;
        if state == State::Waiting {
            self.waiting.push(process);
        } else {
            self.ready.push(process);
        }
    }

    /// Another process comes to the core, and this one has to be ready again.
    pub fn preempt(&mut self, core: usize, process: usize) {
        self.leave(core, process, "preempt", State::Ready);
        self.dispatch(core);
    }

    /// Ends an instance; its runnables end first.
    pub fn terminate(&mut self, core: usize, process: usize) {
        while let Some(runnable) = self.processes[process].living.pop() {
            self.runnable_event(process, runnable, "terminate");
        }
        self.core_event(core, process, "terminate", State::Terminated);
        self.cores[core].holder = None;
        self.dormant.push(process);
        self.dispatch(core);
    }

    /// The event that a process waited for is set.
    pub fn release(&mut self, process: usize) {
        let core = self.processes[process].core;
        self.core_event(core, process, "release", State::Ready);
        self.ready.push(process);
    }

    /// A process that polls is parked now and then, so that others get on.
    fn poll_on(&mut self, core: usize, process: usize) {
        if self.random.once_in(6) {
            self.leave(core, process, "park", State::Parking);
            self.dispatch(core);
        }
    }
}
