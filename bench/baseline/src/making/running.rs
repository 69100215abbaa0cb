//! What a process does while it runs. Interrupt routines reach no schedule
//! points and own no events.

use super::world::{State, World};

impl World {
    /// One thing that a running process does. It calls runnables most often while
    /// it has any left, and ends soon when it has none.
    pub fn run_on(&mut self, core: usize, process: usize) {
        if self.has_calls_left(process) && !self.random.once_in(4) {
            return self.call_next(process);
        }
        if self.processes[process].uses.is_some() && self.random.once_in(4) {
            return self.use_semaphore(core, process);
        }
        let is_task = self.processes[process].of == "T";
        match self.random.below(100) {
            0..=29 => self.use_signal(process),
            30..=43 => self.preempt(core, process),
            44..=47 if is_task => self.reach_schedule_point(core, process),
            48..=54 if is_task => self.wait(core, process),
            55..=60 => self.wake_another(process),
            61..=70 => self.use_semaphore(core, process),
            _ => self.end(core, process),
        }
    }

    fn has_calls_left(&self, process: usize) -> bool {
        self.processes[process].called < self.processes[process].runnables.len()
    }

    /// Calls the next runnable of the process, which now and then is called by the
    /// one before; else that one ends first.
    fn call_next(&mut self, process: usize) {
        if self.processes[process].living.len() == self.depth || !self.random.once_in(3) {
            if let Some(innermost) = self.processes[process].living.pop() {
                self.runnable_event(process, innermost, "terminate");
            }
        }
        let caller = &mut self.processes[process];
        let runnable = caller.runnables[caller.called];
        caller.called += 1;
        caller.living.push(runnable);
        self.runnables[runnable].starts += 1;
        self.runnable_event(process, runnable, "start");
    }

    fn use_signal(&mut self, process: usize) {
        let signal = self.random.index(self.signals.len());
        let event = if self.random.once_in(3) { "write" } else { "read" };
        let (form, value, decimals) = (self.random.below(8), self.random.below(5000), self.random.below(100));
        let process = &self.processes[process];
        let source = (process.name.as_str(), process.instance);
        let target = (self.signals[signal].as_str(), 0);
        match form {
            0 => self.lines.event(source, "SIG", target, event),
            1..=3 => self.lines.event_with_note(source, "SIG", target, event, format_args!("{value}")),
            4 => self.lines.event_with_note(source, "SIG", target, event, format_args!("-{value}")),
            _ => self.lines.event_with_note(source, "SIG", target, event, format_args!("{value}.{decimals:02}")),
        }
    }

    fn reach_schedule_point(&mut self, core: usize, process: usize) {
        let source = &self.processes[process];
        let scheduler = (self.cores[core].scheduler.as_str(), 0);
        self.lines.event((&source.name, source.instance), "SCHED", scheduler, "schedulepoint");
        self.preempt(core, process);
    }

    /// A task waits for its event, unless it uses a semaphore.
    fn wait(&mut self, core: usize, process: usize) {
        if self.processes[process].uses.is_some() {
            return self.use_semaphore(core, process);
        }
        self.own_event(process, "wait_event");
        self.leave(core, process, "wait", State::Waiting);
        self.dispatch(core);
    }

    /// Sets the event of a task that waits. Where none does, a task clears its
    /// own.
    fn wake_another(&mut self, process: usize) {
        let Some(other) = self.random.draw(&mut self.waiting) else {
            return match self.processes[process].of {
                "T" => self.own_event(process, "clear_event"),
                _ => self.use_signal(process),
            };
        };
        let (source, target) = (&self.processes[process], &self.processes[other]);
        let event = (target.os_event.as_str(), 0);
        let note = format_args!("{}", target.name);
        self.lines.event_with_note((&source.name, source.instance), "EVENT", event, "set_event", note);
        self.release(other);
    }

    fn own_event(&mut self, process: usize, event: &str) {
        let process = &self.processes[process];
        self.lines.event((&process.name, process.instance), "EVENT", (&process.os_event, 0), event);
    }

    /// Ends an instance that has called its runnables and uses no semaphore.
    fn end(&mut self, core: usize, process: usize) {
        if self.has_calls_left(process) {
            self.call_next(process);
        } else if self.processes[process].uses.is_some() {
            self.use_semaphore(core, process);
        } else {
            self.terminate(core, process);
        }
    }
}
