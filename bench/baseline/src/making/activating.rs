//! Stimuli: they activate processes, wake them and write signals.

use super::world::{State, World};

impl World {
    /// The start of the system: each process is activated once.
    pub fn activate_all(&mut self) {
        for process in std::mem::take(&mut self.dormant) {
            self.pass(500);
            self.activate(process);
        }
    }

    /// Something from outside: an activation most often, else an event for a
    /// process that waits, or a signal.
    pub fn stimulate(&mut self) {
        let any = self.random.index(self.processes.len());
        match self.random.below(8) {
            0 => self.wake_from_outside(),
            1 => self.write_from_outside(),
            2 if self.may_exceed_limit(any) => self.exceed_limit(any),
            _ => self.activate_another(),
        }
    }

    /// Activates a process that has ended. Where all live, a signal is written.
    fn activate_another(&mut self) {
        match self.random.draw(&mut self.dormant) {
            Some(process) => self.activate(process),
            None => self.write_from_outside(),
        }
    }

    fn activate(&mut self, process: usize) {
        self.trigger(process);
        let target = &mut self.processes[process];
        target.instance = target.next_instance;
        target.next_instance += 1;
        target.called = 0;
        target.state = State::Active;
        let number = target.instance;
        self.lines.event((&target.stimulus, number), target.of, (&target.name, number), "activate");
        self.ready.push(process);
    }

    fn trigger(&mut self, process: usize) {
        let target = &self.processes[process];
        let stimulus = (target.stimulus.as_str(), target.next_instance);
        self.lines.event(stimulus, "STI", stimulus, "trigger");
    }

    /// Only a task that lives.
    fn may_exceed_limit(&self, process: usize) -> bool {
        let target = &self.processes[process];
        target.of == "T" && target.state != State::Terminated
    }

    /// An activation that isn't carried out.
    fn exceed_limit(&mut self, process: usize) {
        self.trigger(process);
        let target = &mut self.processes[process];
        let number = target.next_instance;
        target.next_instance += 1;
        self.lines.event((&target.stimulus, number), "T", (&target.name, number), "mtalimitexceeded");
    }

    /// Triggers the clock; the number of its instance.
    fn tick(&mut self) -> u64 {
        self.clock_ticks += 1;
        self.lines.event(("SIM", 0), "STI", (self.stimulus, self.clock_ticks), "trigger");
        self.clock_ticks
    }

    fn wake_from_outside(&mut self) {
        if let Some(process) = self.random.draw(&mut self.waiting) {
            let number = self.tick();
            let target = &self.processes[process];
            let event = (target.os_event.as_str(), 0);
            let note = format_args!("{}", target.name);
            self.lines.event_with_note((self.stimulus, number), "EVENT", event, "set_event", note);
            self.release(process);
        }
    }

    fn write_from_outside(&mut self) {
        let number = self.tick();
        let signal = self.random.index(self.signals.len());
        let value = self.random.below(4096);
        let target = (self.signals[signal].as_str(), 0);
        self.lines.event_with_note((self.stimulus, number), "SIG", target, "write", format_args!("{value}"));
    }
}
