//! The system that is traced, and the lines that its parts write.

use super::clock::Clock;
use super::line_writer::LineWriter;
use super::naming::Naming;
use super::plan::Plan;
use super::random::Random;

const SIGNALS: usize = 48;

#[derive(Clone, Copy, Debug, PartialEq, Eq)]
pub enum State {
    Terminated,
    Active,
    Running,
    Ready,
    Waiting,
    Polling,
    Parking,
}

pub struct Core {
    pub name: String,
    pub scheduler: String,
    pub holder: Option<usize>,
}

pub struct Process {
    pub name: String,
    pub stimulus: String,
    pub os_event: String,
    /// T or I.
    pub of: &'static str,
    pub state: State,
    /// Number of the instance that lives.
    pub instance: u64,
    /// The next number of the series.
    pub next_instance: u64,
    /// The core that it was on last.
    pub core: usize,
    /// Its runnables, how many of them this instance has called, and those that
    /// live, the outermost first.
    pub runnables: Vec<usize>,
    pub called: usize,
    pub living: Vec<usize>,
    /// The semaphore that it uses.
    pub uses: Option<usize>,
}

pub struct Runnable {
    pub name: String,
    pub starts: u64,
}

impl Runnable {
    /// The number of its last instance.
    pub fn instance(&self) -> u64 {
        self.starts.saturating_sub(1)
    }
}

pub struct Semaphore {
    pub name: String,
    /// How many users it can have at once.
    pub most: u64,
    /// Users, and the one that waits.
    pub count: u64,
    pub waiter: Option<usize>,
}

pub struct World {
    pub lines: LineWriter,
    pub random: Random,
    pub cores: Vec<Core>,
    pub processes: Vec<Process>,
    pub runnables: Vec<Runnable>,
    pub semaphores: Vec<Semaphore>,
    pub signals: Vec<String>,
    /// How many runnables may be called one within the other.
    pub depth: usize,
    /// Processes by what they wait for: a core, an event, an activation.
    pub ready: Vec<usize>,
    pub waiting: Vec<usize>,
    pub dormant: Vec<usize>,
    /// The stimulus that is no process's own, and how often it was triggered.
    pub stimulus: &'static str,
    pub clock_ticks: u64,
}

impl World {
    pub fn new(plan: &Plan) -> World {
        let naming = plan.naming;
        World {
            lines: LineWriter::new(clock_for(naming)),
            random: Random::new(plan.seed),
            cores: (0..plan.cores).map(|number| new_core(naming, number)).collect(),
            processes: (0..plan.tasks).map(|number| new_process(plan, number)).collect(),
            runnables: (0..plan.runnables)
                .map(|number| Runnable { name: naming.runnable(number), starts: 0 })
                .collect(),
            semaphores: (0..plan.semaphores()).map(|number| new_semaphore(naming, number)).collect(),
            signals: (0..SIGNALS).map(|number| naming.axis("SIG", number)).collect(),
            depth: plan.runnables.div_ceil(plan.tasks).clamp(1, 8),
            ready: Vec::new(),
            waiting: Vec::new(),
            dormant: (0..plan.tasks).collect(),
            stimulus: naming.clock_stimulus(),
            clock_ticks: 0,
        }
    }

    pub fn write_header(&mut self) {
        let scale = self.lines.clock.scale;
        self.lines.plain(format_args!("#version 2.2.0"));
        self.lines.plain(format_args!("#creator make_trace 1.0"));
        self.lines.plain(format_args!("#creationDate 2024-02-29T06:30:00Z"));
        self.lines.plain(format_args!("# {} cores, {} processes", self.cores.len(), self.processes.len()));
        self.lines.plain(format_args!("#timeScale {scale}"));
        for semaphore in &self.semaphores {
            let itself = (semaphore.name.as_str(), 0);
            self.lines.event_with_note(itself, "SEM", itself, "free", format_args!("0"));
        }
    }

    /// Lets some time pass: less than the given nanoseconds.
    pub fn pass(&mut self, ns: u64) {
        self.lines.clock.pass(self.random.below(ns));
    }

    /// A line about a process whose source is a core, with the step that it
    /// takes.
    pub fn core_event(&mut self, core: usize, process: usize, event: &str, state: State) {
        let target = &mut self.processes[process];
        target.state = state;
        self.lines.event((&self.cores[core].name, 0), target.of, (&target.name, target.instance), event);
    }

    /// A line about a runnable of a process.
    pub fn runnable_event(&mut self, process: usize, runnable: usize, event: &str) {
        let source = &self.processes[process];
        let target = &self.runnables[runnable];
        self.lines.event((&source.name, source.instance), "R", (&target.name, target.instance()), event);
    }

    /// A scheduler's decision on a core.
    pub fn schedule(&mut self, core: usize) {
        let itself = (self.cores[core].scheduler.as_str(), 0);
        self.lines.event(itself, "SCHED", itself, "schedule");
    }
}

fn clock_for(naming: Naming) -> Clock {
    match naming {
        Naming::Short => Clock::in_ms(),
        _ => Clock::in_ns(),
    }
}

fn new_core(naming: Naming, number: usize) -> Core {
    Core { name: naming.core(number), scheduler: naming.scheduler(number), holder: None }
}

/// One process in eight is an interrupt routine.
fn new_process(plan: &Plan, number: usize) -> Process {
    let interrupt = number % 8 == 7;
    Process {
        name: plan.naming.axis(if interrupt { "ISR" } else { "TASK" }, number),
        stimulus: plan.naming.axis("STIM", number),
        os_event: plan.naming.axis("EVT", number),
        of: if interrupt { "I" } else { "T" },
        state: State::Terminated,
        instance: 0,
        next_instance: 0,
        core: number % plan.cores,
        runnables: (0..plan.runnables).filter(|runnable| runnable % plan.tasks == number).collect(),
        called: 0,
        living: Vec::new(),
        uses: None,
    }
}

/// Spinlocks have one user; every second semaphore can have more.
fn new_semaphore(naming: Naming, number: usize) -> Semaphore {
    let most = if number.is_multiple_of(2) { 1 } else { 1 + number as u64 };
    Semaphore { name: naming.semaphore(number), most, count: 0, waiter: None }
}
