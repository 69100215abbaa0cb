//! A trace of processes and runnables that may be long: a line is made quickly,
//! however many instances there are.

use super::draft::{Draft, EventText};
use super::prelude::valid_prelude;
use super::random::Random;
use super::runner::{Instance, Runner};
use super::steps::{
    all_process_steps, all_runnable_steps, counts_up, leaves_core, needs_own_core, process_steps, runnable_steps,
    takes_core, Step,
};

/// So many instances may have an entry.
pub const ENTRIES: usize = 1_024;

pub struct RunCore {
    pub name: String,
    tracked: bool,
    /// The place of a runner and the number of its instance.
    pub holder: Option<(usize, u32)>,
}

pub struct Run {
    pub draft: Draft,
    pub time: u64,
    pub runners: Vec<Runner>,
    pub cores: Vec<RunCore>,
    /// How many activations were told.
    pub activations: usize,
}

impl Run {
    /// Nothing has been told of so many runners, the first of which is endless.
    pub fn begin(random: &mut Random, runners: u8) -> Run {
        let draft = Draft { lines: valid_prelude(random) };
        let mut run = Run { draft, time: random.between(0, 9), runners: Vec::new(), cores: Vec::new(), activations: 0 };
        for k in 0..runners {
            let name = char::from(b'a' + k).to_string();
            let type_word = random.pick(&["R", "R", "T", "T", "I"]);
            let make = if k == 0 { Runner::endless } else { Runner::new };
            run.runners.push(make(random, name, type_word));
        }
        for k in 0..random.between(1, 4) {
            run.cores.push(RunCore { name: format!("C{k}"), tracked: false, holder: None });
        }
        run
    }

    /// How many entries are needed.
    pub fn entries(&self) -> usize {
        self.runners.iter().map(|runner| runner.kept.len()).sum()
    }

    pub fn any_runner(&self, random: &mut Random) -> usize {
        random.below(self.runners.len())
    }

    /// A line about an instance of the runner, at the time that it is now.
    pub fn line(&self, source: &str, runner: usize, event: &str, number: u32) -> EventText {
        let runner = &self.runners[runner];
        EventText::new(self.time, (source, 0), (runner.type_word, event), (&runner.name, number))
    }

    fn tell(&mut self, random: &mut Random, source: &str, runner: usize, event: &str, number: u32) {
        self.time += *random.pick(&[&0, &0, &0, &1, &2]);
        let line = self.line(source, runner, event, number).line();
        self.draft.lines.push(line);
    }

    /// The next activation, if there is one; it needs an entry.
    pub fn activate(&mut self, random: &mut Random, runner: usize) -> bool {
        let Some(number) = self.runners[runner].next() else { return false };
        let (event, state) =
            if self.runners[runner].is_runnable() { ("start", "RUNNING") } else { ("activate", "ACTIVE") };
        self.tell(random, "S", runner, event, number);
        self.runners[runner].count_up(number);
        self.runners[runner].kept.push(Instance { number, state, activated: true });
        self.activations += 1;
        true
    }

    /// The next activation, which is one too many for the task; it needs none.
    pub fn limit(&mut self, random: &mut Random, runner: usize) -> bool {
        if self.runners[runner].type_word != "T" {
            return false;
        }
        let Some(number) = self.runners[runner].next() else { return false };
        self.tell(random, "S", runner, "mtalimitexceeded", number);
        self.runners[runner].count_up(number);
        self.runners[runner].ended.push(number);
        self.activations += 1;
        true
    }

    /// An old instance, if there is one; it needs an entry.
    pub fn see_old(&mut self, random: &mut Random, runner: usize) -> bool {
        let Some(number) = self.runners[runner].next_old() else { return false };
        let (mut event, mut state) = self.any_first_step(random, runner);
        let core = self.core_for_first(random, runner, event);
        if self.is_on_core(runner, event) && core.is_none() {
            (event, state) = ("release", "READY");
        }
        self.tell_on_core(random, runner, number, event, core);
        self.runners[runner].keep_old(number, state);
        true
    }

    pub fn is_on_core(&self, runner: usize, event: &str) -> bool {
        !self.runners[runner].is_runnable() && (takes_core(event) || needs_own_core(event))
    }

    /// Any step that doesn't activate.
    pub fn any_first_step(&self, random: &mut Random, runner: usize) -> Step {
        let steps = self.steps_without_activation(runner, None);
        steps[random.below(steps.len())]
    }

    /// From the state, or from any.
    pub fn steps_without_activation(&self, runner: usize, state: Option<&str>) -> Vec<Step> {
        let runner = &self.runners[runner];
        let (steps, activates): (Vec<Step>, fn(&str) -> bool) = match (runner.is_runnable(), state) {
            (true, None) => (all_runnable_steps(), |event| event == "start"),
            (true, Some(state)) => (runnable_steps(state), |event| event == "start"),
            (false, None) => (all_process_steps(runner.type_word), counts_up),
            (false, Some(state)) => (process_steps(runner.type_word, state), counts_up),
        };
        steps.into_iter().filter(|step| !activates(step.0)).collect()
    }

    /// A core that serves an instance that is seen for the first time.
    fn core_for_first(&self, random: &mut Random, runner: usize, event: &str) -> Option<usize> {
        if !self.is_on_core(runner, event) {
            return None;
        }
        self.any_core(random, |core| if takes_core(event) { core.holder.is_none() } else { !core.tracked })
    }

    fn any_core(&self, random: &mut Random, serves: impl Fn(&RunCore) -> bool) -> Option<usize> {
        let fit: Vec<usize> = (0..self.cores.len()).filter(|&core| serves(&self.cores[core])).collect();
        (!fit.is_empty()).then(|| fit[random.below(fit.len())])
    }

    /// Tells the event and what it does to its core, if it has one.
    fn tell_on_core(&mut self, random: &mut Random, runner: usize, number: u32, event: &str, core: Option<usize>) {
        let source = core.map_or("P".to_string(), |core| self.cores[core].name.clone());
        self.tell(random, &source, runner, event, number);
        if let Some(core) = core {
            self.cores[core].tracked = true;
            self.cores[core].holder = (!leaves_core(event)).then_some((runner, number));
        }
    }

    /// Any step that a kept instance may have now, if a core serves.
    pub fn go_on(&mut self, random: &mut Random, runner: usize, place: usize) -> bool {
        let steps = self.steps_without_activation(runner, Some(self.runners[runner].kept[place].state));
        if steps.is_empty() {
            return false;
        }
        let step = steps[random.below(steps.len())];
        self.take_step(random, runner, place, step)
    }

    fn take_step(&mut self, random: &mut Random, runner: usize, place: usize, (event, state): Step) -> bool {
        let Instance { number, activated, .. } = self.runners[runner].kept[place];
        let mut core = None;
        if self.is_on_core(runner, event) {
            let wanted = if takes_core(event) { None } else { Some((runner, number)) };
            core = self.any_core(random, |core| core.holder == wanted);
            if core.is_none() {
                return false;
            }
        }
        self.tell_on_core(random, runner, number, event, core);
        let runner = &mut self.runners[runner];
        if activated && state == "TERMINATED" {
            runner.kept.swap_remove(place);
            runner.ended.push(number);
        } else {
            runner.kept[place].state = state;
        }
        true
    }

    /// Brings a kept instance to its end. If it was activated, it gives its
    /// entry back.
    pub fn end(&mut self, random: &mut Random, runner: usize, place: usize) {
        while let Some(step) = step_to_the_end(self.runners[runner].kept[place].state) {
            if !self.runners[runner].is_runnable() && takes_core(step.0) {
                self.free_a_core(random);
            }
            self.take_step(random, runner, place, step);
            if step.1 == "TERMINATED" {
                return;
            }
        }
    }

    /// Somebody leaves a core, if all are held.
    fn free_a_core(&mut self, random: &mut Random) {
        if self.cores.iter().any(|core| core.holder.is_none()) {
            return;
        }
        let core = random.below(self.cores.len());
        let Some((runner, number)) = self.cores[core].holder else { return };
        let place = self.runners[runner].place_of(number).expect("a holder has an entry");
        let runs = self.runners[runner].kept[place].state == "RUNNING";
        let step = if runs { ("preempt", "READY") } else { ("park", "PARKING") };
        self.take_step(random, runner, place, step);
    }
}

fn step_to_the_end(state: &str) -> Option<Step> {
    match state {
        "TERMINATED" => None,
        "RUNNING" => Some(("terminate", "TERMINATED")),
        "ACTIVE" => Some(("start", "RUNNING")),
        "READY" | "SUSPENDED" => Some(("resume", "RUNNING")),
        "WAITING" => Some(("release", "READY")),
        "POLLING" => Some(("run", "RUNNING")),
        _ => Some(("release_parking", "READY")),
    }
}
