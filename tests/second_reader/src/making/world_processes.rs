//! The events of processes that a world may tell.

use super::draft::EventText;
use super::random::Random;
use super::steps::{
    all_process_steps, counts_up, leaves_core, needs_own_core, process_steps, takes_core, Step,
};
use super::world::{any_number, World};

/// One event that may come next.
#[derive(Clone)]
pub struct Choice {
    pub process: usize,
    pub number: u32,
    pub step: Step,
    pub core: Option<usize>,
}

impl World {
    pub fn process_event(&mut self, random: &mut Random) -> Option<EventText> {
        let process = random.below(self.processes.len());
        let choices = if random.chance(75) {
            self.next_choices(process)
        } else {
            let number = self.processes[process].unused_number(random)?;
            self.first_choices(process, number)
        };
        if choices.is_empty() {
            return None;
        }
        let choice = choices[random.below(choices.len())].clone();
        Some(self.tell_process_event(random, &choice))
    }

    /// What may happen to the instances that have been seen.
    pub fn next_choices(&self, process: usize) -> Vec<Choice> {
        let entity = &self.processes[process];
        let mut choices = Vec::new();
        for &(number, state) in &entity.instances {
            for step in process_steps(entity.type_word, state) {
                if counts_up(step.0) && !entity.may_be_next(number) {
                    continue;
                }
                let own = (process, number);
                choices.extend(self.on_cores(process, number, step, |core| core.holder == Some(own)));
            }
        }
        choices
    }

    /// What may happen to an instance that is seen for the first time: every
    /// event if it is old, since it may have been in any state; else only its
    /// activation.
    pub fn first_choices(&self, process: usize, number: u32) -> Vec<Choice> {
        let entity = &self.processes[process];
        all_process_steps(entity.type_word)
            .into_iter()
            .filter(|step| entity.may_be_new(number, counts_up(step.0)))
            .flat_map(|step| self.on_cores(process, number, step, |core| !core.tracked))
            .collect()
    }

    /// The step on every core that serves; `own` says which ones serve the
    /// events that need the instance's own core.
    fn on_cores(
        &self,
        process: usize,
        number: u32,
        step: Step,
        own: impl Fn(&super::world::Core) -> bool,
    ) -> Vec<Choice> {
        let choice = |core| Choice { process, number, step, core };
        if !takes_core(step.0) && !needs_own_core(step.0) {
            return vec![choice(None)];
        }
        let serves = |core: &super::world::Core| {
            if takes_core(step.0) { core.holder.is_none() } else { own(core) }
        };
        (0..self.cores.len()).filter(|&k| serves(&self.cores[k])).map(|k| choice(Some(k))).collect()
    }

    pub fn tell_process_event(&mut self, random: &mut Random, choice: &Choice) -> EventText {
        let (event, state) = choice.step;
        let source = self.source_of(random, choice);
        let entity = &mut self.processes[choice.process];
        entity.set_state(choice.number, state);
        if counts_up(event) {
            entity.count_up(choice.number);
        }
        let (target, kind) = (entity.name.clone(), entity.type_word);
        if let Some(place) = choice.core {
            let core = &mut self.cores[place];
            core.tracked = true;
            core.holder = (!leaves_core(event)).then_some((choice.process, choice.number));
            self.track(&source.0, "core");
        }
        self.track(&target, kind);
        EventText::new(self.time, (&source.0, source.1), (kind, event), (&target, choice.number))
    }

    fn source_of(&self, random: &mut Random, choice: &Choice) -> (String, u32) {
        match choice.core {
            Some(core) => (self.cores[core].name.clone(), 0),
            None => {
                let free = counts_up(choice.step.0);
                (self.any_name(random), if free { any_number(random) } else { 0 })
            }
        }
    }

    /// A new instance, activated.
    pub fn activate(&mut self, random: &mut Random) -> Option<EventText> {
        let process = random.below(self.processes.len());
        let entity = &self.processes[process];
        let number = entity.unused_number(random).filter(|&number| entity.may_be_next(number))?;
        let choice = Choice { process, number, step: ("activate", "ACTIVE"), core: None };
        Some(self.tell_process_event(random, &choice))
    }

    /// An instance that was activated, or else an old one, started on a core
    /// that nobody holds.
    pub fn start(&mut self, random: &mut Random) -> Option<EventText> {
        let process = random.below(self.processes.len());
        let entity = &self.processes[process];
        let active = entity.instances.iter().find(|(_, state)| *state == "ACTIVE");
        let number = active.map(|(number, _)| *number).or_else(|| entity.old_number(random))?;
        let core = (0..self.cores.len()).find(|&core| self.cores[core].holder.is_none());
        core?;
        let choice = Choice { process, number, step: ("start", "RUNNING"), core };
        Some(self.tell_process_event(random, &choice))
    }
}
