//! What the event lines taken so far have told: names, instances, cores,
//! semaphores and the moments that the sheet is summed over.

use std::collections::BTreeMap;

use crate::charts::{is_chart_event, next_state, State};
use crate::cores::{core_event, status_after, CoreStatus, InstanceId};
use crate::event_line::{count_of, EventLine};
use crate::words::{is_process, TargetType};

/// "the five kinds (core, T, I, R, SEM)".
#[derive(Clone, Copy, Debug, PartialEq, Eq)]
pub enum NameKind {
    Core,
    Task,
    Interrupt,
    Runnable,
    Semaphore,
}

pub struct TrackedName {
    pub name: String,
    pub kind: NameKind,
}

/// One event line as the sheet sees it: its time, and what each core tracked
/// by then was after it, in order of first mention.
pub struct Moment {
    pub time: u64,
    pub cores: Vec<CoreStatus>,
}

#[derive(Default)]
pub struct History {
    /// In order of first mention; a name's place in this list never changes.
    pub names: Vec<TrackedName>,
    /// Every instance that was seen. Terminated ones stay here, also where they
    /// need no entry any more, so that their next event isn't a first.
    pub instances: BTreeMap<InstanceId, State>,
    /// The number of the last activate, mtalimitexceeded or runnable start of
    /// the name at this place.
    pub series: BTreeMap<usize, u32>,
    /// The number of the first of them, which never changes.
    pub first_activations: BTreeMap<usize, u32>,
    /// Missing until the semaphore's first chart event.
    pub semaphore_states: BTreeMap<usize, State>,
    /// "c is the note of the semaphore's last line."
    pub semaphore_counts: BTreeMap<usize, u32>,
    /// One entry for each tracked core, in order of first mention.
    pub cores: Vec<CoreStatus>,
    pub moments: Vec<Moment>,
}

/// "Tracked names are these cores and the targets of T, I, R and SEM lines."
pub fn kind_of_target(target_type: TargetType) -> Option<NameKind> {
    match target_type {
        TargetType::Task => Some(NameKind::Task),
        TargetType::Interrupt => Some(NameKind::Interrupt),
        TargetType::Runnable => Some(NameKind::Runnable),
        TargetType::Semaphore => Some(NameKind::Semaphore),
        _ => None,
    }
}

/// The names that a line tracks, with the kind that the line gives them: the
/// core first if the line is one of a core, then the target.
pub fn names_of(line: &EventLine) -> Vec<(&str, NameKind)> {
    let mut names = Vec::new();
    if core_event(line).is_some() {
        names.push((line.source.as_str(), NameKind::Core));
    }
    if let Some(kind) = kind_of_target(line.target_type) {
        names.push((line.target.as_str(), kind));
    }
    names
}

/// "process and runnable instances | 1,024": T, I and R lines have one.
pub fn has_instance(line: &EventLine) -> bool {
    is_process(line.target_type) || line.target_type == TargetType::Runnable
}

/// "a second or later activate or mtalimitexceeded of one process, or start of
/// one runnable": the lines that count instance numbers up. They activate their
/// instance; "interrupt_suspended and a process's start don't activate".
pub fn is_in_series(line: &EventLine) -> bool {
    if is_process(line.target_type) {
        line.event == "activate" || line.event == "mtalimitexceeded"
    } else {
        line.target_type == TargetType::Runnable && line.event == "start"
    }
}

impl History {
    pub fn place_of(&self, name: &str) -> Option<usize> {
        self.names.iter().position(|tracked| tracked.name == name)
    }

    pub fn kind_of(&self, name: &str) -> Option<NameKind> {
        self.place_of(name).map(|place| self.names[place].kind)
    }

    pub fn core_count(&self) -> usize {
        self.cores.len()
    }

    /// The place of a core among the cores alone.
    fn core_place(&self, name: &str) -> Option<usize> {
        self.names
            .iter()
            .filter(|tracked| tracked.kind == NameKind::Core)
            .position(|tracked| tracked.name == name)
    }

    /// A core that isn't tracked yet is unknown.
    pub fn core_status(&self, name: &str) -> CoreStatus {
        self.core_place(name).map_or(CoreStatus::Unknown, |place| self.cores[place])
    }

    /// The line's instance, if T, I or R lines have had its name before.
    pub fn instance_of(&self, line: &EventLine) -> Option<InstanceId> {
        if !has_instance(line) {
            return None;
        }
        self.place_of(&line.target)
            .map(|name_place| InstanceId { name_place, number: line.target_instance })
    }

    pub fn instance_is_new(&self, line: &EventLine) -> bool {
        has_instance(line)
            && !self.instance_of(line).is_some_and(|id| self.instances.contains_key(&id))
    }

    /// How many instances need an entry: "living or older than their entity's
    /// first activation (all are, while it has none)".
    pub fn entries(&self) -> usize {
        self.instances.iter().filter(|(id, state)| self.needs_entry(**id, state)).count()
    }

    /// Document 02, No. 7: "a TERMINATED instance numbered at or above its
    /// entity's first activating number (start, for a runnable) needs no entry".
    /// Every other one that was seen does.
    fn needs_entry(&self, id: InstanceId, state: State) -> bool {
        let first = self.first_activations.get(&id.name_place);
        state != "TERMINATED" || first.map_or(true, |&first| id.number < first)
    }

    /// Whether the line's instance has an entry. "Give its room back at once":
    /// those have one that need one.
    pub fn has_entry(&self, line: &EventLine) -> bool {
        let Some(id) = self.instance_of(line) else { return false };
        self.instances.get(&id).is_some_and(|state| self.needs_entry(id, state))
    }

    /// The chart state of the line's instance or semaphore, if it is known.
    pub fn state_of(&self, line: &EventLine) -> Option<State> {
        if line.target_type == TargetType::Semaphore {
            let place = self.place_of(&line.target)?;
            self.semaphore_states.get(&place).copied()
        } else {
            self.instances.get(&self.instance_of(line)?).copied()
        }
    }

    pub fn last_in_series(&self, line: &EventLine) -> Option<u32> {
        self.series.get(&self.place_of(&line.target)?).copied()
    }

    /// The f of document 02, No. 5: "an activate or mtalimitexceeded numbered
    /// f", or a start of a runnable, the first one of the line's target.
    pub fn first_activation(&self, line: &EventLine) -> Option<u32> {
        self.first_activations.get(&self.place_of(&line.target)?).copied()
    }

    /// The instances of the line's target that have been seen. "Seen": target
    /// of a T or I line (R line, for a runnable), whatever became of it.
    pub fn numbers_seen(&self, line: &EventLine) -> Vec<u32> {
        let Some(place) = self.place_of(&line.target) else { return Vec::new() };
        self.instances.keys().filter(|id| id.name_place == place).map(|id| id.number).collect()
    }

    pub fn last_count(&self, line: &EventLine) -> Option<u32> {
        self.semaphore_counts.get(&self.place_of(&line.target)?).copied()
    }

    pub fn last_time(&self) -> Option<u64> {
        self.moments.last().map(|moment| moment.time)
    }

    /// Takes a line that no refusal applies to.
    pub fn take(&mut self, line: &EventLine) {
        self.track_names(line);
        self.make_chart_step(line);
        self.change_core(line);
        self.count_up_series(line);
        self.keep_count(line);
        self.moments.push(Moment { time: line.time, cores: self.cores.clone() });
    }

    fn track_names(&mut self, line: &EventLine) {
        for (name, kind) in names_of(line) {
            if self.place_of(name).is_some() {
                continue;
            }
            self.names.push(TrackedName { name: name.to_string(), kind });
            if kind == NameKind::Core {
                self.cores.push(CoreStatus::Unknown);
            }
        }
    }

    fn make_chart_step(&mut self, line: &EventLine) {
        if !is_chart_event(line.target_type, line.event) {
            return;
        }
        let state = next_state(line.target_type, self.state_of(line), line.event)
            .expect("refusal 11 has been tested");
        if let Some(instance) = self.instance_of(line) {
            self.instances.insert(instance, state);
        } else if let Some(semaphore) = self.place_of(&line.target) {
            self.semaphore_states.insert(semaphore, state);
        }
    }

    fn change_core(&mut self, line: &EventLine) {
        let core = self.core_place(&line.source);
        if let (Some(event), Some(core), Some(instance)) =
            (core_event(line), core, self.instance_of(line))
        {
            self.cores[core] = status_after(event, instance);
        }
    }

    fn count_up_series(&mut self, line: &EventLine) {
        if let (true, Some(place)) = (is_in_series(line), self.place_of(&line.target)) {
            self.series.insert(place, line.target_instance);
            self.first_activations.entry(place).or_insert(line.target_instance);
        }
    }

    fn keep_count(&mut self, line: &EventLine) {
        if let (Some(count), Some(place)) = (count_of(line), self.place_of(&line.target)) {
            self.semaphore_counts.insert(place, count);
        }
    }
}
