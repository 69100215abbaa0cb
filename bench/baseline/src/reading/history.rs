//! What the lines so far have told, and the refusals 8 to 14.

use super::event_line::Event;
use super::event_rules::{CoreUse, Kind, TERMINATED};
use super::instances::{key_of, name_of, Instances, Key};
use super::names::{Names, IDLE, MOST_CORES, MOST_NAMES, NONE_YET};
use super::refusal::Refusal;

pub struct History {
    pub seen_event: bool,
    pub first_time: u64,
    pub last_time: u64,
    pub names: Names,
    pub instances: Instances,
}

/// The core, the target and the entry of the instance that a line is about; none
/// where they are new, and no entry either where it was given back.
struct Known {
    core: Option<usize>,
    target: Option<usize>,
    entry: Option<usize>,
}

impl History {
    pub fn new() -> History {
        History { seen_event: false, first_time: 0, last_time: 0, names: Names::new(), instances: Instances::new() }
    }

    /// Takes a line that was read, or says why not.
    #[inline(always)]
    pub fn take(&mut self, bytes: &[u8], event: &Event) -> Result<(), Refusal> {
        if event.time < self.last_time {
            return Err(Refusal::Time);
        }
        if !self.seen_event {
            self.seen_event = true;
            self.first_time = event.time;
        }
        self.last_time = event.time;
        match event.rule.target {
            None => Ok(()),
            Some(Kind::Semaphore) => self.take_semaphore(bytes, event),
            Some(kind) => self.take_instance(bytes, event, kind),
        }
    }

    /// A line whose target is a process or a runnable.
    #[inline(always)]
    fn take_instance(&mut self, bytes: &[u8], event: &Event, kind: Kind) -> Result<(), Refusal> {
        self.check_kinds(bytes, event, kind)?;
        let entry = event.target_name.and_then(|name| self.instances.find(key_of(name, event.instance)));
        let known = Known { core: event.core_name, target: event.target_name, entry };
        self.check_room(event, &known)?;
        self.check_step(event, &known)?;
        self.check_series(event)?;
        self.check_core(event, &known)?;
        self.store(bytes, event, kind, &known);
        Ok(())
    }

    /// 9: a name of another kind, or one name for core and process.
    #[inline(always)]
    fn check_kinds(&self, bytes: &[u8], event: &Event, kind: Kind) -> Result<(), Refusal> {
        let other = |name: Option<usize>, kind| name.is_some_and(|name| self.names.list[name].kind != kind);
        if other(event.target_name, kind) || other(event.core_name, Kind::Core) {
            return Err(Refusal::Kind);
        }
        let both_new = event.uses_core() && event.core_name.is_none() && event.target_name.is_none();
        if both_new && event.source.of(bytes) == event.target.of(bytes) {
            return Err(Refusal::Kind);
        }
        Ok(())
    }

    /// 10: the names or the instance that the line adds don't fit.
    #[inline(always)]
    fn check_room(&self, event: &Event, known: &Known) -> Result<(), Refusal> {
        let adds_core = event.uses_core() && known.core.is_none();
        let adds = usize::from(adds_core) + usize::from(known.target.is_none());
        let full = self.names.list.len() + adds > MOST_NAMES
            || (adds_core && self.names.core_count == MOST_CORES)
            || (self.instances.are_full() && self.needs_entry(event, known));
        if full {
            Err(Refusal::Room)
        } else {
            Ok(())
        }
    }

    /// Whether the line needs one entry more (02, No. 7). An instance without one
    /// that is no older than the first activation has ended or never begun, and
    /// only the next activation begins it; one beyond the limit begins nothing.
    #[cold]
    fn needs_entry(&self, event: &Event, known: &Known) -> bool {
        let begins_nothing = event.rule.series && event.rule.enters == TERMINATED;
        if known.entry.is_some() || begins_nothing {
            return false;
        }
        known.target.is_none_or(|name| {
            let name = &self.names.list[name];
            event.instance < name.first || (event.rule.series && name.is_next(event.instance))
        })
    }

    /// 11: a step that the chart doesn't have. The first event of an instance may
    /// be any step, unless the instance would have to have been activated: it is
    /// no older than the first that was (02, No. 5).
    #[inline(always)]
    fn check_step(&self, event: &Event, known: &Known) -> Result<(), Refusal> {
        let allowed = match (known.entry, known.target) {
            (Some(entry), _) => self.instances.states(entry) & event.rule.leaves != 0,
            (None, Some(name)) => event.rule.series || event.instance < self.names.list[name].first,
            (None, None) => true,
        };
        if allowed {
            Ok(())
        } else {
            Err(Refusal::Step)
        }
    }

    /// 12: not the next number of its series.
    #[inline(always)]
    fn check_series(&self, event: &Event) -> Result<(), Refusal> {
        match event.target_name {
            Some(name) if event.rule.series && !self.names.list[name].is_next(event.instance) => Err(Refusal::Series),
            _ => Ok(()),
        }
    }

    /// 13: the core rule. A core that isn't tracked yet is unknown.
    #[inline(always)]
    fn check_core(&self, event: &Event, known: &Known) -> Result<(), Refusal> {
        let kept = match (event.rule.core, known.core) {
            (CoreUse::None, _) | (CoreUse::Takes, None) => true,
            (CoreUse::Takes, Some(core)) => self.names.list[core].holder == IDLE,
            (_, None) => known.entry.is_none(),
            (_, Some(core)) => {
                known.target.is_some_and(|name| self.names.list[core].holder == key_of(name, event.instance))
            }
        };
        if kept {
            Ok(())
        } else {
            Err(Refusal::Core)
        }
    }

    #[inline(always)]
    fn store(&mut self, bytes: &[u8], event: &Event, kind: Kind, known: &Known) {
        let target = known.target.unwrap_or_else(|| self.names.add(bytes, event.target, kind));
        let key = key_of(target, event.instance);
        if event.uses_core() {
            let core = known.core.unwrap_or_else(|| self.add_core(bytes, event));
            self.settle(core, event.time);
            self.names.list[core].holder = if event.rule.core == CoreUse::Leaves { IDLE } else { key };
        }
        if event.rule.series {
            let name = &mut self.names.list[target];
            name.first = name.first.min(event.instance);
            name.last = event.instance;
        }
        self.store_entry(event, key, known.entry);
    }

    /// An instance that has ended needs its entry only if it is older than the
    /// first activation, or there is none yet (02, No. 7).
    #[inline(always)]
    fn store_entry(&mut self, event: &Event, key: Key, entry: Option<usize>) {
        let name = &mut self.names.list[name_of(key)];
        let states = event.rule.enters;
        let needed = states != TERMINATED || event.instance < name.first;
        match entry {
            Some(entry) if needed => self.instances.change(entry, states),
            Some(entry) => self.instances.remove(entry),
            None if needed => {
                name.above_seen = name.above_seen.max(event.instance + 1);
                self.instances.add(key, states);
            }
            None => {}
        }
    }

    /// A core is unknown up to the line that tracks it.
    #[cold]
    fn add_core(&mut self, bytes: &[u8], event: &Event) -> usize {
        let number = self.names.add(bytes, event.source, Kind::Core);
        let core = &mut self.names.list[number];
        core.unknown = event.time - self.first_time;
        core.since = event.time;
        number
    }

    /// Adds the ticks since the core last changed to its sums, and those that it
    /// was held to the charge of the process that held it.
    #[inline(always)]
    pub fn settle(&mut self, core: usize, now: u64) {
        let names = &mut self.names.list;
        let ticks = now - names[core].since;
        names[core].since = now;
        match names[core].holder {
            IDLE => names[core].idle += ticks,
            holder => {
                names[core].held += ticks;
                names[name_of(holder)].held += ticks;
            }
        }
    }

    /// A line whose target is a semaphore: 9, 10, 11 and 14.
    #[inline(always)]
    fn take_semaphore(&mut self, bytes: &[u8], event: &Event) -> Result<(), Refusal> {
        let number = match event.target_name {
            Some(number) => number,
            None if self.names.list.len() == MOST_NAMES => return Err(Refusal::Room),
            None => self.names.add(bytes, event.target, Kind::Semaphore),
        };
        let (semaphore, rule) = (&mut self.names.list[number], event.rule);
        if semaphore.kind != Kind::Semaphore {
            return Err(Refusal::Kind);
        }
        if semaphore.states & rule.leaves == 0 {
            return Err(Refusal::Step);
        }
        let follows = semaphore.last == NONE_YET || event.count == semaphore.last.wrapping_add(rule.change);
        if !follows || event.count < rule.least_count || event.count > rule.most_count {
            return Err(Refusal::Count);
        }
        semaphore.last = event.count;
        if rule.enters != 0 {
            semaphore.states = rule.enters;
        }
        Ok(())
    }
}
