//! The last line of a long run, with the answer that it earns: on each side of
//! what document 02, No. 7, says of a full table.

use super::draft::EventText;
use super::random::Random;
use super::run::{Run, ENTRIES};

/// A line that the run may end with, or none, and the number it earns.
pub fn last_line(random: &mut Random, run: &Run) -> (Option<EventText>, u8) {
    let (fits, low) = if run.entries() == ENTRIES { (10, 10) } else { (0, 12) };
    for _ in 0..20 {
        let (line, aim) = match random.below(34) {
            0..=6 => (run.event_of_absent(random), 11),
            7..=13 => (run.activation_of_absent(random), 12),
            14 | 15 => (run.next_activation(random), fits),
            16 | 17 => (run.event_of_old(random), fits),
            18..=23 => (run.low_activation(random), low),
            24 => (run.new_entity(random), fits),
            25 => run.wrong_limit(random),
            26 => run.activation_of_kept(random),
            27 => (run.wrong_step(random), 11),
            28 => (run.wrong_core(random), 13),
            // Its sheet is to be compared.
            _ => return (None, 0),
        };
        if line.is_some() {
            return (line, aim);
        }
    }
    (None, 0)
}

impl Run {
    fn activating_word(&self, random: &mut Random, runner: usize) -> &'static str {
        match self.runners[runner].type_word {
            "R" => "start",
            "T" => random.pick(&["activate", "activate", "mtalimitexceeded"]),
            _ => "activate",
        }
    }

    /// The activation that needs an entry.
    fn needing_word(&self, runner: usize) -> &'static str {
        if self.runners[runner].is_runnable() { "start" } else { "activate" }
    }

    /// A core or another source, which need not be what the event asks for.
    fn any_source(&self, random: &mut Random) -> String {
        let core = self.cores[random.below(self.cores.len())].name.clone();
        random.pick(&[core.as_str(), &core, "new"]).to_string()
    }

    /// 11: absent means terminated or never activated.
    pub fn event_of_absent(&self, random: &mut Random) -> Option<EventText> {
        let runner = self.any_runner(random);
        let next = self.runners[runner].next().filter(|_| random.chance(25));
        let absent = next.or(self.runners[runner].absent_number(random));
        let number = absent.filter(|&number| self.runners[runner].is_absent(number))?;
        let (event, _) = self.any_first_step(random, runner);
        Some(self.line(&self.any_source(random), runner, event, number))
    }

    /// 12: an activation of it other than the next.
    pub fn activation_of_absent(&self, random: &mut Random) -> Option<EventText> {
        let runner = self.any_runner(random);
        let number = self.runners[runner].absent_number(random)?;
        Some(self.line("S", runner, self.activating_word(random, runner), number))
    }

    /// The next activation, which may be the first.
    fn next_activation(&self, random: &mut Random) -> Option<EventText> {
        let runner = self.any_runner(random);
        let number = self.runners[runner].next()?;
        Some(self.line("S", runner, self.needing_word(runner), number))
    }

    /// An old instance. Where there is room its event needs no core.
    fn event_of_old(&self, random: &mut Random) -> Option<EventText> {
        let runner = self.any_runner(random);
        let number = self.runners[runner].next_old()?;
        let (event, _) = self.any_first_step(random, runner);
        let is_full = self.entries() == ENTRIES;
        (is_full || !self.is_on_core(runner, event)).then(|| self.line(&self.any_source(random), runner, event, number))
    }

    /// An activation of an unseen instance below the first one, or a first
    /// activation below one seen.
    fn low_activation(&self, random: &mut Random) -> Option<EventText> {
        let unactivated = self.runners.iter().position(|runner| runner.first.is_none() && !runner.kept.is_empty());
        let runner = unactivated.filter(|_| random.chance(50)).unwrap_or(self.any_runner(random));
        let number = self.runners[runner].unseen_below(random)?;
        Some(self.line("S", runner, self.needing_word(runner), number))
    }

    fn new_entity(&self, random: &mut Random) -> Option<EventText> {
        let what = random.pick(&[&("R", "start"), &("R", "terminate"), &("T", "activate"), &("I", "release")]);
        Some(EventText::new(self.time, ("P", 0), *what, ("z", 7)))
    }

    /// mtalimitexceeded below the first activation or below one seen: it needs
    /// no room, and its number is wrong.
    fn wrong_limit(&self, random: &mut Random) -> (Option<EventText>, u8) {
        let runner = self.any_runner(random);
        let is_task = self.runners[runner].type_word == "T";
        let number = self.runners[runner].unseen_below(random).filter(|_| is_task);
        (number.map(|number| self.line("S", runner, "mtalimitexceeded", number)), 12)
    }

    /// An activation of an instance that has its entry: the chart forbids it
    /// while it lives, its number forbids it ever after.
    fn activation_of_kept(&self, random: &mut Random) -> (Option<EventText>, u8) {
        let runner = self.any_runner(random);
        let kept = &self.runners[runner].kept;
        if kept.is_empty() {
            return (None, 0);
        }
        let instance = &kept[random.below(kept.len())];
        let aim = if instance.state == "TERMINATED" { 12 } else { 11 };
        (Some(self.line("S", runner, self.activating_word(random, runner), instance.number)), aim)
    }

    /// 11: a step that an instance in this state doesn't have.
    fn wrong_step(&self, random: &mut Random) -> Option<EventText> {
        let runner = self.any_runner(random);
        let kept = &self.runners[runner].kept;
        if kept.is_empty() {
            return None;
        }
        let instance = &kept[random.below(kept.len())];
        let allowed = self.steps_without_activation(runner, Some(instance.state));
        let (event, _) = self.any_first_step(random, runner);
        let is_wrong = allowed.iter().all(|step| step.0 != event);
        is_wrong.then(|| self.line(&self.any_source(random), runner, event, instance.number))
    }

    /// 13: the holder of a core leaves another one.
    fn wrong_core(&self, random: &mut Random) -> Option<EventText> {
        let own = &self.cores[random.below(self.cores.len())];
        let (runner, number) = own.holder?;
        let place = self.runners[runner].place_of(number)?;
        let event = if self.runners[runner].kept[place].state == "RUNNING" { "terminate" } else { "park" };
        let source = self.any_source(random);
        (source != own.name).then(|| self.line(&source, runner, event, number))
    }
}
