//! The refusals that depend on the lines before: one function for each of the
//! numbers 8 to 14. Each one says whether its number applies, by itself.

use crate::charts::{is_chart_event, next_state};
use crate::cores::{core_event, is_allowed, InstanceId};
use crate::event_line::{count_of, EventLine, Refusal};
use crate::history::{has_instance, is_in_series, names_of, History, NameKind};
use crate::semaphores::{fixed_count_is_right, follows};

/// Table of sizes: "tracked names (cores, T, I, R, SEM) | 256, of them 64
/// cores".
const MOST_NAMES: usize = 256;
const MOST_CORES: usize = 64;

/// Table of sizes: "process and runnable instances | 1,024", of which document
/// 02, No. 7, counts those that need an entry.
pub const MOST_ENTRIES: usize = 1_024;

type Rule = fn(&History, &EventLine) -> bool;

/// "The lowest number that applies wins".
pub fn lowest_refusal(history: &History, line: &EventLine) -> Option<Refusal> {
    let rules: [(Refusal, Rule); 7] = [
        (8, time_goes_back),
        (9, name_has_a_second_kind),
        (10, line_does_not_fit),
        (11, chart_step_is_not_allowed),
        (12, instance_number_is_not_the_next),
        (13, core_rule_is_broken),
        (14, semaphore_count_is_broken),
    ];
    rules
        .into_iter()
        .find(|(_, applies)| applies(history, line))
        .map(|(number, _)| number)
}

/// Answer 8: "time less than the event line before".
pub fn time_goes_back(history: &History, line: &EventLine) -> bool {
    history.last_time().is_some_and(|last| line.time < last)
}

/// Answer 9: "a tracked name in a second of the five kinds (core, T, I, R,
/// SEM), source and target of one core line included".
pub fn name_has_a_second_kind(history: &History, line: &EventLine) -> bool {
    let of_another_kind = names_of(line)
        .into_iter()
        .any(|(name, kind)| history.kind_of(name).is_some_and(|tracked| tracked != kind));
    let core_is_its_own_process = core_event(line).is_some() && line.source == line.target;
    of_another_kind || core_is_its_own_process
}

/// Answer 10: "the names or instances that the line adds don't fit".
pub fn line_does_not_fit(history: &History, line: &EventLine) -> bool {
    names_do_not_fit(history, line) || instance_does_not_fit(history, line)
}

pub fn names_do_not_fit(history: &History, line: &EventLine) -> bool {
    let added: Vec<NameKind> = names_of(line)
        .into_iter()
        .filter(|(name, _)| history.place_of(name).is_none())
        .map(|(_, kind)| kind)
        .collect();
    let added_cores = added.iter().filter(|&&kind| kind == NameKind::Core).count();
    history.names.len() + added.len() > MOST_NAMES || history.core_count() + added_cores > MOST_CORES
}

/// Document 02, No. 7: "Refusal 10 for instances is then given exactly when
/// 1,024 entries are living or older than their entity's first activation (all
/// are, while it has none) and one more is needed." The judge before this request
/// counted all that were seen, so it would answer 10 here too.
pub fn instance_does_not_fit(history: &History, line: &EventLine) -> bool {
    needs_one_more_entry(history, line) && every_entry_is_needed(history)
}

/// Whether all 1,024 entries are needed. There are never more of them than
/// instances were seen, which is quicker to ask.
pub fn every_entry_is_needed(history: &History) -> bool {
    history.instances.len() >= MOST_ENTRIES && history.entries() >= MOST_ENTRIES
}

/// "A line needs one more entry if its instance has none, its word is not
/// mtalimitexceeded, and: its entity has no first activating number, or the
/// instance is below it, or the line is the next activation."
pub fn needs_one_more_entry(history: &History, line: &EventLine) -> bool {
    if !has_instance(line) || history.has_entry(line) || line.event == "mtalimitexceeded" {
        return false;
    }
    match history.first_activation(line) {
        None => true,
        Some(first) => line.target_instance < first || is_the_next_activation(history, line),
    }
}

fn is_the_next_activation(history: &History, line: &EventLine) -> bool {
    is_in_series(line) && !instance_number_is_not_the_next(history, line)
}

/// Answer 11: "chart step not allowed". An instance that was never activated
/// has no state that a first event could be taken from; one that has ended is
/// still TERMINATED after its room was given back.
pub fn chart_step_is_not_allowed(history: &History, line: &EventLine) -> bool {
    let step_is_missing = is_chart_event(line.target_type, line.event)
        && next_state(line.target_type, history.state_of(line), line.event).is_none();
    step_is_missing || was_never_activated(history, line)
}

/// Document 02, No. 5: "Once a process has had an activate or mtalimitexceeded
/// numbered f, a non-activating first event of an instance numbered f or more
/// is 11." And: "Runnables the same, with start."
pub fn was_never_activated(history: &History, line: &EventLine) -> bool {
    let is_first_event = history.instance_is_new(line) && !is_in_series(line);
    is_first_event && history.first_activation(line).is_some_and(|first| line.target_instance >= first)
}

/// Answer 12: "instance number not the next". "a second or later activate or
/// mtalimitexceeded of one process, or start of one runnable, bears the number
/// of the one before plus 1."
pub fn instance_number_is_not_the_next(history: &History, line: &EventLine) -> bool {
    if !is_in_series(line) {
        return false;
    }
    match history.last_in_series(line) {
        // Wider numbers: after 4,294,967,295 there is no next one.
        Some(last) => u64::from(line.target_instance) != u64::from(last) + 1,
        None => is_not_above_all_seen(history, line),
    }
}

/// Of a first activation. Document 01: "The first may bear any number"; now
/// document 02, No. 5: "The first activate or mtalimitexceeded must bear a
/// number above all seen of that process, else 12."
pub fn is_not_above_all_seen(history: &History, line: &EventLine) -> bool {
    history.numbers_seen(line).into_iter().any(|seen| line.target_instance <= seen)
}

/// Answer 13: "core rule broken".
pub fn core_rule_is_broken(history: &History, line: &EventLine) -> bool {
    let Some(event) = core_event(line) else { return false };
    // A name without a place yet would get the next one, and holds no core.
    let name_place = history.place_of(&line.target).unwrap_or(history.names.len());
    let instance = InstanceId { name_place, number: line.target_instance };
    let core = history.core_status(&line.source);
    !is_allowed(event, core, instance, history.instance_is_new(line))
}

/// Answer 14: "semaphore count or fixed count broken". "The first SEM line of a
/// semaphore may bear any count", but the fixed counts hold always.
pub fn semaphore_count_is_broken(history: &History, line: &EventLine) -> bool {
    let Some(count) = count_of(line) else { return false };
    let follows_the_last = history
        .last_count(line)
        .map_or(true, |last| follows(line.event, last, count));
    !follows_the_last || !fixed_count_is_right(line.event, count)
}
