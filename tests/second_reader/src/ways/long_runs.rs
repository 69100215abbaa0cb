//! The ways of document 02, No. 7: more activations than there are entries, and
//! a table all of whose entries are needed.

use crate::event_line::{EventLine, Refusal};
use crate::history::{has_instance, is_in_series, History};
use crate::refusals::{
    every_entry_is_needed, instance_does_not_fit, instance_number_is_not_the_next, names_do_not_fit,
    needs_one_more_entry, MOST_ENTRIES,
};

pub const WAYS: [&str; 9] = [
    "more than 1,024 activations",
    "a full table of instances",
    "room given back and used again",
    "one instance too many",
    "an activation too many that isn't the next",
    "an event of an absent one at a full table",
    "an activation of an absent one at a full table",
    "mtalimitexceeded at a full table",
    "an event of one that gave its room back",
];

/// Which of them a trace has gone, in the order of the list.
pub type Gone = [bool; WAYS.len()];

/// What a customer with long runs sends, and what a full table is tried with.
pub fn is_long_or_full(gone: &Gone) -> bool {
    gone[0] || gone[1]
}

#[derive(Default)]
pub struct LongRuns {
    pub gone: Gone,
    activations: usize,
    was_full: bool,
}

impl LongRuns {
    /// Notes the ways of a line with its answer, before it is taken.
    pub fn note(&mut self, history: &History, line: &EventLine, refused: Option<Refusal>) {
        if !has_instance(line) {
            return;
        }
        match refused {
            None => self.note_taken(history, line),
            Some(10) => self.note_too_many(history, line),
            Some(number) => self.note_absent(history, line, number),
        }
    }

    fn note_taken(&mut self, history: &History, line: &EventLine) {
        self.activations += usize::from(is_in_series(line));
        self.gone[0] |= self.activations > MOST_ENTRIES;
        if needs_one_more_entry(history, line) {
            // It was taken, so that after a full table something has ended.
            self.gone[2] |= self.was_full;
            self.was_full |= history.instances.len() + 1 >= MOST_ENTRIES && history.entries() + 1 == MOST_ENTRIES;
            self.gone[1] |= self.was_full;
        }
        self.gone[7] |= line.event == "mtalimitexceeded" && every_entry_is_needed(history);
    }

    /// Where the names of the line would fit. A number that isn't the next one
    /// would be 12 with more room.
    fn note_too_many(&mut self, history: &History, line: &EventLine) {
        if names_do_not_fit(history, line) || !instance_does_not_fit(history, line) {
            return;
        }
        self.gone[3] = true;
        self.gone[4] |= instance_number_is_not_the_next(history, line);
    }

    /// "a non-activating event of it is 11, an activating one other than the
    /// next 12. Neither needs room".
    fn note_absent(&mut self, history: &History, line: &EventLine, number: Refusal) {
        if history.has_entry(line) {
            return;
        }
        let is_full = every_entry_is_needed(history);
        self.gone[5] |= number == 11 && is_full;
        self.gone[6] |= number == 12 && is_full;
        let has_ended = !history.instance_is_new(line);
        self.gone[8] |= has_ended && (number == 11 || number == 12);
    }
}
