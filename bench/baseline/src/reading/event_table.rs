//! The rules found by type and event.

use super::bytes::Part;
use super::event_rules::{all, Rule};
use super::looking::{KnownWords, Words};

const PLACES: usize = 256;
const FREE: u8 = u8::MAX;

pub struct EventTable {
    /// At each place the number of a row, or FREE; on a clash the next place.
    places: [u8; PLACES],
    rows: Vec<(KnownWords, Rule)>,
}

impl EventTable {
    pub fn new() -> EventTable {
        let mut table = EventTable { places: [FREE; PLACES], rows: Vec::new() };
        for (of, event, rule) in all() {
            table.add(Words::known(of.as_bytes(), event.as_bytes()), rule);
        }
        table
    }

    fn add(&mut self, words: KnownWords, rule: Rule) {
        let mut place = usize::from(words.place());
        while self.places[place] != FREE {
            place = (place + 1) % PLACES;
        }
        self.places[place] = self.rows.len() as u8;
        self.rows.push((words, rule));
    }

    /// The rule for a type and an event, if there is such an event of that type.
    #[inline(always)]
    pub fn find(&self, chunk: &[u8], of: Part, event: Part) -> Option<&Rule> {
        let words = Words::of_line(chunk, of, event)?;
        let mut place = usize::from(words.place());
        loop {
            let (row, rule) = self.rows.get(usize::from(self.places[place]))?;
            if *row == words {
                return Some(rule);
            }
            place = (place + 1) % PLACES;
        }
    }
}

#[cfg(test)]
mod tests {
    use super::*;

    fn known(of: &str, event: &str) -> bool {
        let text = format!("{of}{event}");
        let mut chunk = text.clone().into_bytes();
        chunk.resize(text.len() + 64, b'x');
        EventTable::new().find(&chunk, Part::between(0, of.len()), Part::between(of.len(), text.len())).is_some()
    }

    #[test]
    fn exactly_the_events_of_a_type_are_known() {
        let rows = all();
        for (of, _, _) in &rows {
            for (_, event, _) in &rows {
                let wanted = rows.iter().any(|row| row.0 == *of && row.1 == *event);
                assert_eq!(known(of, event), wanted, "{of} {event}");
            }
        }
    }

    #[test]
    fn other_bytes_are_not_known() {
        for (of, event) in [
            ("", "start"),
            ("T", ""),
            ("T", "start\0"),
            ("T\0", "start"),
            ("T", "Start"),
            ("T", "star"),
            ("T", "starts"),
            ("TASK_TASK", "start"),
            ("I", "interrupt_suspendedx"),
            ("T", "preempt_preempt_preempt_preempt"),
        ] {
            assert!(!known(of, event), "{of} {event}");
        }
    }
}
