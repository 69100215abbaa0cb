//! Ways through the rules that a verdict's number doesn't show. The comparison
//! counts the traces that go each of them, so that a rule that a request of
//! document 02 changes is met often, and on both sides.

mod long_runs;
pub mod orders;
pub mod sheets;

use std::collections::BTreeMap;

use crate::event_line::{count_of, EventLine, Refusal};
use crate::history::{is_in_series, History};
use crate::judge::judge_lines;
use crate::refusals::{is_not_above_all_seen, was_never_activated};
use long_runs::LongRuns;

/// The ways of the other requests; those of long runs have a list of their own.
const FIRST_WAYS: [&str; 6] = [
    "a third waiter",
    "a user leaves while others wait",
    "an instance never activated",
    "a first activation not above all seen",
    "an unseen instance below the first number",
    "a first activation above some seen",
];

/// The way that one trace in ten goes: the customer's long runs of document 02,
/// No. 7, and the tables that they fill.
pub const LONG_OR_FULL: &str = "long, or a table filled to its last entry";

/// Each way comes at least once in so many traces, 300 times in 20,000; and a
/// trace that is long or fills its table once in ten.
const SHARE: u64 = 67;
const SHARE_OF_LONG_ONES: u64 = 10;

#[derive(Default)]
pub struct Ways {
    gone: [bool; FIRST_WAYS.len()],
    /// The count of each semaphore's last overfull line.
    overfull_counts: BTreeMap<String, u32>,
    long_runs: LongRuns,
}

/// The names of all ways, in the order in which `ways_of` tells of them.
pub fn all_ways() -> Vec<&'static str> {
    FIRST_WAYS.into_iter().chain(long_runs::WAYS).chain([LONG_OR_FULL]).collect()
}

/// How often a way has to come in so many traces.
pub fn least_of(way: &str, traces: u64) -> u64 {
    traces / if way == LONG_OR_FULL { SHARE_OF_LONG_ONES } else { SHARE }
}

/// Whether the event lines of a trace, the refused one included, go each way.
pub fn ways_of(trace: &[u8]) -> Vec<bool> {
    let ways = judge_lines(trace).ways;
    let long_or_full = long_runs::is_long_or_full(&ways.long_runs.gone);
    ways.gone.into_iter().chain(ways.long_runs.gone).chain([long_or_full]).collect()
}

impl Ways {
    /// Notes the ways of a line with its answer, before it is taken.
    pub fn note(&mut self, history: &History, line: &EventLine, refused: Option<Refusal>) {
        self.long_runs.note(history, line, refused);
        match refused {
            None => {
                self.note_waiters(history, line);
                self.note_old_instances(history, line);
            }
            Some(number) => self.note_impossible_instances(history, line, number),
        }
    }

    /// Document 02, No. 1: "Its recorder reports overfull at the second waiter
    /// again, and again when one user leaves while others still wait." So the
    /// semaphore is OVERFULL already, and its count has changed.
    fn note_waiters(&mut self, history: &History, line: &EventLine) {
        let ("overfull", Some(count)) = (line.event, count_of(line)) else { return };
        let before = self.overfull_counts.insert(line.target.clone(), count);
        if let (Some("OVERFULL"), Some(before)) = (history.state_of(line), before) {
            self.gone[0] |= count > before;
            self.gone[1] |= count < before;
        }
    }

    /// Document 02, No. 5, where nothing else is the cause of the 11 or 12.
    fn note_impossible_instances(&mut self, history: &History, line: &EventLine, number: Refusal) {
        self.gone[2] |= number == 11 && was_never_activated(history, line);
        let is_first_activation = is_in_series(line) && history.last_in_series(line).is_none();
        self.gone[3] |= number == 12 && is_first_activation && is_not_above_all_seen(history, line);
    }

    /// The other side of No. 5: lines that are taken, though an activation has
    /// come before the instance, or other instances before the activation.
    fn note_old_instances(&mut self, history: &History, line: &EventLine) {
        let is_activated = history.last_in_series(line).is_some();
        self.gone[4] |= is_activated && history.instance_is_new(line) && !is_in_series(line);
        self.gone[5] |= !is_activated && is_in_series(line) && !history.numbers_seen(line).is_empty();
    }
}

#[cfg(test)]
mod tests {
    use super::*;
    use crate::cases::PRELUDE;

    fn names_of_ways(lines: &str) -> Vec<&'static str> {
        let gone = ways_of(format!("{PRELUDE}{lines}").as_bytes());
        all_ways().into_iter().zip(gone).filter(|(_, gone)| *gone).map(|(way, _)| way).collect()
    }

    #[test]
    fn both_sides_of_first_events() {
        let [_, _, never, not_above, below, above] = FIRST_WAYS;
        for (lines, way) in [
            ("0,S,0,T,A,4,activate\n0,C,0,T,A,9,resume\n", never),
            ("0,A,0,R,r,4,start\n0,A,0,R,r,5,resume\n", never),
            ("0,C,0,T,A,5,terminate\n0,S,0,T,A,5,activate\n", not_above),
            ("0,A,0,R,r,5,resume\n0,A,0,R,r,4,start\n", not_above),
            ("0,S,0,T,A,4,activate\n0,C,0,T,A,3,resume\n", below),
            ("0,C,0,T,A,5,start\n0,S,0,T,A,6,activate\n", above),
        ] {
            assert_eq!(names_of_ways(lines), [way], "{lines}");
        }
    }

    /// The same numbers where other lines or other rules are the cause.
    #[test]
    fn other_causes_are_not_counted() {
        for lines in [
            "0,S,0,T,A,4,activate\n0,C,0,T,A,4,resume\n",
            "0,C,0,T,A,5,start\n0,S,0,T,A,5,activate\n",
            "0,S,0,T,A,4,activate\n0,S,0,T,A,6,activate\n",
            "0,S,0,T,A,4,activate\n0,A,0,T,A,9,resume\n",
            "0,S,0,T,A,4,activate\n0,C,0,T,B,9,resume\n",
        ] {
            assert!(names_of_ways(lines).is_empty(), "{lines}");
        }
    }

    /// So many instances live, and then these lines come.
    fn ways_after(living: u32, lines: &str) -> Vec<&'static str> {
        let starts: String = (0..living).map(|k| format!("0,P,0,R,r,{k},start\n")).collect();
        names_of_ways(&(starts + lines))
    }

    #[test]
    fn ways_of_a_full_table() {
        let [more, full, again, too_many, not_next, event, activation, limit, ended] = long_runs::WAYS;
        let end = "0,P,0,R,r,7,terminate\n";
        let after_end = |lines: &str| end.to_string() + lines;
        for (lines, ways) in [
            ("0,P,0,R,r,1024,start\n", vec![full, too_many]),
            ("0,P,0,R,q,3,start\n", vec![full, too_many]),
            ("0,S,0,T,A,3,mtalimitexceeded\n", vec![more, full, limit]),
            ("0,S,0,T,A,3,mtalimitexceeded\n0,S,0,T,A,2,activate\n", vec![more, full, too_many, not_next, limit]),
            ("0,P,0,R,r,2000,resume\n", vec![FIRST_WAYS[2], full, event]),
            ("0,P,0,R,r,1025,start\n", vec![full, activation]),
            (end, vec![full]),
            (after_end("0,P,0,R,r,1024,start\n").as_str(), vec![more, full, again]),
            (after_end("0,P,0,R,r,7,resume\n").as_str(), vec![full, ended]),
            (
                after_end("0,P,0,R,q,3,start\n0,P,0,R,r,7,start\n").as_str(),
                vec![more, full, again, activation, ended],
            ),
        ] {
            assert_eq!(ways_after(1024, lines), [ways, vec![LONG_OR_FULL]].concat(), "{lines}");
        }
    }

    #[test]
    fn a_table_with_one_entry_left_is_not_full() {
        assert!(ways_after(1023, "").is_empty());
        assert!(ways_after(1023, "0,P,0,R,r,1024,start\n").is_empty());
        assert_eq!(ways_after(1023, "0,P,0,R,r,1023,start\n"), [long_runs::WAYS[1], LONG_OR_FULL]);
    }
}
