//! The three charts, as tables of steps in the order of document 01.

use crate::words::{is_process, TargetType};

pub type State = &'static str;

/// One arrow of a chart: the event, the state it leaves, the state it enters.
pub struct Step {
    pub event: &'static str,
    pub from: State,
    pub to: State,
}

const fn step(event: &'static str, from: State, to: State) -> Step {
    Step { event, from, to }
}

/// "Process: activate TERMINATED→ACTIVE; start ACTIVE→RUNNING; ..."
const PROCESS_CHART: [Step; 14] = [
    step("activate", "TERMINATED", "ACTIVE"),
    step("start", "ACTIVE", "RUNNING"),
    step("preempt", "RUNNING", "READY"),
    step("resume", "READY", "RUNNING"),
    step("wait", "RUNNING", "WAITING"),
    step("release", "WAITING", "READY"),
    step("terminate", "RUNNING", "TERMINATED"),
    step("poll", "RUNNING", "POLLING"),
    step("run", "POLLING", "RUNNING"),
    step("park", "POLLING", "PARKING"),
    step("poll_parking", "PARKING", "POLLING"),
    step("release_parking", "PARKING", "READY"),
    step("mtalimitexceeded", "TERMINATED", "TERMINATED"),
    step("interrupt_suspended", "ACTIVE", "ACTIVE"),
];

/// "Runnable: start TERMINATED→RUNNING; suspend RUNNING→SUSPENDED; resume
/// SUSPENDED→RUNNING; terminate RUNNING→TERMINATED."
const RUNNABLE_CHART: [Step; 4] = [
    step("start", "TERMINATED", "RUNNING"),
    step("suspend", "RUNNING", "SUSPENDED"),
    step("resume", "SUSPENDED", "RUNNING"),
    step("terminate", "RUNNING", "TERMINATED"),
];

/// "Semaphore: free USED→FREE; unlock FULL→FREE; lock FREE→FULL; lock_used
/// USED→FULL; full OVERFULL→FULL; overfull FULL→OVERFULL; unlock_full
/// FULL→USED; used FREE or USED→USED." In document 02, No. 1: "The chart row in
/// 01 becomes: overfull FULL or OVERFULL→OVERFULL." Where a row leaves two
/// states it is two arrows.
const SEMAPHORE_CHART: [Step; 10] = [
    step("free", "USED", "FREE"),
    step("unlock", "FULL", "FREE"),
    step("lock", "FREE", "FULL"),
    step("lock_used", "USED", "FULL"),
    step("full", "OVERFULL", "FULL"),
    step("overfull", "FULL", "OVERFULL"),
    step("overfull", "OVERFULL", "OVERFULL"),
    step("unlock_full", "FULL", "USED"),
    step("used", "FREE", "USED"),
    step("used", "USED", "USED"),
];

/// The chart of a type. STI, SCHED, EVENT and SIG lines "only move the time".
pub fn chart_of(target_type: TargetType) -> &'static [Step] {
    match target_type {
        kind if is_process(kind) => &PROCESS_CHART,
        TargetType::Runnable => &RUNNABLE_CHART,
        TargetType::Semaphore => &SEMAPHORE_CHART,
        _ => &[],
    }
}

/// A semaphore's request lines are events of SEM that no arrow bears.
pub fn is_chart_event(target_type: TargetType, event: &str) -> bool {
    chart_of(target_type).iter().any(|step| step.event == event)
}

/// The state that a chart event enters; nothing if the step isn't allowed.
///
/// "An entity starts in any state (000): its first chart event is taken from
/// the state or states that event leaves." So no known state allows each event.
/// Which first events document 02, No. 5, takes back is told in `refusals.rs`.
pub fn next_state(target_type: TargetType, known: Option<State>, event: &str) -> Option<State> {
    chart_of(target_type)
        .iter()
        .find(|step| step.event == event && known.map_or(true, |state| state == step.from))
        .map(|step| step.to)
}

#[cfg(test)]
mod tests {
    use super::*;

    /// Those of the states from which the event is allowed.
    fn left_by(target_type: TargetType, states: &[State], event: &str) -> Vec<State> {
        let leaves = |state: &State| next_state(target_type, Some(*state), event).is_some();
        states.iter().copied().filter(leaves).collect()
    }

    #[test]
    fn two_semaphore_events_leave_two_states() {
        let (semaphore, states) = (TargetType::Semaphore, ["FREE", "USED", "FULL", "OVERFULL"]);
        assert_eq!(left_by(semaphore, &states, "used"), ["FREE", "USED"]);
        assert_eq!(left_by(semaphore, &states, "overfull"), ["FULL", "OVERFULL"]);
        for (event, entered) in [("used", "USED"), ("overfull", "OVERFULL")] {
            for known in left_by(semaphore, &states, event).into_iter().map(Some).chain([None]) {
                assert_eq!(next_state(semaphore, known, event), Some(entered));
            }
        }
    }

    #[test]
    fn every_process_event_is_an_arrow_from_one_state() {
        let states = ["TERMINATED", "ACTIVE", "RUNNING", "READY", "WAITING", "POLLING", "PARKING"];
        for step in &PROCESS_CHART {
            assert_eq!(left_by(TargetType::Task, &states, step.event), [step.from]);
        }
    }

    #[test]
    fn request_lines_of_a_semaphore_are_no_arrows() {
        assert!(!is_chart_event(TargetType::Semaphore, "queued"));
        assert!(is_chart_event(TargetType::Semaphore, "full"));
        assert!(!is_chart_event(TargetType::Signal, "read"));
    }
}
