//! What the events of processes do to cores.

use crate::event_line::EventLine;
use crate::words::is_process;

/// "a core is unknown, idle or held by an instance."
#[derive(Clone, Copy, Debug, PartialEq, Eq)]
pub enum CoreStatus {
    Unknown,
    Idle,
    Held(InstanceId),
}

/// One instance of a process or runnable: the place of its name in the list of
/// tracked names, and its number.
#[derive(Clone, Copy, Debug, PartialEq, Eq, PartialOrd, Ord)]
pub struct InstanceId {
    pub name_place: usize,
    pub number: u32,
}

#[derive(Clone, Copy, Debug, PartialEq, Eq)]
pub enum CoreEvent {
    /// "start, resume and poll_parking need it unknown or idle and make it
    /// held."
    Takes,
    /// "preempt, wait, park and terminate need it held by this instance and
    /// make it idle".
    Leaves,
    /// "poll and run need the same and leave it held by this instance."
    Stays,
}

/// What the line does to its core. "A core is tracked from its first such
/// event; release and release_parking neither track nor change one, and their
/// source isn't looked up."
pub fn core_event(line: &EventLine) -> Option<CoreEvent> {
    if !is_process(line.target_type) {
        return None;
    }
    match line.event {
        "start" | "resume" | "poll_parking" => Some(CoreEvent::Takes),
        "preempt" | "wait" | "park" | "terminate" => Some(CoreEvent::Leaves),
        "poll" | "run" => Some(CoreEvent::Stays),
        _ => None,
    }
}

/// "core events (start, resume, poll_parking, preempt, wait, park, terminate,
/// poll, run, release, release_parking on T or I)".
pub fn source_is_a_core(line: &EventLine) -> bool {
    let releases = line.event == "release" || line.event == "release_parking";
    core_event(line).is_some() || (is_process(line.target_type) && releases)
}

/// Whether the core rule allows the line. `first_seen`: no T or I line has had
/// this instance as its target before.
pub fn is_allowed(event: CoreEvent, core: CoreStatus, instance: InstanceId, first_seen: bool) -> bool {
    match event {
        CoreEvent::Takes => core == CoreStatus::Unknown || core == CoreStatus::Idle,
        // "For these six, an unknown core also serves if the instance is seen
        // for the first time."
        CoreEvent::Leaves | CoreEvent::Stays => {
            core == CoreStatus::Held(instance) || (core == CoreStatus::Unknown && first_seen)
        }
    }
}

/// What the core is after an allowed line.
pub fn status_after(event: CoreEvent, instance: InstanceId) -> CoreStatus {
    match event {
        CoreEvent::Takes | CoreEvent::Stays => CoreStatus::Held(instance),
        CoreEvent::Leaves => CoreStatus::Idle,
    }
}

#[cfg(test)]
mod tests {
    use super::*;

    const THIS: InstanceId = InstanceId { name_place: 0, number: 7 };
    const OTHER: InstanceId = InstanceId { name_place: 0, number: 8 };

    #[test]
    fn taking_needs_a_core_that_nobody_holds() {
        for first_seen in [false, true] {
            assert!(is_allowed(CoreEvent::Takes, CoreStatus::Unknown, THIS, first_seen));
            assert!(is_allowed(CoreEvent::Takes, CoreStatus::Idle, THIS, first_seen));
            assert!(!is_allowed(CoreEvent::Takes, CoreStatus::Held(THIS), THIS, first_seen));
            assert!(!is_allowed(CoreEvent::Takes, CoreStatus::Held(OTHER), THIS, first_seen));
        }
    }

    #[test]
    fn leaving_and_staying_need_this_instance_there() {
        for event in [CoreEvent::Leaves, CoreEvent::Stays] {
            for first_seen in [false, true] {
                assert!(is_allowed(event, CoreStatus::Held(THIS), THIS, first_seen));
                assert!(!is_allowed(event, CoreStatus::Held(OTHER), THIS, first_seen));
                assert!(!is_allowed(event, CoreStatus::Idle, THIS, first_seen));
                assert_eq!(is_allowed(event, CoreStatus::Unknown, THIS, first_seen), first_seen);
            }
        }
    }
}
