//! The words of fields 4 and 7: types, and the events of each type.

/// The eight types of document 000, sections 2.3.1 to 2.3.7.
#[derive(Clone, Copy, Debug, PartialEq, Eq)]
pub enum TargetType {
    Stimulus,
    Task,
    Interrupt,
    Runnable,
    Scheduler,
    OsEvent,
    Signal,
    Semaphore,
}

pub const TYPE_WORDS: [(&str, TargetType); 8] = [
    ("STI", TargetType::Stimulus),
    ("T", TargetType::Task),
    ("I", TargetType::Interrupt),
    ("R", TargetType::Runnable),
    ("SCHED", TargetType::Scheduler),
    ("EVENT", TargetType::OsEvent),
    ("SIG", TargetType::Signal),
    ("SEM", TargetType::Semaphore),
];

/// "Types and events are those of 000's sections 2.3.1 to 2.3.7" and
/// "mtalimitexceeded is an event of T only, interrupt_suspended of I only."
pub fn events_of(target_type: TargetType) -> &'static [&'static str] {
    match target_type {
        TargetType::Stimulus => &["trigger"],
        TargetType::Task => &[
            "activate", "mtalimitexceeded", "park", "poll", "poll_parking", "preempt", "release",
            "release_parking", "resume", "run", "start", "terminate", "wait",
        ],
        TargetType::Interrupt => &[
            "activate", "interrupt_suspended", "park", "poll", "poll_parking", "preempt",
            "release", "release_parking", "resume", "run", "start", "terminate", "wait",
        ],
        TargetType::Runnable => &["resume", "start", "suspend", "terminate"],
        TargetType::Scheduler => &["schedule", "schedulepoint"],
        TargetType::OsEvent => &["clear_event", "set_event", "wait_event"],
        TargetType::Signal => &["read", "write"],
        TargetType::Semaphore => &[
            "assigned", "decrement", "free", "full", "increment", "lock", "lock_used", "overfull",
            "queued", "released", "requestsemaphore", "unlock", "unlock_full", "used", "waiting",
        ],
    }
}

/// Answer 6: "type unknown, or event not one of that type"; "other bytes there
/// are 6". Nothing is handed back where 6 applies.
pub fn read_type_and_event(
    type_field: &[u8],
    event_field: &[u8],
) -> Option<(TargetType, &'static str)> {
    let (_, target_type) = TYPE_WORDS
        .into_iter()
        .find(|(word, _)| word.as_bytes() == type_field)?;
    let event = events_of(target_type)
        .iter()
        .find(|event| event.as_bytes() == event_field)?;
    Some((target_type, event))
}

/// A process is a task or an interrupt routine.
pub fn is_process(target_type: TargetType) -> bool {
    target_type == TargetType::Task || target_type == TargetType::Interrupt
}

#[cfg(test)]
mod tests {
    use super::*;

    #[test]
    fn every_event_is_known_under_its_type_only() {
        assert!(read_type_and_event(b"T", b"mtalimitexceeded").is_some());
        assert!(read_type_and_event(b"I", b"mtalimitexceeded").is_none());
        assert!(read_type_and_event(b"I", b"interrupt_suspended").is_some());
        assert!(read_type_and_event(b"T", b"interrupt_suspended").is_none());
        assert!(read_type_and_event(b"R", b"preempt").is_none());
        assert!(read_type_and_event(b"T", b"suspend").is_none());
    }

    #[test]
    fn the_number_of_events_is_that_of_the_sections() {
        let counts: Vec<usize> = TYPE_WORDS.iter().map(|(_, kind)| events_of(*kind).len()).collect();
        assert_eq!(counts, [1, 13, 13, 4, 2, 3, 2, 15]);
    }

    #[test]
    fn other_bytes_are_unknown() {
        for word in [&b""[..], b"t", b"ISR", b"T\0", b"T ", b"\xc3\xa4"] {
            assert!(read_type_and_event(word, b"start").is_none());
            assert!(read_type_and_event(b"T", word).is_none());
        }
    }
}
