//! The charts as the maker of valid traces walks them: by state. They are
//! written apart from the reader's tables, so that a slip in one of the two
//! shows as a valid trace that is refused.

pub type Step = (&'static str, &'static str);

pub const PROCESS_STATES: [&str; 7] =
    ["TERMINATED", "ACTIVE", "RUNNING", "READY", "WAITING", "POLLING", "PARKING"];

pub const RUNNABLE_STATES: [&str; 3] = ["TERMINATED", "RUNNING", "SUSPENDED"];

pub const SEMAPHORE_STATES: [&str; 4] = ["FREE", "USED", "FULL", "OVERFULL"];

pub const REQUEST_EVENTS: [&str; 7] =
    ["requestsemaphore", "queued", "assigned", "waiting", "released", "increment", "decrement"];

/// Events and the states they enter, for a process of type T or I.
pub fn process_steps(type_word: &str, state: &str) -> Vec<Step> {
    match (state, type_word) {
        ("TERMINATED", "T") => vec![("activate", "ACTIVE"), ("mtalimitexceeded", "TERMINATED")],
        ("TERMINATED", _) => vec![("activate", "ACTIVE")],
        ("ACTIVE", "I") => vec![("start", "RUNNING"), ("interrupt_suspended", "ACTIVE")],
        ("ACTIVE", _) => vec![("start", "RUNNING")],
        ("RUNNING", _) => vec![
            ("preempt", "READY"),
            ("wait", "WAITING"),
            ("terminate", "TERMINATED"),
            ("poll", "POLLING"),
        ],
        ("READY", _) => vec![("resume", "RUNNING")],
        ("WAITING", _) => vec![("release", "READY")],
        ("POLLING", _) => vec![("run", "RUNNING"), ("park", "PARKING")],
        _ => vec![("poll_parking", "POLLING"), ("release_parking", "READY")],
    }
}

pub fn runnable_steps(state: &str) -> Vec<Step> {
    match state {
        "TERMINATED" => vec![("start", "RUNNING")],
        "RUNNING" => vec![("suspend", "SUSPENDED"), ("terminate", "TERMINATED")],
        _ => vec![("resume", "RUNNING")],
    }
}

pub fn semaphore_steps(state: &str) -> Vec<Step> {
    match state {
        "FREE" => vec![("lock", "FULL"), ("used", "USED")],
        "USED" => vec![("free", "FREE"), ("lock_used", "FULL"), ("used", "USED")],
        "FULL" => vec![("unlock", "FREE"), ("overfull", "OVERFULL"), ("unlock_full", "USED")],
        _ => vec![("full", "FULL"), ("overfull", "OVERFULL")],
    }
}

pub fn all_process_steps(type_word: &str) -> Vec<Step> {
    PROCESS_STATES.iter().flat_map(|state| process_steps(type_word, state)).collect()
}

pub fn all_runnable_steps() -> Vec<Step> {
    RUNNABLE_STATES.iter().flat_map(|state| runnable_steps(state)).collect()
}

pub fn all_semaphore_steps() -> Vec<Step> {
    SEMAPHORE_STATES.iter().flat_map(|state| semaphore_steps(state)).collect()
}

/// Events that need a core nobody holds.
pub fn takes_core(event: &str) -> bool {
    ["start", "resume", "poll_parking"].contains(&event)
}

/// Events that need the core on which the instance is.
pub fn needs_own_core(event: &str) -> bool {
    ["preempt", "wait", "park", "terminate", "poll", "run"].contains(&event)
}

pub fn leaves_core(event: &str) -> bool {
    ["preempt", "wait", "park", "terminate"].contains(&event)
}

pub fn counts_up(event: &str) -> bool {
    ["activate", "mtalimitexceeded"].contains(&event)
}

/// The counts that a semaphore's line may bear after a line with `last`.
pub fn count_is_right(event: &str, last: Option<u32>, count: u32) -> bool {
    let follows = match (event, last) {
        (_, None) => true,
        ("increment", Some(last)) => last.checked_add(1) == Some(count),
        ("decrement", Some(last)) => last.checked_sub(1) == Some(count),
        (_, Some(last)) => last == count,
    };
    let (least, most) = match event {
        "free" | "unlock" => (0, 0),
        "lock" => (1, 1),
        "used" | "unlock_full" | "lock_used" | "full" | "increment" => (1, u32::MAX),
        "overfull" => (2, u32::MAX),
        _ => (0, u32::MAX),
    };
    follows && (least..=most).contains(&count)
}
