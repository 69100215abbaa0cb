//! The events of each type, and for each one all that document 01 demands of
//! its lines, with document 02's requests (No. 1: overfull). What depends on the
//! lines before is in `history.rs`, No. 5 and No. 7 with it.

/// The five kinds of tracked names.
#[derive(Clone, Copy, Debug, PartialEq, Eq)]
pub enum Kind {
    Core,
    Task,
    Interrupt,
    Runnable,
    Semaphore,
}

/// What a line does to the core that is its source.
#[derive(Clone, Copy, Debug, PartialEq, Eq)]
pub enum CoreUse {
    None,
    /// An idle core becomes held.
    Takes,
    /// A held core becomes idle.
    Leaves,
    /// A held core stays held.
    Stays,
}

#[derive(Clone, Copy, Debug, PartialEq, Eq)]
pub enum Note {
    Barred,
    /// Required, a count.
    Count,
    /// Required, a name.
    Name,
    /// May stand there, a signal's value.
    Value,
}

/// States are single bits, so that an event can leave several. What isn't known
/// yet is all of them.
pub type States = u8;
pub const ANY: States = 255;

/// The state of processes and runnables that may need no entry.
pub const TERMINATED: States = 1;

#[derive(Clone, Copy, Debug)]
pub struct Rule {
    /// What the target is tracked as.
    pub target: Option<Kind>,
    /// The chart's step. An event that enters no state leaves it as it is.
    pub leaves: States,
    pub enters: States,
    pub core: CoreUse,
    /// It activates its instance, whose number is the one before plus 1.
    pub series: bool,
    /// What is added, wrapping, to the count of the semaphore's line before.
    pub change: u64,
    pub least_count: u64,
    pub most_count: u64,
    pub note: Note,
    pub source_instance_is_0: bool,
    pub target_instance_is_0: bool,
    pub source_is_target: bool,
}

/// An event that only moves the time.
const PLAIN: Rule = Rule {
    target: None,
    leaves: ANY,
    enters: 0,
    core: CoreUse::None,
    series: false,
    change: 0,
    least_count: 0,
    most_count: u64::MAX,
    note: Note::Barred,
    source_instance_is_0: false,
    target_instance_is_0: false,
    source_is_target: false,
};

/// A rule with the type and the event that it is for.
pub type Row = (&'static str, &'static str, Rule);

/// All events of document 000, sections 2.3.1 to 2.3.7.
pub fn all() -> Vec<Row> {
    let mut rows = vec![("STI", "trigger", PLAIN)];
    rows.extend(processes("T", Kind::Task));
    rows.extend(processes("I", Kind::Interrupt));
    rows.extend(runnables());
    rows.extend(schedulers());
    rows.extend(system_events());
    rows.extend(signals());
    rows.extend(semaphore_requests());
    rows.extend(semaphore_states());
    rows
}

fn processes(of: &'static str, kind: Kind) -> Vec<Row> {
    const ACTIVE: States = 2;
    const RUNNING: States = 4;
    const READY: States = 8;
    const WAITING: States = 16;
    const POLLING: States = 32;
    const PARKING: States = 64;
    let step = |leaves, enters| Rule { target: Some(kind), leaves, enters, ..PLAIN };
    let activating = |leaves, enters| Rule { series: true, ..step(leaves, enters) };
    let by_core = |leaves, enters, core| Rule { core, source_instance_is_0: true, ..step(leaves, enters) };
    let mut rows = vec![
        (of, "activate", activating(TERMINATED, ACTIVE)),
        (of, "start", by_core(ACTIVE, RUNNING, CoreUse::Takes)),
        (of, "preempt", by_core(RUNNING, READY, CoreUse::Leaves)),
        (of, "resume", by_core(READY, RUNNING, CoreUse::Takes)),
        (of, "wait", by_core(RUNNING, WAITING, CoreUse::Leaves)),
        (of, "release", by_core(WAITING, READY, CoreUse::None)),
        (of, "terminate", by_core(RUNNING, TERMINATED, CoreUse::Leaves)),
        (of, "poll", by_core(RUNNING, POLLING, CoreUse::Stays)),
        (of, "run", by_core(POLLING, RUNNING, CoreUse::Stays)),
        (of, "park", by_core(POLLING, PARKING, CoreUse::Leaves)),
        (of, "poll_parking", by_core(PARKING, POLLING, CoreUse::Takes)),
        (of, "release_parking", by_core(PARKING, READY, CoreUse::None)),
    ];
    rows.push(match kind {
        Kind::Task => (of, "mtalimitexceeded", activating(TERMINATED, TERMINATED)),
        _ => (of, "interrupt_suspended", by_core(ACTIVE, ACTIVE, CoreUse::None)),
    });
    rows
}

fn runnables() -> Vec<Row> {
    const RUNNING: States = 2;
    const SUSPENDED: States = 4;
    let step = |leaves, enters| Rule { target: Some(Kind::Runnable), leaves, enters, ..PLAIN };
    vec![
        ("R", "start", Rule { series: true, ..step(TERMINATED, RUNNING) }),
        ("R", "suspend", step(RUNNING, SUSPENDED)),
        ("R", "resume", step(SUSPENDED, RUNNING)),
        ("R", "terminate", step(RUNNING, TERMINATED)),
    ]
}

fn schedulers() -> Vec<Row> {
    let point = Rule { target_instance_is_0: true, ..PLAIN };
    let schedule = Rule { source_instance_is_0: true, source_is_target: true, ..point };
    vec![("SCHED", "schedule", schedule), ("SCHED", "schedulepoint", point)]
}

fn system_events() -> Vec<Row> {
    let plain = Rule { target_instance_is_0: true, ..PLAIN };
    vec![
        ("EVENT", "clear_event", plain),
        ("EVENT", "set_event", Rule { note: Note::Name, ..plain }),
        ("EVENT", "wait_event", plain),
    ]
}

fn signals() -> Vec<Row> {
    let rule = Rule { target_instance_is_0: true, note: Note::Value, ..PLAIN };
    vec![("SIG", "read", rule), ("SIG", "write", rule)]
}

const SEMAPHORE: Rule = Rule { target: Some(Kind::Semaphore), target_instance_is_0: true, note: Note::Count, ..PLAIN };

fn semaphore_requests() -> Vec<Row> {
    let add_1 = Rule { change: 1, least_count: 1, ..SEMAPHORE };
    let take_1 = Rule { change: u64::MAX, ..SEMAPHORE };
    vec![
        ("SEM", "requestsemaphore", SEMAPHORE),
        ("SEM", "queued", SEMAPHORE),
        ("SEM", "assigned", SEMAPHORE),
        ("SEM", "waiting", SEMAPHORE),
        ("SEM", "released", SEMAPHORE),
        ("SEM", "increment", add_1),
        ("SEM", "decrement", take_1),
    ]
}

fn semaphore_states() -> Vec<Row> {
    const FREE: States = 1;
    const USED: States = 2;
    const FULL: States = 4;
    const OVERFULL: States = 8;
    const MANY: u64 = u64::MAX;
    let step = |leaves, enters, least_count, most_count| Rule {
        leaves,
        enters,
        least_count,
        most_count,
        source_instance_is_0: true,
        source_is_target: true,
        ..SEMAPHORE
    };
    vec![
        ("SEM", "free", step(USED, FREE, 0, 0)),
        ("SEM", "unlock", step(FULL, FREE, 0, 0)),
        ("SEM", "lock", step(FREE, FULL, 1, 1)),
        ("SEM", "lock_used", step(USED, FULL, 1, MANY)),
        ("SEM", "full", step(OVERFULL, FULL, 1, MANY)),
        ("SEM", "overfull", step(FULL | OVERFULL, OVERFULL, 2, MANY)),
        ("SEM", "unlock_full", step(FULL, USED, 1, MANY)),
        ("SEM", "used", step(FREE | USED, USED, 1, MANY)),
    ]
}
