//! Document 02: the requests that have landed, and what was settled about them.

use super::{accepted, after_prelude, long_runs, old_instances, refused, Case, EMPTY_SHEET};

pub fn cases() -> Vec<Case> {
    let mut cases = third_waiter();
    cases.extend(old_instances::cases());
    cases.extend(long_runs::cases());
    cases
}

/// No. 1: "The chart row in 01 becomes: overfull FULL or OVERFULL→OVERFULL."
fn third_waiter() -> Vec<Case> {
    let (full, overfull) = ("0,S,0,SEM,S,0,full,2", "0,S,0,SEM,S,0,overfull,2");
    vec![
        crane(),
        accepted("request-1-overfull-after-full", after_prelude(&[full, overfull]), 0, &EMPTY_SHEET),
        accepted("request-1-overfull-twice", after_prelude(&[overfull, overfull]), 0, &EMPTY_SHEET),
        accepted("request-1-full-after-overfull-twice", after_prelude(&[overfull, overfull, full]), 0, &EMPTY_SHEET),
        refused("request-1-overfull-after-used", after_prelude(&["0,S,0,SEM,S,0,used,2", overfull]), 11, 4),
        refused(
            "request-1-overfull-after-free",
            after_prelude(&["0,S,0,SEM,S,0,free,0", "0,P,0,SEM,S,0,increment,1", "0,P,0,SEM,S,0,increment,2", overfull]),
            11,
            6,
        ),
        refused("request-1-used-after-overfull-twice", after_prelude(&[overfull, overfull, "0,S,0,SEM,S,0,used,2"]), 11, 5),
        refused("request-1-overfull-with-another-count", after_prelude(&[overfull, "0,S,0,SEM,S,0,overfull,3"]), 14, 4),
        refused(
            "request-1-overfull-of-one",
            after_prelude(&[overfull, "0,P,0,SEM,S,0,decrement,1", "0,S,0,SEM,S,0,overfull,1"]),
            14,
            5,
        ),
    ]
}

/// "A harbour crane firm has a semaphore with two waiting processes. Its
/// recorder reports overfull at the second waiter again, and again when one
/// user leaves while others still wait."
fn crane() -> Case {
    accepted(
        "request-1-harbour-crane",
        after_prelude(&[
            "0,Bus,0,SEM,Bus,0,free,0",
            "10,Hoist,1,SEM,Bus,0,requestsemaphore,0",
            "10,Hoist,1,SEM,Bus,0,increment,1",
            "10,Hoist,1,SEM,Bus,0,queued,1",
            "10,Bus,0,SEM,Bus,0,lock,1",
            "10,Hoist,1,SEM,Bus,0,assigned,1",
            "20,Slew,1,SEM,Bus,0,requestsemaphore,1",
            "20,Slew,1,SEM,Bus,0,increment,2",
            "20,Slew,1,SEM,Bus,0,queued,2",
            "20,Bus,0,SEM,Bus,0,overfull,2",
            "20,Slew,1,SEM,Bus,0,waiting,2",
            "30,Trolley,1,SEM,Bus,0,requestsemaphore,2",
            "30,Trolley,1,SEM,Bus,0,increment,3",
            "30,Trolley,1,SEM,Bus,0,queued,3",
            "30,Bus,0,SEM,Bus,0,overfull,3",
            "30,Trolley,1,SEM,Bus,0,waiting,3",
            "40,Hoist,1,SEM,Bus,0,released,3",
            "40,Hoist,1,SEM,Bus,0,decrement,2",
            "40,Bus,0,SEM,Bus,0,overfull,2",
            "40,Slew,1,SEM,Bus,0,assigned,2",
            "50,Slew,1,SEM,Bus,0,released,2",
            "50,Slew,1,SEM,Bus,0,decrement,1",
            "50,Bus,0,SEM,Bus,0,full,1",
            "50,Trolley,1,SEM,Bus,0,assigned,1",
            "60,Trolley,1,SEM,Bus,0,released,1",
            "60,Trolley,1,SEM,Bus,0,decrement,0",
            "60,Bus,0,SEM,Bus,0,unlock,0",
        ]),
        60,
        &EMPTY_SHEET,
    )
}
