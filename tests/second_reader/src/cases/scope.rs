//! Document 01: "Examples on each side".

use super::{accepted, after_prelude, refused, Case, EMPTY_SHEET, PRELUDE};

pub fn cases() -> Vec<Case> {
    let mut cases = ends_of_traces();
    cases.extend(single_lines());
    cases.extend(several_lines());
    cases.extend(sizes());
    cases
}

fn ends_of_traces() -> Vec<Case> {
    vec![
        refused("scope-empty-trace", "", 2, 1),
        refused("scope-version-only", "#version 2.2.0\n", 4, 2),
        accepted("scope-scale-and-no-event", PRELUDE, 0, &EMPTY_SHEET),
    ]
}

fn single_lines() -> Vec<Case> {
    let held_for_no_time = ["cores 1", "Core_1 0 0 0", "processes 1", "Task_A 0"];
    vec![
        accepted("scope-start", after_prelude(&["100,Core_1,0,T,Task_A,0,start"]), 0, &held_for_no_time),
        refused("scope-comma-at-end", after_prelude(&["100,Core_1,0,T,Task_A,0,start,"]), 5, 3),
        refused("scope-leading-zero", after_prelude(&["0100,Core_1,0,T,Task_A,0,start"]), 5, 3),
        accepted("scope-latest-time", after_prelude(&["72057594037927935,Core_1,0,T,Task_A,0,start"]), 0, &held_for_no_time),
        refused("scope-time-too-late", after_prelude(&["72057594037927936,Core_1,0,T,Task_A,0,start"]), 5, 3),
        refused("scope-source-instance-1", after_prelude(&["100,Core_1,1,T,Task_A,0,start"]), 7, 3),
        accepted("scope-resume-first", after_prelude(&["100,Core_1,0,T,Task_A,0,resume"]), 0, &held_for_no_time),
    ]
}

fn several_lines() -> Vec<Case> {
    vec![
        refused(
            "scope-two-tasks-on-one-core",
            after_prelude(&["100,Core_1,0,T,Task_A,0,start", "100,Core_1,0,T,Task_B,0,start"]),
            13,
            4,
        ),
        refused(
            "scope-started-twice",
            after_prelude(&["100,Core_1,0,T,Task_A,0,start", "100,Core_1,0,T,Task_A,0,start"]),
            11,
            4,
        ),
        refused(
            "scope-activate-3-then-5",
            after_prelude(&["100,S,0,T,Task_A,3,activate", "100,S,1,T,Task_A,5,activate"]),
            12,
            4,
        ),
        // "Stopping the charge at poll: POLLING still holds the core."
        accepted(
            "scope-polling-holds-the-core",
            after_prelude(&[
                "0,C,0,T,A,0,start",
                "10,C,0,T,A,0,poll",
                "30,C,0,T,A,0,park",
                "70,C,0,T,A,0,poll_parking",
                "150,C,0,T,A,0,run",
                "310,C,0,T,A,0,terminate",
            ]),
            310,
            &["cores 1", "C 270 40 0", "processes 1", "A 270"],
        ),
        // "Dropping a terminated instance, so that its next event counts as a
        // first one."
        refused(
            "scope-terminated-instance-is-kept",
            after_prelude(&["0,C,0,T,A,0,start", "1,C,0,T,A,0,terminate", "2,C,0,T,A,0,resume"]),
            11,
            5,
        ),
    ]
}

fn sizes() -> Vec<Case> {
    let start_of = |name: &str| after_prelude(&[format!("0,S,0,R,{name},0,start").as_str()]);
    vec![
        accepted("scope-name-of-64", start_of(&"n".repeat(64)), 0, &EMPTY_SHEET),
        refused("scope-name-of-65", start_of(&"n".repeat(65)), 5, 3),
        accepted("scope-256-names", semaphores(256), 0, &EMPTY_SHEET),
        refused("scope-257-names", semaphores(257), 10, 259),
    ]
}

/// A trace that tracks so many names and nothing else.
fn semaphores(count: usize) -> Vec<u8> {
    let lines: Vec<String> = (0..count).map(|k| format!("0,P,0,SEM,s{k},0,queued,1")).collect();
    after_prelude(&lines.iter().map(String::as_str).collect::<Vec<_>>())
}
