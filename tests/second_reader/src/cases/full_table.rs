//! Document 02, No. 7, with all 1,024 entries needed and with one of them free:
//! the same line on both sides. These traces have a thousand lines each, so
//! they are tests alone and no part of the sample.

use self::Answer::{Refused, Taken};
use super::{accepted, after_prelude, living, refused, Case, EMPTY_SHEET};

const ENTRIES: usize = 1_024;

const TASK: [&str; 3] = ["cores 0", "processes 1", "A 0"];
const TASK_ON_A_CORE: [&str; 4] = ["cores 1", "C 0 0 0", "processes 1", "A 0"];

/// Instance 4 of task A, from its activation to its end.
const ACTIVATED: &str = "0,S,0,T,A,4,activate";
const STARTED: &str = "0,C,0,T,A,4,start";
const ENDED: &str = "0,C,0,T,A,4,terminate";
const WHOLE_LIFE: [&str; 3] = [ACTIVATED, STARTED, ENDED];

/// The same of runnable q.
const RUNNABLE_LIFE: [&str; 2] = ["0,P,0,R,q,4,start", "0,P,0,R,q,4,terminate"];

#[derive(Clone, Copy)]
enum Answer<'a> {
    /// With this sheet.
    Taken(&'a [&'a str]),
    Refused(u8),
}

pub fn cases() -> Vec<Case> {
    let mut cases = events_of_absent_ones();
    cases.extend(activations_of_absent_ones());
    cases.extend(next_activations());
    cases.extend(activations_below());
    cases.extend(first_activations());
    cases.extend(limits());
    cases.extend(first_events());
    cases.extend(what_keeps_its_entry());
    cases.extend(what_needs_none());
    cases.extend(order_of_answers());
    cases
}

/// The lines before, which need so many entries, then living instances up to
/// that many entries, and the last line.
fn at(entries: usize, label: &str, (before, needed): (&[&str], usize), last: &str, answer: Answer) -> Case {
    let others = living(entries - needed);
    let mut lines = before.to_vec();
    lines.extend(others.iter().map(String::as_str));
    lines.push(last);
    let trace = after_prelude(&lines);
    let label = format!("request-7-{label}-at-{entries}");
    match answer {
        Taken(sheet) => accepted(&label, trace, 0, sheet),
        Refused(number) => refused(&label, trace, number, 2 + lines.len() as u64),
    }
}

/// With no entry free, and with one.
fn sides(label: &str, before: (&[&str], usize), last: &str, full: Answer, one_free: Answer) -> [Case; 2] {
    [at(ENTRIES, label, before, last, full), at(ENTRIES - 1, label, before, last, one_free)]
}

/// Room makes no difference.
fn alike(label: &str, before: (&[&str], usize), last: &str, answer: Answer) -> [Case; 2] {
    sides(label, before, last, answer, answer)
}

/// "absent means terminated or never activated, so a non-activating event of it
/// is 11 [..] Neither needs room".
fn events_of_absent_ones() -> Vec<Case> {
    let mut cases = Vec::new();
    for event in ["start", "resume", "preempt", "terminate", "run", "release", "release_parking"] {
        let ended = format!("0,C,0,T,A,4,{event}");
        cases.extend(alike(&format!("{event}-of-one-that-ended"), (&WHOLE_LIFE, 0), &ended, Refused(11)));
        let never = format!("0,C,0,T,A,9,{event}");
        cases.extend(alike(&format!("{event}-of-one-never-activated"), (&[ACTIVATED], 1), &never, Refused(11)));
    }
    for event in ["resume", "suspend", "terminate"] {
        let ended = format!("0,P,0,R,q,4,{event}");
        cases.extend(alike(&format!("runnable-{event}-of-one-that-ended"), (&RUNNABLE_LIFE, 0), &ended, Refused(11)));
        let never = format!("0,P,0,R,q,5,{event}");
        cases.extend(alike(&format!("runnable-{event}-of-one-never-started"), (&RUNNABLE_LIFE, 0), &never, Refused(11)));
    }
    let routine = (&["0,S,0,I,A,4,activate"][..], 1);
    cases.extend(alike("suspended-and-never-activated", routine, "0,S,0,I,A,5,interrupt_suspended", Refused(11)));
    cases
}

/// "an activating one other than the next 12".
fn activations_of_absent_ones() -> Vec<Case> {
    let mut cases = Vec::new();
    for (what, number) in [("the-one-that-ended", 4), ("the-one-after-the-next", 6), ("the-last-there-is", u32::MAX)] {
        let activate = format!("0,S,0,T,A,{number},activate");
        cases.extend(alike(&format!("activate-{what}"), (&WHOLE_LIFE, 0), &activate, Refused(12)));
        let start = format!("0,P,0,R,q,{number},start");
        cases.extend(alike(&format!("start-{what}"), (&RUNNABLE_LIFE, 0), &start, Refused(12)));
    }
    let last = ["0,P,0,R,q,4294967295,start", "0,P,0,R,q,4294967295,terminate"];
    cases.extend(alike("start-the-last-again", (&last, 0), last[0], Refused(12)));
    cases.extend(sides("no-next-after-the-last", (&last, 0), "0,P,0,R,q,0,start", Refused(10), Refused(12)));
    cases
}

/// The next activation needs an entry, whatever became of those before it.
fn next_activations() -> Vec<Case> {
    let (five, routine) = ("0,S,0,T,A,5,activate", ["0,S,0,I,A,4,activate"]);
    let mut cases = Vec::new();
    cases.extend(sides("next-after-one-that-lives", (&[ACTIVATED], 1), five, Refused(10), Taken(&TASK)));
    cases.extend(sides("next-after-one-that-ended", (&WHOLE_LIFE, 0), five, Refused(10), Taken(&TASK_ON_A_CORE)));
    cases.extend(sides("next-start", (&RUNNABLE_LIFE, 0), "0,P,0,R,q,5,start", Refused(10), Taken(&EMPTY_SHEET)));
    cases.extend(sides("next-of-a-routine", (&routine, 1), "0,S,0,I,A,5,activate", Refused(10), Taken(&TASK)));
    cases.extend(sides("first-of-a-new-name", (&[], 0), ACTIVATED, Refused(10), Taken(&TASK)));
    cases
}

/// "an activate below f of an unseen instance is 10": below f absent doesn't
/// mean ended, so it would need an entry.
fn activations_below() -> Vec<Case> {
    let three = "0,S,0,T,A,3,activate";
    let (ended, lives) = (["0,C,0,T,A,3,terminate", ACTIVATED], ["0,C,0,T,A,3,release", ACTIVATED]);
    let runnable = ["0,P,0,R,q,4,start"];
    let mut cases = Vec::new();
    cases.extend(sides("activate-an-unseen-one-below", (&[ACTIVATED], 1), three, Refused(10), Refused(12)));
    cases.extend(sides("start-an-unseen-one-below", (&runnable, 1), "0,P,0,R,q,3,start", Refused(10), Refused(12)));
    cases.extend(alike("activate-an-ended-one-below", (&ended, 2), three, Refused(12)));
    cases.extend(alike("activate-a-living-one-below", (&lives, 2), three, Refused(11)));
    cases
}

/// "a first activate not above all seen, of an unseen instance, is 10".
fn first_activations() -> Vec<Case> {
    let (seen, ended, runnable) = (["0,C,0,T,A,5,release"], ["0,C,0,T,A,5,terminate"], ["0,P,0,R,q,5,resume"]);
    let (four, five, six) = (ACTIVATED, "0,S,0,T,A,5,activate", "0,S,0,T,A,6,activate");
    let mut cases = Vec::new();
    cases.extend(sides("first-activate-below-one-seen", (&seen, 1), four, Refused(10), Refused(12)));
    cases.extend(sides("first-activate-below-one-ended", (&ended, 1), four, Refused(10), Refused(12)));
    cases.extend(sides("first-activate-above", (&seen, 1), six, Refused(10), Taken(&TASK)));
    cases.extend(alike("first-activate-of-one-that-lives", (&seen, 1), five, Refused(11)));
    cases.extend(alike("first-activate-of-one-that-ended", (&ended, 1), five, Refused(12)));
    cases.extend(sides("first-start-below", (&runnable, 1), "0,P,0,R,q,4,start", Refused(10), Refused(12)));
    cases.extend(sides("first-start-above", (&runnable, 1), "0,P,0,R,q,6,start", Refused(10), Taken(&EMPTY_SHEET)));
    cases
}

/// "mtalimitexceeded is never 10 for instances."
fn limits() -> Vec<Case> {
    let limit = |number: u32| format!("0,S,0,T,A,{number},mtalimitexceeded");
    let (seen, ended) = (["0,C,0,T,A,5,release"], ["0,C,0,T,A,5,terminate"]);
    let mut cases = Vec::new();
    cases.extend(alike("limit-of-a-new-name", (&[], 0), &limit(4), Taken(&TASK)));
    cases.extend(alike("limit-as-the-next", (&[ACTIVATED], 1), &limit(5), Taken(&TASK)));
    cases.extend(alike("limit-after-the-next", (&[ACTIVATED], 1), &limit(6), Refused(12)));
    cases.extend(alike("limit-of-one-that-lives", (&[ACTIVATED], 1), &limit(4), Refused(11)));
    cases.extend(alike("limit-of-one-that-ended", (&WHOLE_LIFE, 0), &limit(4), Refused(12)));
    cases.extend(alike("limit-below", (&[ACTIVATED], 1), &limit(3), Refused(12)));
    cases.extend(alike("first-limit-above", (&seen, 1), &limit(6), Taken(&TASK)));
    cases.extend(alike("first-limit-below", (&seen, 1), &limit(4), Refused(12)));
    cases.extend(alike("first-limit-of-one-seen", (&seen, 1), &limit(5), Refused(11)));
    cases.extend(alike("first-limit-of-one-ended", (&ended, 1), &limit(5), Refused(12)));
    // It is the first activating number all the same, and the last.
    let first = [limit(4)];
    let first: Vec<&str> = first.iter().map(String::as_str).collect();
    cases.extend(alike("event-above-a-limit", (&first, 0), "0,C,0,T,A,5,release", Refused(11)));
    cases.extend(alike("event-of-the-limit-itself", (&first, 0), STARTED, Refused(11)));
    cases.extend(alike("activate-the-limit-itself", (&first, 0), ACTIVATED, Refused(12)));
    cases.extend(sides("next-after-a-limit", (&first, 0), "0,S,0,T,A,5,activate", Refused(10), Taken(&TASK)));
    cases
}

/// A first event below f, or while there is no f, needs an entry; also an end,
/// since TERMINATED there is not what absent means.
fn first_events() -> Vec<Case> {
    let (seen, runnable) = (["0,C,0,T,A,5,release"], ["0,P,0,R,q,5,start"]);
    let mut cases = Vec::new();
    for event in ["start", "resume", "terminate"] {
        let line = format!("0,C,0,T,A,3,{event}");
        let taken = Taken(&TASK_ON_A_CORE);
        cases.extend(sides(&format!("{event}-below"), (&[ACTIVATED], 1), &line, Refused(10), taken));
        cases.extend(sides(&format!("{event}-without-activation"), (&seen, 1), &line, Refused(10), taken));
        cases.extend(sides(&format!("{event}-of-a-new-name"), (&[], 0), &line, Refused(10), taken));
    }
    for event in ["resume", "terminate"] {
        let line = format!("0,P,0,R,q,4,{event}");
        let taken = Taken(&EMPTY_SHEET);
        cases.extend(sides(&format!("runnable-{event}-below"), (&runnable, 1), &line, Refused(10), taken));
        cases.extend(sides(&format!("runnable-{event}-of-a-new-name"), (&[], 0), &line, Refused(10), taken));
    }
    cases
}

/// The lines before need so many entries exactly: with one free, one more
/// instance of another entity fits, and with none it doesn't.
fn needs(label: &str, before: &[&str], needed: usize, sheet: &[&str]) -> [Case; 2] {
    sides(label, (before, needed), "0,P,0,R,x,0,start", Refused(10), Taken(sheet))
}

/// "TERMINATED below f keeps its entry for ever, also if f came later."
fn what_keeps_its_entry() -> Vec<Case> {
    let (resume, end) = ("0,C,0,T,A,3,resume", "0,C,0,T,A,3,terminate");
    let (old, old_end) = ("0,P,0,R,q,3,resume", "0,P,0,R,q,3,terminate");
    let mut cases = Vec::new();
    cases.extend(needs("ended-without-activation", &[resume, end], 1, &TASK_ON_A_CORE));
    cases.extend(needs("first-seen-at-its-end", &[end], 1, &TASK_ON_A_CORE));
    cases.extend(needs("ended-before-the-activation", &[resume, end, ACTIVATED], 2, &TASK_ON_A_CORE));
    cases.extend(needs("ended-before-the-limit", &[end, "0,S,0,T,A,4,mtalimitexceeded"], 1, &TASK_ON_A_CORE));
    cases.extend(needs("ended-after-the-activation", &[resume, ACTIVATED, end], 2, &TASK_ON_A_CORE));
    cases.extend(needs("ended-below", &[ACTIVATED, end], 2, &TASK_ON_A_CORE));
    cases.extend(needs("ended-below-and-above", &[ACTIVATED, end, STARTED, ENDED], 1, &TASK_ON_A_CORE));
    cases.extend(needs("runnable-ended-without-start", &[old, old_end], 1, &EMPTY_SHEET));
    cases.extend(needs("runnable-ended-before-the-start", &[old_end, RUNNABLE_LIFE[0]], 2, &EMPTY_SHEET));
    cases.extend(needs("runnable-ended-below-and-above", &[RUNNABLE_LIFE[0], old_end, RUNNABLE_LIFE[1]], 1, &EMPTY_SHEET));
    cases
}

/// Only what ends at or above f gives its entry back, and any other state than
/// TERMINATED keeps it.
fn what_needs_none() -> Vec<Case> {
    let mut cases = Vec::new();
    cases.extend(needs("nothing-but-the-others", &[], 0, &EMPTY_SHEET));
    cases.extend(needs("one-that-ended", &WHOLE_LIFE, 0, &TASK_ON_A_CORE));
    cases.extend(needs("one-limit", &["0,S,0,T,A,4,mtalimitexceeded"], 0, &TASK));
    cases.extend(needs("a-runnable-that-ended", &RUNNABLE_LIFE, 0, &EMPTY_SHEET));
    for leaves in ["preempt", "wait", "poll"] {
        let line = format!("0,C,0,T,A,4,{leaves}");
        cases.extend(needs(&format!("one-after-{leaves}"), &[ACTIVATED, STARTED, &line], 1, &TASK_ON_A_CORE));
    }
    let suspended = [RUNNABLE_LIFE[0], "0,P,0,R,q,4,suspend"];
    cases.extend(needs("a-runnable-that-is-suspended", &suspended, 1, &EMPTY_SHEET));
    cases.extend(needs("a-semaphore", &["0,P,0,SEM,s,0,queued,1"], 0, &EMPTY_SHEET));
    cases
}

/// "The lowest number that applies wins".
fn order_of_answers() -> Vec<Case> {
    let held = [ACTIVATED, "0,C,0,T,B,0,start"];
    let mut later = living(ENTRIES);
    later.extend(["7,S,0,STI,S,0,trigger", "6,P,0,R,r,1024,start"].map(String::from));
    let later: Vec<&str> = later.iter().map(String::as_str).collect();
    vec![
        refused("request-7-8-before-10", after_prelude(&later), 8, 1028),
        at(ENTRIES, "9-before-10", (&[ACTIVATED], 1), "0,A,0,T,A,3,resume", Refused(9)),
        at(ENTRIES, "9-before-11", (&[ACTIVATED], 1), "0,A,0,T,A,9,resume", Refused(9)),
        at(ENTRIES, "10-before-13", (&held, 2), "0,C,0,T,A,3,resume", Refused(10)),
        at(ENTRIES - 1, "13-where-it-fits", (&held, 2), "0,C,0,T,A,3,resume", Refused(13)),
        at(ENTRIES, "11-before-13", (&held, 2), "0,C,0,T,A,9,resume", Refused(11)),
    ]
}
