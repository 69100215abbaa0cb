//! Document 02, No. 5: instances that were activated before the trace began,
//! and instances that can't have been.

use super::{accepted, after_prelude, living, refused, Case, EMPTY_SHEET};

const TASK: [&str; 3] = ["cores 0", "processes 1", "A 0"];
const TASK_ON_A_CORE: [&str; 4] = ["cores 1", "C 0 0 0", "processes 1", "A 0"];

pub fn cases() -> Vec<Case> {
    let mut cases = vec![customer(), old_one_lives_on()];
    cases.extend(events_of_tasks());
    cases.extend(events_of_interrupts_and_runnables());
    cases.extend(numbers_of_first_events());
    cases.extend(first_activations());
    cases.extend(first_activations_of_runnables());
    cases.extend(later_activations());
    cases.extend(what_activates());
    cases.extend(what_is_seen());
    cases.extend(order_of_answers());
    cases
}

/// The last of the lines is refused.
fn last_refused(label: &str, lines: &[&str], number: u8) -> Case {
    refused(label, after_prelude(lines), number, 2 + lines.len() as u64)
}

fn taken(label: &str, lines: &[&str], sheet: &[&str]) -> Case {
    accepted(label, after_prelude(lines), 0, sheet)
}

/// "A trace activated instance 4 of a task and then resumed instance 9. 9 can't
/// be an old one."
fn customer() -> Case {
    let lines = ["0,Timer,0,T,A,4,activate", "10,C,0,T,A,9,resume", "20,C,0,T,A,9,terminate"];
    refused("request-5-activated-4-resumed-9", after_prelude(&lines), 11, 4)
}

/// "An instance below f that was never seen stays a first event: activate 4 /
/// resume 3 is taken." It may do what any instance does after that.
fn old_one_lives_on() -> Case {
    accepted(
        "request-5-activated-4-resumed-3",
        after_prelude(&[
            "0,Timer,0,T,A,4,activate",
            "10,C,0,T,A,3,resume",
            "30,C,0,T,A,3,preempt",
            "40,C,0,T,A,4,start",
            "100,C,0,T,A,4,terminate",
            "110,C,0,T,A,3,resume",
            "150,C,0,T,A,3,terminate",
            "150,Timer,0,T,A,5,activate",
        ]),
        150,
        &["cores 1", "C 120 20 10", "processes 1", "A 120"],
    )
}

/// "a non-activating first event of an instance numbered f or more is 11":
/// every event of a task but activate and mtalimitexceeded, on both sides.
fn events_of_tasks() -> Vec<Case> {
    let mut cases = Vec::new();
    for event in ["start", "resume", "poll_parking", "preempt", "wait", "park", "terminate", "poll", "run"] {
        cases.extend(both_sides("T", event, &TASK_ON_A_CORE));
    }
    for event in ["release", "release_parking"] {
        cases.extend(both_sides("T", event, &TASK));
    }
    cases
}

fn both_sides(type_word: &str, event: &str, sheet: &[&str]) -> [Case; 2] {
    let activation = format!("0,S,0,{type_word},A,4,{}", if type_word == "R" { "start" } else { "activate" });
    let line = |number: u32| format!("0,C,0,{type_word},A,{number},{event}");
    let label = |side: &str| format!("request-5-{type_word}-{event}-{side}");
    [
        taken(&label("below"), &[&activation, &line(3)], sheet),
        last_refused(&label("above"), &[&activation, &line(5)], 11),
    ]
}

fn events_of_interrupts_and_runnables() -> Vec<Case> {
    let mut cases = Vec::from(both_sides("I", "interrupt_suspended", &TASK));
    cases.extend(both_sides("I", "resume", &TASK_ON_A_CORE));
    // "Runnables the same, with start."
    for event in ["resume", "suspend", "terminate"] {
        cases.extend(both_sides("R", event, &EMPTY_SHEET));
    }
    cases
}

/// f is the first activating number. The instance f itself has been seen, and so
/// has every later one that was activated: there the chart speaks.
fn numbers_of_first_events() -> Vec<Case> {
    let (four, five) = ("0,S,0,T,A,4,activate", "0,S,0,T,A,5,activate");
    vec![
        // A reading until this request: each instance started in any state.
        last_refused("request-5-activate-3-resume-4", &["0,S,0,T,A,3,activate", "0,C,0,T,A,4,resume"], 11),
        last_refused("request-5-resume-of-the-activated-one", &[four, "0,C,0,T,A,4,resume"], 11),
        last_refused("request-5-above-the-second-activation", &[four, five, "0,C,0,T,A,6,resume"], 11),
        taken("request-5-below-the-first-activation", &[four, five, "0,C,0,T,A,3,resume"], &TASK_ON_A_CORE),
        taken("request-5-zero-below", &[four, "0,C,0,T,A,0,resume"], &TASK_ON_A_CORE),
        last_refused("request-5-none-is-below-zero", &["0,S,0,T,A,0,activate", "0,C,0,T,A,1,resume"], 11),
        taken(
            "request-5-all-are-below-the-largest",
            &["0,S,0,T,A,4294967295,activate", "0,C,0,T,A,4294967294,resume"],
            &TASK_ON_A_CORE,
        ),
        last_refused("request-5-the-largest-is-above", &[four, "0,C,0,T,A,4294967295,resume"], 11),
    ]
}

/// "The first activate or mtalimitexceeded must bear a number above all seen of
/// that process, else 12." "First activation of an instance that was seen: 11 if
/// it lives, 12 if TERMINATED."
fn first_activations() -> Vec<Case> {
    let (release_5, release_8) = ("0,C,0,T,A,5,release", "0,C,0,T,A,8,release");
    let (start_5, terminate_5) = ("0,C,0,T,A,5,start", "0,C,0,T,A,5,terminate");
    let activate = |number: u32| format!("0,S,0,T,A,{number},activate");
    vec![
        last_refused("request-5-activate-one-that-lives", &[start_5, &activate(5)], 11),
        last_refused("request-5-activate-one-that-ended", &[start_5, terminate_5, &activate(5)], 12),
        last_refused("request-5-activate-one-first-seen-at-its-end", &[terminate_5, &activate(5)], 12),
        last_refused("request-5-limit-of-one-that-ended", &[terminate_5, "0,S,0,T,A,5,mtalimitexceeded"], 12),
        last_refused("request-5-activate-below-one-that-lives", &[release_5, &activate(4)], 12),
        last_refused("request-5-activate-below-one-that-ended", &[terminate_5, &activate(4)], 12),
        last_refused("request-5-limit-below", &[release_5, "0,S,0,T,A,4,mtalimitexceeded"], 12),
        taken("request-5-activate-just-above", &[terminate_5, &activate(6)], &TASK_ON_A_CORE),
        taken("request-5-limit-just-above", &[release_5, "0,S,0,T,A,6,mtalimitexceeded"], &TASK),
        taken("request-5-activate-far-above", &[release_5, &activate(4294967295)], &TASK),
        last_refused("request-5-activate-between-two", &[release_8, release_5, &activate(6)], 12),
        last_refused("request-5-activate-between-two-in-order", &[release_5, release_8, &activate(7)], 12),
        taken("request-5-activate-above-two", &[release_8, release_5, &activate(9)], &TASK),
        last_refused("request-5-activate-zero", &["0,C,0,T,A,4294967295,release", &activate(0)], 12),
        last_refused("request-5-nothing-is-above", &["0,C,0,T,A,4294967295,terminate", &activate(4294967295)], 12),
        taken("request-5-activate-when-nothing-was-seen", &[&activate(5)], &TASK),
    ]
}

fn first_activations_of_runnables() -> Vec<Case> {
    let (resume, terminate) = ("0,A,0,R,r,5,resume", "0,A,0,R,r,5,terminate");
    vec![
        last_refused("request-5-start-a-runnable-that-lives", &[resume, "0,A,0,R,r,5,start"], 11),
        last_refused("request-5-start-a-runnable-that-ended", &[terminate, "0,A,0,R,r,5,start"], 12),
        last_refused("request-5-start-a-runnable-below", &[resume, "0,A,0,R,r,4,start"], 12),
        taken("request-5-start-a-runnable-above", &[resume, "0,A,0,R,r,6,start"], &EMPTY_SHEET),
    ]
}

/// "a second or later activate or mtalimitexceeded of one process [..] bears the
/// number of the one before plus 1", as before, whatever was seen below f.
fn later_activations() -> Vec<Case> {
    let (old, four) = ("0,C,0,T,A,3,release", "0,S,0,T,A,4,activate");
    let (five, six) = ("0,S,0,T,A,5,activate", "0,S,0,T,A,6,mtalimitexceeded");
    vec![
        taken("request-5-next-after-an-old-one", &[four, old, five, six], &TASK),
        taken("request-5-old-one-before-the-series", &[old, four, five, six], &TASK),
        last_refused("request-5-not-the-next-after-an-old-one", &[old, four, six], 12),
        last_refused(
            "request-5-old-one-is-not-activated-later",
            &[four, "0,C,0,T,A,3,terminate", "0,S,0,T,A,3,activate"],
            12,
        ),
        last_refused("request-5-one-below-is-not-activated-later", &[four, "0,S,0,T,A,3,activate"], 12),
    ]
}

/// "interrupt_suspended and a process's start don't activate." mtalimitexceeded
/// does.
fn what_activates() -> Vec<Case> {
    let (start, limit) = ("0,C,0,T,A,5,start", "0,S,0,T,A,4,mtalimitexceeded");
    let suspended = "0,C,0,I,A,5,interrupt_suspended";
    let two_cores = ["cores 2", "C 0 0 0", "D 0 0 0", "processes 1", "A 0"];
    vec![
        taken("request-5-start-binds-nothing-above", &[start, "0,D,0,T,A,9,resume"], &two_cores),
        taken("request-5-activate-after-start", &[start, "0,S,0,T,A,6,activate"], &TASK_ON_A_CORE),
        last_refused("request-5-activate-below-start", &[start, "0,S,0,T,A,4,activate"], 12),
        taken("request-5-interrupt_suspended-binds-nothing-above", &[suspended, "0,C,0,I,A,9,release"], &TASK),
        taken("request-5-activate-after-interrupt_suspended", &[suspended, "0,S,0,I,A,6,activate"], &TASK),
        last_refused("request-5-activate-the-interrupt_suspended", &[suspended, "0,S,0,I,A,5,activate"], 11),
        last_refused("request-5-limit-binds-above", &[limit, "0,C,0,T,A,9,resume"], 11),
        taken("request-5-limit-leaves-free-below", &[limit, "0,C,0,T,A,3,resume"], &TASK_ON_A_CORE),
        last_refused("request-5-resume-of-the-limit-itself", &[limit, "0,C,0,T,A,4,resume"], 11),
    ]
}

/// "of that process", and "Seen": target of a T or I line (R line, for a
/// runnable).
fn what_is_seen() -> Vec<Case> {
    let (four, nine) = ("0,S,0,T,A,4,activate", "0,C,0,T,A,9,resume");
    let two_tasks = ["cores 1", "C 0 0 0", "processes 2", "A 0", "B 0"];
    vec![
        taken("request-5-another-task-may-be-old", &[four, "0,C,0,T,B,9,resume"], &two_tasks),
        taken("request-5-another-task-was-seen", &[nine, "0,S,0,T,B,4,activate"], &two_tasks),
        taken("request-5-a-runnable-was-started", &["0,A,0,R,r,4,start", nine], &TASK_ON_A_CORE),
        taken("request-5-another-runnable-may-be-old", &["0,A,0,R,r,4,start", "0,A,0,R,q,9,resume"], &EMPTY_SHEET),
        taken("request-5-another-runnable-was-seen", &["0,A,0,R,r,9,resume", "0,A,0,R,q,4,start"], &EMPTY_SHEET),
        taken("request-5-a-runnables-source-is-not-seen", &["0,A,9,R,r,0,start", four], &TASK),
        taken("request-5-a-request-source-is-not-seen", &["0,A,9,SEM,s,0,queued,1", four], &TASK),
        taken("request-5-a-trigger-target-is-not-seen", &["0,S,0,STI,A,9,trigger", four], &TASK),
    ]
}

/// "The lowest number that applies wins". Where 1,024 instances need an entry, an
/// impossible one is still 11, since No. 7 asks no room for it; 10 comes before
/// 12 where the line would need room.
fn order_of_answers() -> Vec<Case> {
    let four = "0,S,0,T,A,4,activate";
    vec![
        last_refused("request-5-11-before-13", &[four, "0,C,0,T,B,0,start", "0,C,0,T,A,9,resume"], 11),
        last_refused("request-5-9-before-11", &[four, "0,A,0,T,A,9,resume"], 9),
        last_refused("request-5-8-before-11", &["7,S,0,T,A,4,activate", "6,C,0,T,A,9,resume"], 8),
        after_1023_instances("request-5-11-at-a-full-table", &[four, "0,C,0,T,A,9,resume"], 11),
        after_1023_instances("request-5-10-before-12", &["0,C,0,T,A,4,release", "0,S,0,T,A,3,activate"], 10),
    ]
}

fn after_1023_instances(label: &str, lines: &[&str], number: u8) -> Case {
    let others = living(1023);
    let all: Vec<&str> = others.iter().map(String::as_str).chain(lines.iter().copied()).collect();
    last_refused(label, &all, number)
}
