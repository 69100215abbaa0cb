//! Long runs, as document 02, No. 7, tells it: "A day's trace has far more than
//! 1,024 activations." Some go on and on with few instances at a time, others
//! fill the table to its last entry or leave one free. At the end comes a line
//! that needs room, or one that doesn't.

use super::last_lines::last_line;
use super::random::Random;
use super::run::{Run, ENTRIES};
use super::Made;

pub fn make(random: &mut Random) -> Made {
    let mut run = if random.chance(20) { turned_over(random) } else { filled(random) };
    let (line, aim) = last_line(random, &run);
    run.draft.lines.extend(line.map(|line| line.line()));
    if aim != 0 && random.chance(30) {
        // What comes after a refused line changes nothing.
        run.draft.lines.push(run.line("S", 0, "terminate", 1).line());
    }
    Made::aimed(aim, run.draft.finish(random))
}

/// Aim 11 or 12: after a short run, in which some have ended, a line about one
/// that has no entry.
pub fn absent_after_a_short_run(random: &mut Random, aim: u8) -> Vec<u8> {
    loop {
        let runners = random.between(1, 3) as u8;
        let mut run = Run::begin(random, runners);
        let most = random.between(2, 12) as usize;
        turn_over(random, &mut run, most);
        let line = if aim == 11 { run.event_of_absent(random) } else { run.activation_of_absent(random) };
        if let Some(line) = line {
            run.draft.lines.push(line.line());
            return run.draft.finish(random);
        }
    }
}

/// More than 1,024 activations, of which few live at any time.
fn turned_over(random: &mut Random) -> Run {
    let runners = random.between(1, 4) as u8;
    let mut run = Run::begin(random, runners);
    let activations = if random.chance(3) { 3_000 } else { random.between(ENTRIES as u64 + 1, 1_060) };
    turn_over(random, &mut run, activations as usize);
    run
}

/// Activates until there were so many, and lets those that live go on and end.
fn turn_over(random: &mut Random, run: &mut Run, activations: usize) {
    let most_living = random.between(1, 9) as usize;
    while run.activations < activations {
        let runner = run.any_runner(random);
        match random.below(40) {
            0 => run.limit(random, runner),
            1 if run.entries() < 30 => run.see_old(random, runner),
            2..=5 => go_on(random, run, runner),
            _ if run.entries() < most_living => begin_one(random, run, runner),
            _ => end_any(random, run) || begin_one(random, run, runner),
        };
    }
}

/// The runner's next instance, or else one of the runner that always has a next.
fn begin_one(random: &mut Random, run: &mut Run, runner: usize) -> bool {
    run.activate(random, runner) || run.activate(random, 0)
}

/// One of those kept takes a step.
fn go_on(random: &mut Random, run: &mut Run, runner: usize) -> bool {
    let kept = run.runners[runner].kept.len();
    if kept == 0 {
        return false;
    }
    let place = random.below(kept);
    run.go_on(random, runner, place)
}

/// One of those kept ends, and keeps its entry if it is old.
fn end_kept(random: &mut Random, run: &mut Run, runner: usize) -> bool {
    let kept = run.runners[runner].kept.len();
    if kept == 0 {
        return false;
    }
    let place = random.below(kept);
    run.end(random, runner, place);
    true
}

/// One of those that were activated ends, and gives its entry back.
fn end_one(random: &mut Random, run: &mut Run, runner: usize) -> bool {
    let kept = &run.runners[runner].kept;
    let living: Vec<usize> = (0..kept.len()).filter(|&place| kept[place].activated).collect();
    if living.is_empty() {
        return false;
    }
    let place = living[random.below(living.len())];
    run.end(random, runner, place);
    true
}

/// The same of any runner that has such a one.
fn end_any(random: &mut Random, run: &mut Run) -> bool {
    any_in_turn(random, run).into_iter().any(|runner| end_one(random, run, runner))
}

/// A limit of any runner that is a task.
fn limit_any(random: &mut Random, run: &mut Run) -> bool {
    any_in_turn(random, run).into_iter().any(|runner| run.limit(random, runner))
}

/// All runners, from any of them on.
fn any_in_turn(random: &mut Random, run: &Run) -> Vec<usize> {
    let (start, count) = (run.any_runner(random), run.runners.len());
    (start..start + count).map(|runner| runner % count).collect()
}

/// A table with no entry free, or with one; and what may still come then.
fn filled(random: &mut Random) -> Run {
    let runners = random.between(2, 5) as u8;
    let mut run = Run::begin(random, runners);
    let entries = if random.chance(12) { ENTRIES - 1 } else { ENTRIES };
    let old_percent = *random.pick(&[&0, &3, &30, &97]);
    // Often one runner has no activation before the table is full.
    let unactivated = random.between(1, u64::from(runners)) as usize;
    while run.entries() < entries {
        let runner = run.any_runner(random);
        let is_old = runner == unactivated || random.chance(old_percent);
        match random.below(60) {
            0 => run.limit(random, 0),
            1 | 2 => go_on(random, &mut run, runner),
            3 | 4 => end_kept(random, &mut run, runner),
            _ if is_old => run.see_old(random, runner) || begin_one(random, &mut run, runner),
            _ => begin_one(random, &mut run, runner),
        };
    }
    for _ in 0..random.between(0, 5) {
        use_what_is_there(random, &mut run, entries);
    }
    run
}

/// Lines that need no entry, or the one that was given back just before.
fn use_what_is_there(random: &mut Random, run: &mut Run, entries: usize) {
    let runner = run.any_runner(random);
    match random.below(5) {
        0 => limit_any(random, run),
        1 => go_on(random, run, runner),
        2 => end_kept(random, run, runner),
        _ => end_any(random, run),
    };
    while run.entries() < entries {
        let runner = run.any_runner(random);
        if random.chance(40) {
            run.see_old(random, runner);
        } else {
            run.activate(random, runner);
        }
    }
}
