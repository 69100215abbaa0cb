//! Making traces: valid ones, ones damaged in one chosen way, and ones at the
//! limits. A trace depends on the seed and its index alone, so that any one of
//! them can be made again.

mod at_limits;
mod boundaries;
mod damaged_fields;
mod damaged_history;
mod damaged_lines;
mod draft;
mod entity;
mod filling;
mod full_tables;
mod last_lines;
mod long_runs;
mod names;
mod old_instances;
mod prelude;
mod queues;
pub mod random;
mod run;
mod runner;
pub mod sheets;
mod steps;
mod story;
mod wild;
mod world;
mod world_processes;
mod world_runnables;
mod world_semaphores;

use random::Random;
use story::Story;

pub struct Made {
    pub bytes: Vec<u8>,
    /// The number that the trace was made to earn. Nothing where the maker
    /// doesn't know: those traces are for comparing alone.
    pub aim: Option<u8>,
}

impl Made {
    fn aimed(aim: u8, bytes: Vec<u8>) -> Made {
        Made { bytes, aim: Some(aim) }
    }

    fn unaimed(bytes: Vec<u8>) -> Made {
        Made { bytes, aim: None }
    }
}

/// The kinds of traces take turns instead of being drawn, so that each number
/// comes often in a short run too.
const TURNS: u64 = 29;

pub fn make_trace(seed: u64, index: u64) -> Made {
    let random = &mut Random::new(seed, index);
    match index % TURNS {
        number @ 1..=14 => damaged(random, number as u8),
        15..=17 | 0 => Made::aimed(0, valid(random)),
        18 => queues::make(random),
        19 => old_instances::make(random),
        20 => at_limits::make(random),
        21 => full_tables::make(random),
        22 => boundaries::make(random),
        23..=26 => long_runs::make(random),
        27 => wild::make_mixed(random),
        _ => wild::make_blind(random),
    }
}

fn valid(random: &mut Random) -> Vec<u8> {
    let mut story = Story::begin(random);
    let most = if random.chance(10) { 250 } else { 60 };
    story.go_on(random, most);
    story.finish(random)
}

fn damaged(random: &mut Random, number: u8) -> Made {
    let bytes = match number {
        1 => damaged_lines::line_itself(random),
        2 => damaged_lines::version(random),
        3 => damaged_lines::parameter(random),
        4 => damaged_lines::no_scale(random),
        5 => damaged_fields::form(random),
        6 => damaged_fields::word(random),
        7 => damaged_fields::rule(random),
        8 => damaged_history::time_back(random),
        9 => damaged_history::second_kind(random),
        10 => full_tables::overflow(random),
        11 => damaged_history::wrong_step(random),
        12 => damaged_history::wrong_number(random),
        13 => damaged_history::wrong_core(random),
        _ => damaged_history::wrong_count(random),
    };
    Made::aimed(number, bytes)
}
