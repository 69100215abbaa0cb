//! The names that several sheets have between them.

use super::super::names::{fresh_name, name_of_length};
use super::super::random::Random;

/// The most that one sheet may have.
pub const MOST_CORES: usize = 64;
pub const MOST_NAMES: usize = 256;

/// How many names the sheets have together.
#[derive(Clone, Copy)]
pub enum Size {
    /// Perhaps none at all, seldom many.
    Any,
    /// A few of both kinds.
    Few,
    /// Exactly so many cores, and a few processes.
    Cores(usize),
    /// Exactly so many cores and processes.
    Names(usize),
}

pub struct Pool {
    pub cores: Vec<String>,
    pub processes: Vec<String>,
}

impl Pool {
    pub fn draw(random: &mut Random, size: Size) -> Pool {
        let (cores, processes) = counts(random, size);
        let mut used = Vec::new();
        more_names(random, &mut used, cores);
        let cores = used.clone();
        more_names(random, &mut used, processes);
        let processes = used.split_off(cores.len());
        Pool { cores, processes }
    }
}

fn counts(random: &mut Random, size: Size) -> (usize, usize) {
    let few = random.between(1, 5) as usize;
    match size {
        Size::Any => match random.below(12) {
            0 => (0, 0),
            1 => (0, few),
            2 => (few, 0),
            3 => (random.between(5, 30) as usize, random.between(5, 40) as usize),
            _ => (few, random.between(1, 8) as usize),
        },
        Size::Few => (few + 1, random.between(2, 6) as usize),
        Size::Cores(cores) => (cores, few),
        Size::Names(names) => {
            let cores = *random.pick(&[&0, &1, &few, &MOST_CORES]);
            (cores, names - cores)
        }
    }
}

/// Adds so many names that aren't among `used`, all in one style.
pub fn more_names(random: &mut Random, used: &mut Vec<String>, count: usize) {
    let style = random.below(6);
    let wanted = used.len() + count;
    while used.len() < wanted {
        let name = match style {
            0 => format!("{}{}", random.pick(&["Core_", "TASK_", "ISR_"]), random.below(2 * wanted)),
            1 => letters(random),
            2 => name_of_length(random, 2),
            3 => short_name(random),
            4 => "n".repeat(62) + &name_of_length(random, 2),
            _ => fresh_name(random, used),
        };
        if !used.contains(&name) {
            used.push(name);
        }
    }
}

/// Any byte that a name may have by itself, or two of them.
fn short_name(random: &mut Random) -> String {
    let length = 1 + random.below(2);
    name_of_length(random, length)
}

/// Names of few letters: many of them begin one another, and small letters come
/// after all large ones.
fn letters(random: &mut Random) -> String {
    let length = 1 + random.below(6);
    (0..length).map(|_| random.pick(&["a", "b", "B", "_"])).collect()
}
