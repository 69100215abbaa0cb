//! What a sheet is to list, and the figures that fill it.

use super::super::random::Random;
use super::draft::{Draft, Row};
use super::pool::{more_names, MOST_NAMES};

pub struct Plan {
    pub scale: &'static str,
    pub span: u64,
    pub cores: Vec<String>,
    pub processes: Vec<String>,
}

impl Plan {
    /// "A sheet in the same scale with span 0, no cores and no processes".
    pub fn empty(scale: &'static str) -> Plan {
        Plan { scale, span: 0, cores: Vec::new(), processes: Vec::new() }
    }

    /// Its cores and its processes.
    pub fn names(&self) -> Vec<String> {
        [self.cores.clone(), self.processes.clone()].concat()
    }

    /// A well-formed sheet: the figures of each core make the span, the charges
    /// all held ticks. Without a process nothing is held.
    pub fn draft(&self, random: &mut Random) -> Draft {
        let mut held = 0;
        let mut cores = Vec::new();
        for name in &self.cores {
            let figures = self.figures_of_core(random);
            held += figures[0];
            cores.push(Row::new(name, &figures.map(u128::from)));
        }
        let charges = split(random, held, self.processes.len());
        let processes = self.processes.iter().zip(charges);
        let processes = processes.map(|(name, charge)| Row::new(name, &[charge.into()])).collect();
        Draft::new(self.scale, self.span, cores, processes)
    }

    /// Two cores, two processes and a tick at least, and no row too many.
    pub fn make_room_for_damage(&mut self, random: &mut Random) {
        self.span = self.span.max(1);
        let mut used = self.names();
        for names in [&mut self.cores, &mut self.processes] {
            while names.len() < 2 {
                more_names(random, &mut used, 1);
                names.extend(used.last().cloned());
            }
        }
        self.processes.truncate(MOST_NAMES - self.cores.len());
    }

    fn figures_of_core(&self, random: &mut Random) -> [u64; 3] {
        if self.processes.is_empty() {
            let idle = split(random, self.span, 2)[0];
            return [0, idle, self.span - idle];
        }
        let parts = split(random, self.span, 3);
        [parts[0], parts[1], parts[2]]
    }
}

/// So many figures that make the total: all of it in one of them at times.
pub fn split(random: &mut Random, total: u64, parts: usize) -> Vec<u64> {
    if parts == 0 {
        return Vec::new();
    }
    if random.chance(25) {
        let place = random.below(parts);
        return (0..parts).map(|part| if part == place { total } else { 0 }).collect();
    }
    let mut cuts: Vec<u64> = (1..parts).map(|_| random.between(0, total)).collect();
    cuts.sort_unstable();
    let ends = cuts.iter().copied().chain([total]);
    let starts = [0].into_iter().chain(cuts.iter().copied());
    ends.zip(starts).map(|(end, start)| end - start).collect()
}
