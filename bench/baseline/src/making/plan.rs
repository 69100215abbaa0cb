//! What is to be made.

use super::naming::Naming;

/// How long a trace is.
#[derive(Clone, Copy, Debug, PartialEq, Eq)]
pub enum Size {
    /// About so many bytes: the last step may exceed it.
    Bytes(u64),
    /// So many lines: those of the last step that are too many are left out.
    Lines(u64),
}

/// The sizes of a trace, and its names. Beside the names given here it tracks a few semaphores.
pub struct Plan {
    pub cores: usize,
    pub tasks: usize,
    pub runnables: usize,
    pub size: Size,
    pub seed: u64,
    pub naming: Naming,
}

const MOST_CORES: usize = 64;
const MOST_NAMES: usize = 256;
const SEMAPHORES: usize = 4;

/// The lines up to the time scale, without which no trace is accepted.
const LEAST_LINES: u64 = 5;
const MOST_LINES: u64 = 1_000_000_000;

/// A line has more than 20 bytes, on the mean also where names are short.
const MOST_BYTES: u64 = 20 * MOST_LINES;

impl Size {
    fn fault(self) -> Option<&'static str> {
        match self {
            Size::Bytes(bytes) => (bytes > MOST_BYTES).then_some("a trace has at most 20,000,000,000 bytes"),
            Size::Lines(LEAST_LINES..=MOST_LINES) => None,
            Size::Lines(_) => Some("a trace has 5 to 1,000,000,000 lines"),
        }
    }
}

impl Plan {
    /// What is wrong with the sizes, if anything.
    pub fn fault(&self) -> Option<&'static str> {
        if !(1..=MOST_CORES).contains(&self.cores) {
            return Some("there are 1 to 64 cores");
        }
        if self.tasks == 0 {
            return Some("there is at least one task");
        }
        if self.cores.saturating_add(self.tasks).saturating_add(self.runnables) > MOST_NAMES {
            return Some("cores, tasks and runnables are at most 256 together");
        }
        self.size.fault()
    }

    /// Four, or as many as there is room for.
    pub fn semaphores(&self) -> usize {
        SEMAPHORES.min(MOST_NAMES - self.cores - self.tasks - self.runnables)
    }
}
