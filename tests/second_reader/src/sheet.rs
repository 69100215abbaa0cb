//! The charge sheet, summed literally over the gaps between event lines.

use crate::cores::CoreStatus;
use crate::history::{History, Moment, NameKind};

/// Sums of ticks. 64 cores times 2^56 would fit a u64; the wider number makes
/// it plain that no sum can overflow.
pub type Ticks = u128;

#[derive(Clone, Debug, PartialEq, Eq)]
pub struct CoreCharge {
    pub name: String,
    pub held: Ticks,
    pub idle: Ticks,
    pub unknown: Ticks,
}

#[derive(Clone, Debug, PartialEq, Eq)]
pub struct ProcessCharge {
    pub name: String,
    pub charge: Ticks,
}

#[derive(Clone, Debug, PartialEq, Eq)]
pub struct Sheet {
    pub cores: Vec<CoreCharge>,
    pub processes: Vec<ProcessCharge>,
}

/// "Each section follows its count, in order of first mention".
pub fn sheet_of(history: &History) -> Sheet {
    let cores = history
        .names
        .iter()
        .filter(|tracked| tracked.kind == NameKind::Core)
        .enumerate()
        .map(|(core, tracked)| core_charge(history, core, &tracked.name))
        .collect();
    let processes = history
        .names
        .iter()
        .enumerate()
        .filter(|(_, tracked)| matches!(tracked.kind, NameKind::Task | NameKind::Interrupt))
        .map(|(place, tracked)| ProcessCharge {
            name: tracked.name.clone(),
            charge: process_charge(history, place),
        })
        .collect();
    Sheet { cores, processes }
}

/// "span" of the verdict line: from the first event line to the last one.
pub fn span_of(history: &History) -> u64 {
    match (history.moments.first(), history.moments.last()) {
        (Some(first), Some(last)) => last.time - first.time,
        _ => 0,
    }
}

/// "For each gap between neighbouring event lines": the earlier line and the
/// length of the gap after it.
fn gaps(history: &History) -> impl Iterator<Item = (&Moment, Ticks)> {
    history
        .moments
        .windows(2)
        .map(|pair| (&pair[0], Ticks::from(pair[1].time - pair[0].time)))
}

/// "each core tracked by the end of the lines taken gets the gap as held, idle
/// or unknown, as it stood after the earlier line (unknown before it is
/// tracked)."
fn core_charge(history: &History, core: usize, name: &str) -> CoreCharge {
    let mut charge = CoreCharge { name: name.to_string(), held: 0, idle: 0, unknown: 0 };
    for (earlier, ticks) in gaps(history) {
        match earlier.cores.get(core) {
            Some(CoreStatus::Held(_)) => charge.held += ticks,
            Some(CoreStatus::Idle) => charge.idle += ticks,
            Some(CoreStatus::Unknown) | None => charge.unknown += ticks,
        }
    }
    charge
}

/// "A process's charge is the sum of gaps times the number of cores its
/// instances hold."
fn process_charge(history: &History, process: usize) -> Ticks {
    gaps(history)
        .map(|(earlier, ticks)| ticks * cores_held_by(earlier, process))
        .sum()
}

fn cores_held_by(moment: &Moment, process: usize) -> Ticks {
    let held = moment
        .cores
        .iter()
        .filter(|status| matches!(status, CoreStatus::Held(holder) if holder.name_place == process))
        .count();
    held as Ticks
}
