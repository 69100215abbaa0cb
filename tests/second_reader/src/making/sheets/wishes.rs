//! Two sheets or more that fit together, but for chosen conflicts.

use std::ops::Range;

use super::super::random::Random;
use super::super::world::LATEST;
use super::plan::{split, Plan};
use super::pool::{Pool, Size, MOST_CORES, MOST_NAMES};
use super::sharing::{any_sharing, insert, share_out, Sharing};

const SCALES: [&str; 5] = ["ps", "ns", "us", "ms", "s"];

pub fn other_scale(random: &mut Random, scale: &str) -> &'static str {
    let place = SCALES.iter().position(|known| *known == scale).expect("a scale");
    SCALES[(place + 1 + random.below(SCALES.len() - 1)) % SCALES.len()]
}

/// Why the last sheet can't be added to those before it; the others fit
/// together. Each sheet by itself is well formed.
#[derive(Clone, Copy, Default)]
pub struct Conflicts {
    /// 22: its scale is another one.
    pub scale: bool,
    /// 23: a name is a core in it and a process before, or the other way.
    pub kind: bool,
    /// 24: too many cores or names together.
    pub rows: bool,
    /// 25: the spans together are too long.
    pub span: bool,
}

impl Conflicts {
    /// The one that earns `number`, and perhaps some that come after it.
    pub fn earning(random: &mut Random, number: u8) -> Conflicts {
        let mut is_there = |own: u8| own == number || (own > number && random.chance(30));
        Conflicts { scale: is_there(22), kind: is_there(23), rows: is_there(24), span: is_there(25) }
    }

    pub fn number(self) -> u8 {
        let numbers = [(self.scale, 22), (self.kind, 23), (self.rows, 24), (self.span, 25)];
        numbers.into_iter().find(|(is_there, _)| *is_there).map_or(0, |(_, number)| number)
    }
}

pub struct Wishes {
    pub sheets: usize,
    pub size: Size,
    pub sharing: Sharing,
    pub conflicts: Conflicts,
}

impl Wishes {
    pub fn new(random: &mut Random, sheets: usize, conflicts: Conflicts) -> Wishes {
        let size = if conflicts.rows { too_many(random) } else { fitting(random) };
        Wishes { sheets, size, sharing: any_sharing(random), conflicts }
    }

    pub fn plans(&self, random: &mut Random) -> Vec<Plan> {
        let mut pool = Pool::draw(random, self.size);
        if self.conflicts.kind {
            give_a_name_two_kinds(&mut pool);
        }
        let all = pool.cores.len() + pool.processes.len();
        let (cores_apart, names_apart) = (pool.cores.len().saturating_sub(MOST_CORES), all.saturating_sub(MOST_NAMES));
        let cores = share_out(random, &pool.cores, self.sheets, self.sharing, &self.first_takers(cores_apart));
        let processes = share_out(random, &pool.processes, self.sheets, self.sharing, &self.first_takers(names_apart));
        let spans = spans(random, self.sheets, self.conflicts.span);
        let scale = SCALES[random.below(SCALES.len())];
        let rows = cores.into_iter().zip(processes).zip(spans);
        let mut plans: Vec<Plan> =
            rows.map(|((cores, processes), span)| Plan { scale, span, cores, processes }).collect();
        self.add_conflicts(random, &pool, &mut plans);
        plans
    }

    /// Of the names, `apart` are listed by the last sheet alone and as many by
    /// no last one, so that neither the last sheet nor the others together have
    /// more than all but so many.
    fn first_takers(&self, apart: usize) -> Vec<Range<usize>> {
        let last = self.sheets - 1;
        [vec![last..last + 1; apart], vec![0..last; apart]].concat()
    }

    fn add_conflicts(&self, random: &mut Random, pool: &Pool, plans: &mut [Plan]) {
        let last = self.sheets - 1;
        if self.conflicts.scale {
            plans[last].scale = other_scale(random, plans[last].scale);
        }
        if self.conflicts.kind {
            let name = pool.cores.last().expect("a name of two kinds");
            for plan in plans.iter_mut() {
                plan.cores.retain(|other| other != name);
                plan.processes.retain(|other| other != name);
            }
            let (core, process) = if random.chance(50) { (last, 0) } else { (0, last) };
            insert(random, &mut plans[core].cores, name);
            insert(random, &mut plans[process].processes, name);
        }
    }
}

/// The last core is the last process too. Names that only some sheets may list
/// stand in front, so that there is room for it in each of them.
fn give_a_name_two_kinds(pool: &mut Pool) {
    if let (Some(core), Some(process)) = (pool.cores.last(), pool.processes.last_mut()) {
        process.clone_from(core);
        return;
    }
    let name = pool.cores.pop().or(pool.processes.pop()).unwrap_or("both".to_string());
    pool.cores.push(name.clone());
    pool.processes.push(name);
}

fn fitting(random: &mut Random) -> Size {
    match random.below(50) {
        0 => Size::Cores(MOST_CORES),
        1 => Size::Names(MOST_NAMES),
        _ => Size::Any,
    }
}

/// Mostly by a single one.
fn too_many(random: &mut Random) -> Size {
    let more = if random.chance(60) { 1 } else { 1 + random.below(36) };
    if random.chance(50) {
        Size::Cores(MOST_CORES + more)
    } else {
        Size::Names(MOST_NAMES + more)
    }
}

/// A span for each sheet, together at most the latest time, or more than that
/// with the last one: then mostly by a single tick.
fn spans(random: &mut Random, sheets: usize, too_long: bool) -> Vec<u64> {
    let total = match random.below(8) {
        _ if too_long && random.chance(50) => LATEST + 1,
        _ if too_long => random.between(LATEST + 2, 2 * LATEST),
        0 => 0,
        1 => LATEST,
        2 => random.between(0, LATEST),
        3 | 4 => random.between(0, 4_294_967_300),
        _ => random.between(1, 2_000),
    };
    let (least, most) = (total.saturating_sub(LATEST), total.min(LATEST));
    let before = match random.below(6) {
        0 => least,
        1 => most,
        2 => random.between(least, most.min(least + 3)),
        _ => random.between(least, most),
    };
    let mut spans = split(random, before, sheets - 1);
    spans.push(total - before);
    spans
}
