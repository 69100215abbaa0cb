//! `spread`: how many places of the index a look-up has to try, for several ways
//! to fold a name's bytes, over sets of 240 names as recorders write them.

#![forbid(unsafe_code)]

use baseline::making::Naming;

const PLACES: usize = 512;

/// How a fold goes on, and which of its bits are the place.
#[derive(Clone, Copy)]
enum Fold {
    /// The sum of fold and four bytes as one number, so many times; the upper nine bits.
    Fours(u32),
    /// The sum of fold and byte, so many times; the upper nine bits.
    Upper(u32),
    /// So many times the fold, and the byte; the lower nine bits.
    Lower(u32),
}

impl Fold {
    fn home(self, name: &str) -> usize {
        let bytes = name.bytes().map(u32::from);
        match self {
            Fold::Fours(factor) => upper(factor, fours(name.as_bytes())),
            Fold::Upper(factor) => upper(factor, bytes),
            Fold::Lower(factor) => lower(factor, bytes),
        }
    }

    fn title(self) -> String {
        match self {
            Fold::Fours(factor) => format!("upper bits, by fours, 0x{factor:08x} times"),
            Fold::Upper(factor) => format!("upper bits, 0x{factor:08x} times"),
            Fold::Lower(factor) => format!("lower bits, {factor} times"),
        }
    }
}

fn upper(factor: u32, numbers: impl Iterator<Item = u32>) -> usize {
    (numbers.fold(0, |fold: u32, number| fold.wrapping_add(number).wrapping_mul(factor)) >> 23) as usize
}

fn lower(factor: u32, numbers: impl Iterator<Item = u32>) -> usize {
    numbers.fold(0, |fold: u32, number| fold.wrapping_mul(factor).wrapping_add(number)) as usize % PLACES
}

/// Four bytes each, the first the lowest: fours from the front on as long as a
/// byte is left after them, and then the last four.
fn fours(name: &[u8]) -> impl Iterator<Item = u32> + '_ {
    let before = name.len().saturating_sub(1) / 4;
    let last = &name[name.len().saturating_sub(4)..];
    let number = |four: &[u8]| four.iter().rev().fold(0, |number, &byte| number << 8 | u32::from(byte));
    name.chunks(4).take(before).chain([last]).map(number)
}

/// The places that are tried for each name once all are in the index.
fn tries(fold: Fold, names: &[String]) -> Vec<usize> {
    let mut taken = [false; PLACES];
    let put = |name: &String| {
        let home = fold.home(name);
        let far = (0..PLACES).find(|far| !taken[(home + far) % PLACES]).expect("fewer names than places");
        taken[(home + far) % PLACES] = true;
        far + 1
    };
    names.iter().map(put).collect()
}

/// Names as the bench's traces have them: `cores`, and the rest tasks and runnables.
fn of_a_trace(naming: Naming, cores: usize, tasks: usize) -> Vec<String> {
    let cores = (0..cores).map(|number| format!("Core_{number}"));
    let tasks = (0..tasks).map(|number| naming.axis("TASK", number));
    cores.chain(tasks).chain((0..).map(|number| naming.runnable(number))).take(240).collect()
}

/// Numbers behind one beginning, with so many digits at least.
fn numbered() -> Vec<Vec<String>> {
    let mut sets = Vec::new();
    for beginning in
        ["T", "Task", "TASK_", "TASK_Controller_", "RUN_", "Runnable_", "Step_10ms_", "OsTask_", "App.Task."]
    {
        for digits in [1, 2, 3, 4, 5] {
            for first in [0, 1, 100, 1000] {
                for step in [1, 2, 5, 10] {
                    sets.push((0..240).map(|i| format!("{beginning}{:0digits$}", first + step * i)).collect());
                }
            }
        }
    }
    sets
}

/// Kinds of names in one trace, each numbered from 0 on.
fn mixed() -> Vec<Vec<String>> {
    let kinds = [("Core_", 8), ("TASK_", 60), ("ISR_", 20), ("RUN_", 130), ("SEM_", 22)];
    let numbered = |end: &str| {
        kinds.iter().flat_map(|(kind, count)| (0..*count).map(move |i| format!("{kind}{i}{end}"))).collect::<Vec<_>>()
    };
    ["", "_Brake", "_Hoist_10ms", "_Winch_Position"].map(numbered).into()
}

/// Two words, one after the other, and with a time behind them.
fn worded() -> Vec<Vec<String>> {
    let words = [
        "Anchor", "Boom", "Brake", "Cable", "Davit", "Drum", "Gear", "Hoist", "Hook", "Log", "Motor", "Pump", "Rope",
        "Slew", "Valve", "Winch",
    ];
    let two = words.iter().flat_map(|a| words.iter().map(move |b| format!("TASK_{a}_{b}"))).take(240).collect();
    let timed =
        words.iter().flat_map(|a| words.iter().map(move |b| format!("{a}{b}_{}ms", 5 * a.len()))).take(240).collect();
    vec![two, timed]
}

fn all_sets() -> Vec<Vec<String>> {
    let mut sets = numbered();
    for naming in [Naming::BeginAlike, Naming::EndAlike] {
        for (cores, tasks) in [(4, 40), (4, 116), (64, 64)] {
            sets.push(of_a_trace(naming, cores, tasks));
        }
    }
    sets.extend(mixed());
    sets.extend(worded());
    sets
}

fn main() {
    let sets = all_sets();
    println!("{} sets of 240 names in 512 places: places tried for a name that is there", sets.len());
    println!("{:<40} {:>12} {:>14} {:>8}", "fold", "mean of sets", "mean of worst", "longest");
    let folds =
        [Fold::Fours(0x7659_91d1), Fold::Upper(0x1050_2041), Fold::Lower(33), Fold::Lower(69), Fold::Lower(213)];
    for fold in folds {
        let tried: Vec<Vec<usize>> = sets.iter().map(|names| tries(fold, names)).collect();
        let means: Vec<f64> = tried.iter().map(|set| set.iter().sum::<usize>() as f64 / set.len() as f64).collect();
        let mean = means.iter().sum::<f64>() / means.len() as f64;
        let worst = means.iter().cloned().fold(0.0, f64::max);
        let longest = tried.iter().flatten().max().expect("there are names");
        println!("{:<40} {mean:>12.2} {worst:>14.2} {longest:>8}", fold.title());
    }
}
