//! Damage to rows: their figures' number, their names, how many they are.

use super::super::names::name_of_length;
use super::super::random::Random;
use super::draft::{Draft, Row};
use super::pool::{more_names, MOST_CORES, MOST_NAMES};
use super::sharing::shuffle;

/// A core or a process, each half the time.
fn any_row<'a>(random: &mut Random, draft: &'a mut Draft) -> &'a mut Row {
    let section = if random.chance(50) { &mut draft.cores } else { &mut draft.processes };
    let row = random.below(section.len());
    &mut section[row]
}

pub fn figure_missing(random: &mut Random, mut draft: Draft) -> Vec<u8> {
    let row = any_row(random, &mut draft);
    row.figures.remove(random.below(row.figures.len()));
    draft.text()
}

pub fn figure_too_many(random: &mut Random, mut draft: Draft) -> Vec<u8> {
    let row = any_row(random, &mut draft);
    let place = random.below(row.figures.len() + 1);
    row.figures.insert(place, random.pick(&["0", "0", "1"]).to_string());
    draft.text()
}

pub fn long_name(random: &mut Random, mut draft: Draft) -> Vec<u8> {
    let length = *random.pick(&[&65, &65, &65, &66, &128, &300]);
    any_row(random, &mut draft).name = name_of_length(random, length).into_bytes();
    draft.text()
}

pub fn empty_name(random: &mut Random, mut draft: Draft) -> Vec<u8> {
    any_row(random, &mut draft).name.clear();
    draft.text()
}

pub fn comma_in_name(random: &mut Random, draft: Draft) -> Vec<u8> {
    put_into_name(random, draft, b',')
}

/// Neither 10 nor a blank, which part the text in another way.
pub fn byte_in_name(random: &mut Random, draft: Draft) -> Vec<u8> {
    let byte = *random.pick(&[&0, &1, &9, &11, &13, &31, &127, &128, &0xa0, &0xc3, &0xff]);
    put_into_name(random, draft, byte)
}

fn put_into_name(random: &mut Random, mut draft: Draft, byte: u8) -> Vec<u8> {
    let name = &mut any_row(random, &mut draft).name;
    let place = random.below(name.len());
    name[place] = byte;
    draft.text()
}

pub fn core_twice(random: &mut Random, mut draft: Draft) -> Vec<u8> {
    name_twice(random, &mut draft.cores);
    draft.text()
}

pub fn process_twice(random: &mut Random, mut draft: Draft) -> Vec<u8> {
    name_twice(random, &mut draft.processes);
    draft.text()
}

/// The figures stay, so that the totals are right.
fn name_twice(random: &mut Random, rows: &mut [Row]) {
    let one = random.below(rows.len());
    let other = (one + 1 + random.below(rows.len() - 1)) % rows.len();
    rows[one].name = rows[other].name.clone();
}

pub fn name_in_both(random: &mut Random, mut draft: Draft) -> Vec<u8> {
    let (core, process) = (random.below(draft.cores.len()), random.below(draft.processes.len()));
    draft.processes[process].name = draft.cores[core].name.clone();
    draft.text()
}

pub fn too_many_cores(random: &mut Random, mut draft: Draft) -> Vec<u8> {
    let wanted = MOST_CORES + how_many_too_many(random);
    let missing = wanted.saturating_sub(draft.cores.len());
    let span = draft.span.clone();
    let zero = || "0".to_string();
    for name in new_names(random, &mut draft, missing) {
        draft.cores.push(Row { name, figures: vec![zero(), zero(), span.clone()] });
    }
    shuffle(random, &mut draft.cores);
    draft.count_rows();
    draft.text()
}

pub fn too_many_names(random: &mut Random, mut draft: Draft) -> Vec<u8> {
    let wanted = MOST_NAMES + how_many_too_many(random);
    let missing = wanted - draft.cores.len() - draft.processes.len();
    for name in new_names(random, &mut draft, missing) {
        draft.processes.push(Row { name, figures: vec!["0".to_string()] });
    }
    shuffle(random, &mut draft.processes);
    draft.count_rows();
    draft.text()
}

fn how_many_too_many(random: &mut Random) -> usize {
    *random.pick(&[&1, &1, &1, &2, &64])
}

fn new_names(random: &mut Random, draft: &mut Draft, count: usize) -> Vec<Vec<u8>> {
    let mut used: Vec<String> =
        draft.rows().iter().map(|row| String::from_utf8_lossy(&row.name).into_owned()).collect();
    let before = used.len();
    more_names(random, &mut used, count);
    used.split_off(before).into_iter().map(String::into_bytes).collect()
}
