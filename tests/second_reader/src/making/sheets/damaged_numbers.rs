//! Damage to a number: its form, a count, the span, its length.

use super::super::random::Random;
use super::draft::{value_of, Draft, Row};

/// Any number of the sheet, changed as told.
fn change_one(random: &mut Random, mut draft: Draft, change: impl Fn(&str) -> String) -> Vec<u8> {
    let mut numbers = draft.numbers();
    // The span and the counts are few among the figures.
    let among = if random.chance(40) { 3 } else { numbers.len() };
    let place = random.below(among);
    *numbers[place] = change(numbers[place]);
    draft.text()
}

pub fn leading_zero(random: &mut Random, draft: Draft) -> Vec<u8> {
    let zeros = "0".repeat(*random.pick(&[&1, &1, &2, &40]));
    change_one(random, draft, |number| format!("{zeros}{number}"))
}

pub fn sign(random: &mut Random, draft: Draft) -> Vec<u8> {
    let sign = random.pick(&["+", "-"]);
    change_one(random, draft, |number| format!("{sign}{number}"))
}

/// With a byte that is no digit: those beside the digits too.
pub fn no_number(random: &mut Random, draft: Draft) -> Vec<u8> {
    let which = random.below(9);
    change_one(random, draft, |number| match which {
        0 => String::new(),
        1 => format!("{number}/"),
        2 => format!("{number}:"),
        3 => format!("{number}.0"),
        4 => format!("{number}e0"),
        5 => format!("0x{number}"),
        6 => format!("{number},000"),
        7 => "x".to_string(),
        _ => format!("{number}\0"),
    })
}

pub fn count_of_cores(random: &mut Random, mut draft: Draft) -> Vec<u8> {
    draft.core_count = wrong_count(random, &draft.cores);
    draft.text()
}

pub fn count_of_processes(random: &mut Random, mut draft: Draft) -> Vec<u8> {
    draft.process_count = wrong_count(random, &draft.processes);
    draft.text()
}

/// Mostly one more or one less; also right in its last bits alone.
fn wrong_count(random: &mut Random, rows: &[Row]) -> String {
    let count = rows.len() as u128;
    let wrong = match random.below(8) {
        0..=2 if count > 0 => count - 1,
        3 if count > 0 => 0,
        4 => count + (1 << *random.pick(&[&8, &16, &32, &64])),
        _ => count + 1,
    };
    wrong.to_string()
}

/// One tick too long, or far more; the cores' figures make it.
pub fn span(random: &mut Random, mut draft: Draft) -> Vec<u8> {
    let old = value_of(&draft.span);
    let span = match random.below(8) {
        0..=3 => 1 << 56,
        4 => (1 << 56) + old,
        5 => (1 << 63) + old,
        6 => (1 << 64) + old,
        _ => 10u128.pow(29) + old,
    };
    for core in &mut draft.cores {
        let figure = &mut core.figures[2];
        *figure = (value_of(figure) + span - old).to_string();
    }
    draft.span = span.to_string();
    draft.text()
}

/// A figure of a row; what follows its first digit may be the right value.
pub fn forty_digits(random: &mut Random, mut draft: Draft) -> Vec<u8> {
    let mut rows = draft.rows();
    let row = random.below(rows.len());
    let figure = random.below(rows[row].figures.len());
    let figure = &mut rows[row].figures[figure];
    let first = random.between(1, 9);
    let digits = if random.chance(50) { value_of(figure) } else { u128::from(random.next()) };
    *figure = format!("{first}{digits:039}");
    draft.text()
}
