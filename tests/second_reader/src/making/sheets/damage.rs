//! Every cause of 21, each by itself: what is done to a well-formed sheet, and
//! what the reader has to find.

use super::super::random::Random;
use super::damaged_numbers as numbers;
use super::damaged_rows as rows;
use super::damaged_text as text;
use super::damaged_totals as totals;
use super::draft::Draft;
use crate::adding::reading::Fault;

pub struct Damage {
    pub name: &'static str,
    /// What is found, one of these.
    pub faults: &'static [Fault],
    /// It takes a sheet with at least two cores, two processes and one tick.
    pub needs_rows: bool,
    pub apply: Apply,
}

type Apply = fn(&mut Random, Draft) -> Vec<u8>;

const TOTALS: &[Fault] = &[Fault::CoreFigures, Fault::Charges];

/// Damage to the text that any sheet can have, one without rows too.
const fn to_any(name: &'static str, apply: Apply) -> Damage {
    Damage { name, faults: &[Fault::Text], needs_rows: false, apply }
}

/// Damage to the text of a sheet with rows.
const fn to_rows(name: &'static str, apply: Apply) -> Damage {
    Damage { name, faults: &[Fault::Text], needs_rows: true, apply }
}

/// The text could be printed, but not with these names and figures.
const fn beyond_text(name: &'static str, faults: &'static [Fault], apply: Apply) -> Damage {
    Damage { name, faults, needs_rows: true, apply }
}

pub const DAMAGES: [Damage; 40] = [
    to_any("a refused trace's line", text::refused_trace),
    to_any("an empty file", text::empty),
    to_any("cut short", text::cut_short),
    to_any("no line end at the end", text::no_last_end),
    to_any("something after the end", text::something_after),
    to_any("a byte 13", text::byte_13),
    to_any("a double blank", text::double_blank),
    to_any("a blank at a line's edge", text::blank_at_edge),
    to_any("another byte for a blank", text::other_blank),
    to_any("an empty line", text::empty_line),
    to_any("another verdict line", text::verdict_line),
    to_any("an unknown scale", text::scale),
    to_rows("sections swapped", text::sections_swapped),
    to_any("a section missing", text::section_missing),
    to_any("a leading zero", numbers::leading_zero),
    to_any("a sign", numbers::sign),
    to_any("no number", numbers::no_number),
    to_any("a wrong count of cores", numbers::count_of_cores),
    to_any("a wrong count of processes", numbers::count_of_processes),
    beyond_text("a span above 2^56 - 1", &[Fault::SpanTooLong], numbers::span),
    beyond_text("a figure of 40 digits", TOTALS, numbers::forty_digits),
    to_rows("a figure missing from a row", rows::figure_missing),
    to_rows("a figure too many in a row", rows::figure_too_many),
    to_rows("a name of 65 bytes", rows::long_name),
    to_rows("an empty name", rows::empty_name),
    to_rows("a name with a comma", rows::comma_in_name),
    to_rows("a name with a byte of no name", rows::byte_in_name),
    beyond_text("a core twice", &[Fault::NameTwice], rows::core_twice),
    beyond_text("a process twice", &[Fault::NameTwice], rows::process_twice),
    beyond_text("a name in both sections", &[Fault::NameTwice], rows::name_in_both),
    beyond_text("65 cores", &[Fault::TooManyRows], rows::too_many_cores),
    beyond_text("257 names", &[Fault::TooManyRows], rows::too_many_names),
    beyond_text("a core's figures one too many", &[Fault::CoreFigures], totals::core_one_more),
    beyond_text("a core's figures one too few", &[Fault::CoreFigures], totals::core_one_less),
    beyond_text("two cores' figures right together", &[Fault::CoreFigures], totals::cores_together),
    beyond_text("a core's figures right but for 2^64", &[Fault::CoreFigures], totals::core_wraps),
    beyond_text("charges one too many", &[Fault::Charges], totals::charges_one_more),
    beyond_text("charges one too few", &[Fault::Charges], totals::charges_one_less),
    beyond_text("charges right but for 2^64", &[Fault::Charges], totals::charges_wrap),
    beyond_text("a figure right but for 2^128", TOTALS, totals::wraps_128),
];
