//! `write_sheets FOLDER`: writes the fixed sample of pairs of sheets,
//! `sheets.pairs` and `sheets.answers`. README.md describes both forms.

#![forbid(unsafe_code)]

use std::process::ExitCode;

use second_reader::pair_sample::fixed_pairs;
use second_reader::pairs::{answers_to_pairs, write_pairs};
use second_reader::tools::write_sample;

fn main() -> ExitCode {
    let pairs = fixed_pairs();
    let answers = answers_to_pairs(&pairs).into_bytes();
    write_sample("write_sheets", &[("sheets.pairs", write_pairs(&pairs)), ("sheets.answers", answers)])
}
