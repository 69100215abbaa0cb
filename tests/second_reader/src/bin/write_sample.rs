//! `write_sample FOLDER`: writes the fixed sample, `sample.traces` and
//! `sample.answers`. README.md describes both forms.

#![forbid(unsafe_code)]

use std::process::ExitCode;

use second_reader::container::{answers_text, write_container};
use second_reader::sample::fixed_sample;
use second_reader::tools::write_sample;

fn main() -> ExitCode {
    let traces = fixed_sample();
    let answers = answers_text(&traces).into_bytes();
    write_sample("write_sample", &[("sample.traces", write_container(&traces)), ("sample.answers", answers)])
}
