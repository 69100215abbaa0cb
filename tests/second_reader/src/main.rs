//! `second_reader [FILE]`: judges one trace, from a file or standard input.
//! `second_reader --many [FILE..]`: judges every trace of containers.
//! `second_reader --add FILE FILE [FILE..]`: adds printed sheets.
//! `second_reader --add-pairs [FILE..]`: adds every pair of containers.

#![forbid(unsafe_code)]

use std::io::{self, Read, Write};
use std::process::ExitCode;

use second_reader::adding::run_on_sheets;
use second_reader::container::{answers_text, read_container};
use second_reader::pairs::{answers_to_pairs, read_pairs};
use second_reader::printing::{run_on, Run, ACCEPTED, NO_ANSWER};

fn main() -> ExitCode {
    let arguments: Vec<String> = std::env::args().skip(1).collect();
    let result = match arguments.first().map(String::as_str) {
        Some("--many") => judge_containers(&arguments[1..]),
        Some("--add") => add_sheets(&arguments[1..]),
        Some("--add-pairs") => add_pairs(&arguments[1..]),
        _ => judge_one(&arguments),
    };
    match result {
        Ok(status) => ExitCode::from(status),
        Err(cause) => {
            eprintln!("second_reader: {cause}");
            ExitCode::from(NO_ANSWER)
        }
    }
}

fn judge_one(arguments: &[String]) -> Result<u8, String> {
    let trace = match arguments {
        [] => read_standard_input()?,
        [file] => read_file(file)?,
        _ => return Err("one trace at a time; --many takes containers".to_string()),
    };
    print_run(&run_on(&trace))
}

/// Prints the text of the sum, or `refused N`.
fn add_sheets(files: &[String]) -> Result<u8, String> {
    if files.len() < 2 {
        return Err("--add takes two sheets or more".to_string());
    }
    print_run(&run_on_sheets(&read_all(files)?))
}

/// Prints for each trace the line `trace LABEL` and then its answer. The status
/// says only that all were judged.
fn judge_containers(files: &[String]) -> Result<u8, String> {
    let mut printed = String::new();
    for container in read_all(files)? {
        printed += &answers_text(&read_container(&container)?);
    }
    print_bytes(printed.as_bytes())?;
    Ok(ACCEPTED)
}

/// Prints for each pair its sum or `refused N`. The status says only that all
/// were added or refused.
fn add_pairs(files: &[String]) -> Result<u8, String> {
    let mut printed = String::new();
    for container in read_all(files)? {
        printed += &answers_to_pairs(&read_pairs(&container)?);
    }
    print_bytes(printed.as_bytes())?;
    Ok(ACCEPTED)
}

fn read_all(files: &[String]) -> Result<Vec<Vec<u8>>, String> {
    if files.is_empty() {
        return Ok(vec![read_standard_input()?]);
    }
    files.iter().map(|file| read_file(file)).collect()
}

fn read_standard_input() -> Result<Vec<u8>, String> {
    let mut bytes = Vec::new();
    io::stdin()
        .read_to_end(&mut bytes)
        .map_err(|error| format!("standard input: {error}"))?;
    Ok(bytes)
}

fn read_file(path: &str) -> Result<Vec<u8>, String> {
    std::fs::read(path).map_err(|error| format!("{path}: {error}"))
}

fn print_run(run: &Run) -> Result<u8, String> {
    print_bytes(run.printed.as_bytes())?;
    Ok(run.status)
}

fn print_bytes(bytes: &[u8]) -> Result<(), String> {
    let mut output = io::stdout();
    output
        .write_all(bytes)
        .and_then(|()| output.flush())
        .map_err(|error| format!("standard output: {error}"))
}
