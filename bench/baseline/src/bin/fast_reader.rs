//! `fast_reader`: judges the trace on standard input and prints what the program
//! prints. Exit status: 0 accepted, 1 refused, 2 anything else.

#![forbid(unsafe_code)]

use std::io::{self, Write};
use std::process::ExitCode;

use baseline::reading::{read_trace, Answer};

fn main() -> ExitCode {
    match answer() {
        Ok(answer) if answer.accepted => ExitCode::SUCCESS,
        Ok(_) => ExitCode::from(1),
        Err(error) => {
            eprintln!("fast_reader: {error}");
            ExitCode::from(2)
        }
    }
}

fn answer() -> io::Result<Answer> {
    let answer = read_trace(io::stdin().lock())?;
    let mut output = io::stdout().lock();
    output.write_all(&answer.text)?;
    output.flush()?;
    Ok(answer)
}
