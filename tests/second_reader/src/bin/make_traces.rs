//! `make_traces SEED COUNT DESTINATION`: makes COUNT traces. DESTINATION is a
//! folder that exists, or else the container file to write; `-` is standard
//! output.

#![forbid(unsafe_code)]

use std::io::{self, Write};
use std::path::Path;
use std::process::ExitCode;

use second_reader::container::{write_container, LabelledTrace};
use second_reader::making::make_trace;

fn main() -> ExitCode {
    let arguments: Vec<String> = std::env::args().skip(1).collect();
    match run(&arguments) {
        Ok(()) => ExitCode::SUCCESS,
        Err(cause) => {
            eprintln!("make_traces: {cause}");
            ExitCode::from(2)
        }
    }
}

fn run(arguments: &[String]) -> Result<(), String> {
    let [seed, count, destination] = arguments else {
        return Err("arguments: SEED COUNT DESTINATION".to_string());
    };
    let seed: u64 = seed.parse().map_err(|_| "the seed is no number")?;
    let count: u64 = count.parse().map_err(|_| "the count is no number")?;
    let traces = (0..count).map(|index| labelled(seed, index));
    if Path::new(destination).is_dir() {
        return write_files(traces, Path::new(destination));
    }
    let container = write_container(&traces.collect::<Vec<_>>());
    let written = match destination.as_str() {
        "-" => io::stdout().write_all(&container),
        path => std::fs::write(path, container),
    };
    written.map_err(|error| format!("{destination}: {error}"))
}

fn labelled(seed: u64, index: u64) -> LabelledTrace {
    LabelledTrace { label: format!("made-{seed}-{index:06}"), bytes: make_trace(seed, index).bytes }
}

fn write_files(traces: impl Iterator<Item = LabelledTrace>, folder: &Path) -> Result<(), String> {
    for trace in traces {
        let path = folder.join(format!("{}.btf", trace.label));
        std::fs::write(&path, &trace.bytes).map_err(|error| format!("{}: {error}", path.display()))?;
    }
    Ok(())
}
