//! What the programs beside the reader share: the arguments of a comparison,
//! when two runs differ and how that is told, and files written.

use std::fs;
use std::path::{Path, PathBuf};
use std::process::{ExitCode, Output};

use crate::printing::Run;

/// What a comparison is asked for.
pub struct Task {
    pub program: PathBuf,
    pub count: u64,
    pub seed: u64,
    /// Where disagreements are kept.
    pub folder: PathBuf,
}

fn read_task(arguments: &[String], usage: &str) -> Result<Task, String> {
    let (program, count, seed, folder) = match arguments {
        [program, count, seed] => (program, count, seed, "disagreements"),
        [program, count, seed, folder] => (program, count, seed, folder.as_str()),
        _ => return Err(format!("arguments: {usage}")),
    };
    Ok(Task {
        program: PathBuf::from(program),
        count: count.parse().map_err(|_| "the count is no number")?,
        seed: seed.parse().map_err(|_| "the seed is no number")?,
        folder: PathBuf::from(folder),
    })
}

/// A program that compares: status 0 if it answers that all is well, 1 if not,
/// and 2 if the comparison couldn't be made.
pub fn run_comparison(program: &str, usage: &str, compare: fn(&Task) -> Result<bool, String>) -> ExitCode {
    let arguments: Vec<String> = std::env::args().skip(1).collect();
    match read_task(&arguments, usage).and_then(|task| compare(&task)) {
        Ok(true) => ExitCode::SUCCESS,
        Ok(false) => ExitCode::from(1),
        Err(cause) => {
            eprintln!("{program}: {cause}");
            ExitCode::from(2)
        }
    }
}

/// Other bytes, or another status.
pub fn differs(wanted: &Run, got: &Output) -> bool {
    got.stdout != wanted.printed.as_bytes() || got.status.code() != Some(i32::from(wanted.status))
}

/// The first lines and the status of both.
pub fn difference(wanted: &Run, got: &Output) -> String {
    let (line, other) = (first_line(wanted.printed.as_bytes()), first_line(&got.stdout));
    format!("wanted `{line}` and status {}, got `{other}` and {}", wanted.status, got.status)
}

fn first_line(printed: &[u8]) -> String {
    let line = printed.split(|&byte| byte == b'\n').next().unwrap_or_default();
    String::from_utf8_lossy(line).into_owned()
}

pub fn make_folder(path: &Path) -> Result<(), String> {
    fs::create_dir_all(path).map_err(|error| format!("{}: {error}", path.display()))
}

pub fn write_file(path: &Path, bytes: &[u8]) -> Result<(), String> {
    fs::write(path, bytes).map_err(|error| format!("{}: {error}", path.display()))
}

/// A program that writes a sample into the folder that its one argument names.
pub fn write_sample(program: &str, files: &[(&str, Vec<u8>)]) -> ExitCode {
    let arguments: Vec<String> = std::env::args().skip(1).collect();
    let written = match arguments.as_slice() {
        [folder] => files.iter().try_for_each(|(name, bytes)| write_file(&Path::new(folder).join(name), bytes)),
        _ => Err("argument: FOLDER".to_string()),
    };
    match written {
        Ok(()) => ExitCode::SUCCESS,
        Err(cause) => {
            eprintln!("{program}: {cause}");
            ExitCode::from(2)
        }
    }
}
