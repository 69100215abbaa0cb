//! What the comparisons on sheets share: the program's runs, on files of this
//! comparison alone, and where it disagrees with the second reader, told and
//! kept.

use std::fs;
use std::path::{Path, PathBuf};
use std::process::{Command, Output, Stdio};

use crate::printing::Run;
use crate::spread::{print_lines, Line};
use crate::tools::{difference, make_folder, write_file, Task};

/// Disagreements of which the files are kept; all are told.
const KEPT: u64 = 20;

/// In the place of a program: only what was made is counted.
const SPREAD: &str = "--spread";

pub const USAGE: &str = "PROGRAM COUNT SEED [FOLDER], or --spread COUNT SEED";

/// The program under test, and a folder of this comparison alone, which goes
/// when it ends.
pub struct Program<'a> {
    path: &'a Path,
    folder: PathBuf,
}

impl Program<'_> {
    /// Nothing where only what was made is counted.
    fn of(task: &Task) -> Result<Option<Program<'_>>, String> {
        if task.program == Path::new(SPREAD) {
            return Ok(None);
        }
        let folder = std::env::temp_dir().join(format!("compared_sheets_{}", std::process::id()));
        make_folder(&folder)?;
        Ok(Some(Program { path: &task.program, folder }))
    }

    /// `PROGRAM add FILE FILE [FILE..]`.
    pub fn add(&self, sheets: &[Vec<u8>]) -> Result<Output, String> {
        let files = write_sheets(&self.folder, "sheet", sheets)?;
        Command::new(self.path)
            .arg("add")
            .args(files)
            .stdin(Stdio::null())
            .stderr(Stdio::null())
            .output()
            .map_err(|error| format!("{}: {error}", self.path.display()))
    }
}

impl Drop for Program<'_> {
    fn drop(&mut self) {
        // What can't be removed stays; the answer doesn't depend on it.
        let _ = fs::remove_dir_all(&self.folder);
    }
}

/// The files `NAME_1.sheet` and so on.
fn write_sheets(folder: &Path, name: &str, sheets: &[Vec<u8>]) -> Result<Vec<PathBuf>, String> {
    let files = sheets.iter().enumerate().map(|(place, bytes)| {
        let path = folder.join(format!("{name}_{}.sheet", place + 1));
        write_file(&path, bytes).map(|()| path)
    });
    files.collect()
}

/// Sheets on which the program and the second reader disagree.
pub struct Disagreement {
    pub sheets: Vec<Vec<u8>>,
    /// What differs, in one line.
    pub told: String,
    pub wanted: Vec<u8>,
    pub got: Vec<u8>,
}

impl Disagreement {
    pub fn new(sheets: &[Vec<u8>], wanted: &Run, got: &Output) -> Disagreement {
        Disagreement {
            sheets: sheets.to_vec(),
            told: difference(wanted, got),
            wanted: wanted.printed.clone().into_bytes(),
            got: got.stdout.clone(),
        }
    }

    fn tell(&self, index: u64) {
        println!("case {index}: {}", self.told);
        if let Some(line) = first_difference(&self.wanted, &self.got).filter(|line| *line > 1) {
            println!("    line {line} is the first that differs");
        }
    }

    fn keep(&self, task: &Task, index: u64) -> Result<(), String> {
        make_folder(&task.folder)?;
        let name = format!("disagreement_{}_{index}", task.seed);
        let files = write_sheets(&task.folder, &name, &self.sheets)?;
        write_file(&task.folder.join(format!("{name}.wanted")), &self.wanted)?;
        write_file(&task.folder.join(format!("{name}.got")), &self.got)?;
        println!("    kept: {}", files.iter().map(|file| file.display().to_string()).collect::<Vec<_>>().join(" "));
        Ok(())
    }
}

/// The first line that differs, counted from 1.
fn first_difference(wanted: &[u8], got: &[u8]) -> Option<usize> {
    let lines = |text: &[u8]| -> Vec<Vec<u8>> { text.split(|&byte| byte == b'\n').map(<[u8]>::to_vec).collect() };
    let (wanted, got) = (lines(wanted), lines(got));
    (0..wanted.len().max(got.len())).find(|&line| wanted.get(line) != got.get(line)).map(|line| line + 1)
}

/// Goes through all cases and answers with the number of disagreements. Each
/// case is made and counted by `compare_one`, and run where there is a program.
pub fn compare_all(
    task: &Task,
    mut compare_one: impl FnMut(u64, Option<&Program>) -> Result<Option<Disagreement>, String>,
) -> Result<u64, String> {
    let program = Program::of(task)?;
    let mut disagreements = 0;
    for index in 0..task.count {
        if let Some(disagreement) = compare_one(index, program.as_ref())? {
            disagreements += 1;
            disagreement.tell(index);
            if disagreements <= KEPT {
                disagreement.keep(task, index)?;
            }
        }
    }
    Ok(disagreements)
}

/// Prints the figures; true if the two agree and all came often enough.
pub fn report(task: &Task, lines: &[Line], disagreements: u64) -> bool {
    let often_enough = print_lines(lines);
    println!("{} cases of seed {}, {disagreements} disagreements", task.count, task.seed);
    disagreements == 0 && often_enough
}
