//! `compare PROGRAM COUNT SEED [FOLDER]`: makes COUNT traces, gives each one to
//! the program under test on its standard input, and compares the bytes printed
//! and the exit status with those of the second reader. Traces on which the two
//! disagree are kept in FOLDER.

#![forbid(unsafe_code)]

use std::fs::{self, File};
use std::io::Write;
use std::process::{Child, Command, ExitCode, Output, Stdio};

use second_reader::making::make_trace;
use second_reader::making::random::Random;
use second_reader::printing::{number_of, run_on, Run};
use second_reader::tools::{difference, differs, make_folder, run_comparison, write_file, Task};
use second_reader::ways::{all_ways, least_of, ways_of};

/// Each number comes once in 67 traces: 300 times in 20,000.
const SHARE: u64 = 67;

/// What the comparison has found so far.
#[derive(Default)]
struct Findings {
    /// How often the second reader answered each number.
    numbers: [u64; 15],
    /// How many traces went each way.
    ways: Vec<u64>,
    disagreements: u64,
}

fn main() -> ExitCode {
    run_comparison("compare", "PROGRAM COUNT SEED [FOLDER]", |task| Ok(report(&compare(task)?, task)))
}

fn compare(task: &Task) -> Result<Findings, String> {
    make_folder(&task.folder)?;
    let mut findings = Findings { ways: vec![0; all_ways().len()], ..Findings::default() };
    for index in 0..task.count {
        let trace = make_trace(task.seed, index).bytes;
        let wanted = run_on(&trace);
        if let Some(count) = number_of(&wanted.printed).and_then(|n| findings.numbers.get_mut(usize::from(n))) {
            *count += 1;
        }
        for (count, gone) in findings.ways.iter_mut().zip(ways_of(&trace)) {
            *count += u64::from(gone);
        }
        let got = run_program(task, index, &trace)?;
        if differs(&wanted, &got) {
            findings.disagreements += 1;
            keep(task, index, &trace, &wanted, &got)?;
        }
    }
    Ok(findings)
}

/// Most traces come from a file, which is quick; every eighth one comes through
/// a pipe in pieces, since reads then end at other places.
fn run_program(task: &Task, index: u64, trace: &[u8]) -> Result<Output, String> {
    let answer = if index % 8 == 7 {
        run_with_pipe(task, index, trace)
    } else {
        run_with_file(task, trace)
    };
    answer.map_err(|error| format!("{}: {error}", task.program.display()))
}

fn start(task: &Task, input: Stdio) -> std::io::Result<Child> {
    Command::new(&task.program)
        .stdin(input)
        .stdout(Stdio::piped())
        .stderr(Stdio::null())
        .spawn()
}

fn run_with_file(task: &Task, trace: &[u8]) -> std::io::Result<Output> {
    let path = task.folder.join("current.btf");
    fs::write(&path, trace)?;
    start(task, Stdio::from(File::open(&path)?))?.wait_with_output()
}

fn run_with_pipe(task: &Task, index: u64, trace: &[u8]) -> std::io::Result<Output> {
    let mut child = start(task, Stdio::piped())?;
    let input = child.stdin.take();
    std::thread::scope(|scope| {
        scope.spawn(move || {
            if let Some(mut input) = input {
                write_in_pieces(index, trace, &mut input);
            }
        });
        child.wait_with_output()
    })
}

/// A program that has its answer may stop reading, so a refused write is fine.
fn write_in_pieces(index: u64, trace: &[u8], input: &mut impl Write) {
    let random = &mut Random::new(index, trace.len() as u64);
    let mut rest = trace;
    while !rest.is_empty() {
        let size = (*random.pick(&[&1, &17, &1000, &4096, &65_536])).min(rest.len());
        if input.write_all(&rest[..size]).is_err() {
            return;
        }
        rest = &rest[size..];
    }
}

fn keep(task: &Task, index: u64, trace: &[u8], wanted: &Run, got: &Output) -> Result<(), String> {
    let path = task.folder.join(format!("disagreement_{}_{index}.btf", task.seed));
    write_file(&path, trace)?;
    write_file(&path.with_extension("wanted"), wanted.printed.as_bytes())?;
    write_file(&path.with_extension("got"), &got.stdout)?;
    println!("trace {index}: {}; kept in {}", difference(wanted, got), path.display());
    Ok(())
}

/// Prints the figures; true if the two agree and each number and each way came
/// often enough.
fn report(findings: &Findings, task: &Task) -> bool {
    let mut often_enough = true;
    let numbers = findings.numbers.iter().enumerate().map(|(number, count)| {
        (format!("number {number:2}"), count, task.count / SHARE)
    });
    let ways = all_ways().into_iter().zip(&findings.ways);
    let ways = ways.map(|(way, count)| (way.to_string(), count, least_of(way, task.count)));
    for (what, &count, least) in numbers.chain(ways) {
        let rare = count < least;
        often_enough &= !rare;
        println!("{what}: {count:6} times{}", if rare { ", too rare" } else { "" });
    }
    println!(
        "{} traces of seed {}, {} disagreements",
        task.count, task.seed, findings.disagreements
    );
    findings.disagreements == 0 && often_enough
}
