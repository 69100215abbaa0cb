//! Made traces are accepted, and the answer doesn't depend on how they are read.

use std::io::{self, Read};

use baseline::making::{make_trace, Naming, Plan, Size};
use baseline::reading::read_trace;

fn made(cores: usize, tasks: usize, runnables: usize, bytes: u64, seed: u64) -> Vec<u8> {
    by_plan(&Plan { cores, tasks, runnables, size: Size::Bytes(bytes), seed, naming: Naming::BeginAlike })
}

fn by_plan(plan: &Plan) -> Vec<u8> {
    assert_eq!(plan.fault(), None);
    let mut trace = Vec::new();
    make_trace(plan, &mut trace).expect("memory can be written");
    trace
}

fn answer(input: impl Read) -> String {
    String::from_utf8(read_trace(input).expect("memory can be read").text).expect("names are ASCII")
}

/// Hands out a few bytes at a time, now more and now less.
struct InPieces<'trace> {
    rest: &'trace [u8],
    size: usize,
}

impl Read for InPieces<'_> {
    fn read(&mut self, room: &mut [u8]) -> io::Result<usize> {
        self.size = self.size * 7 % 5003 + 1;
        let size = self.size.min(room.len()).min(self.rest.len());
        room[..size].copy_from_slice(&self.rest[..size]);
        self.rest = &self.rest[size..];
        Ok(size)
    }
}

#[test]
fn made_traces_of_all_sizes_are_accepted() {
    for (cores, tasks, runnables) in
        [(1, 1, 0), (1, 8, 4), (4, 48, 72), (64, 1, 1), (64, 100, 92), (1, 255, 0), (3, 2, 251), (4, 116, 116)]
    {
        for seed in 0..4 {
            let trace = made(cores, tasks, runnables, 400_000, seed);
            let text = answer(trace.as_slice());
            assert!(text.starts_with("verdict 0 line 0 scale ns span "), "{text}");
            // a few tasks need their time to come to every core
            assert!(tasks < cores || text.contains(&format!("\ncores {cores}\n")), "{text}");
            assert!(text.contains(&format!("\nprocesses {tasks}\n")), "{text}");
        }
    }
}

#[test]
fn names_that_end_alike_are_all_that_is_different() {
    let sheet = |naming| {
        let plan = Plan { cores: 4, tasks: 40, runnables: 200, size: Size::Bytes(400_000), seed: 1, naming };
        answer(by_plan(&plan).as_slice())
    };
    let end_alike = sheet(Naming::EndAlike);
    assert!(end_alike.starts_with("verdict 0 "), "{end_alike}");
    assert!(end_alike.contains("\nBrake_0007_Axis_WinchControl_TASK "), "{end_alike}");
    assert_eq!(end_alike, sheet(Naming::BeginAlike).lines().map(turned).collect::<String>());
}

/// A line of the sheet with the words of a task's or a routine's name in the
/// other order.
fn turned(line: &str) -> String {
    match line.split_once(' ') {
        Some((name, figures)) if name.starts_with("TASK_") || name.starts_with("ISR_") => {
            name.rsplit('_').collect::<Vec<_>>().join("_") + " " + figures + "\n"
        }
        _ => line.to_string() + "\n",
    }
}

#[test]
fn traces_of_short_lines_are_accepted() {
    for (cores, tasks, runnables) in [(1, 1, 0), (4, 8, 4), (4, 40, 200), (64, 100, 92), (4, 116, 116)] {
        let size = Size::Bytes(400_000);
        let trace = by_plan(&Plan { cores, tasks, runnables, size, seed: 1, naming: Naming::Short });
        let text = answer(trace.as_slice());
        assert!(text.starts_with("verdict 0 line 0 scale ms span "), "{text}");
        assert!(text.contains(&format!("\ncores {cores}\nC")), "{text}");
        assert!(text.contains(&format!("\nprocesses {tasks}\nT")), "{text}");
        let lines = trace.iter().filter(|&&byte| byte == b'\n').count();
        assert!(trace.len() < 30 * lines, "{} bytes in {lines} lines", trace.len());
    }
}

#[test]
fn names_and_times_are_all_that_is_shorter_in_short_lines() {
    let events = |naming| {
        let plan = Plan { cores: 4, tasks: 40, runnables: 200, size: Size::Lines(20_000), seed: 1, naming };
        let trace = String::from_utf8(by_plan(&plan)).expect("made of ASCII");
        trace.lines().filter(|line| !line.starts_with('#')).map(without_names_and_time).collect::<Vec<_>>()
    };
    assert_eq!(events(Naming::Short), events(Naming::BeginAlike));
}

/// Instances, type and event of a line.
fn without_names_and_time(line: &str) -> String {
    let fields: Vec<&str> = line.split(',').collect();
    [fields[2], fields[3], fields[5], fields[6]].join(",")
}

#[test]
fn a_trace_has_about_the_size_that_was_asked_for() {
    for bytes in [5_000, 100_000, 1_000_000] {
        let len = made(4, 8, 8, bytes, 1).len() as u64;
        assert!((bytes..bytes + 5_000).contains(&len), "{len} of {bytes}");
    }
}

#[test]
fn a_trace_has_as_many_lines_as_were_asked_for() {
    // in the header, in the first activations, and where lines have been written before
    for lines in [5, 6, 7, 50, 5_000, 5_001, 5_002, 5_003, 20_000] {
        let size = Size::Lines(lines);
        let trace = by_plan(&Plan { cores: 4, tasks: 40, runnables: 200, size, seed: 1, naming: Naming::BeginAlike });
        assert_eq!(trace.iter().filter(|&&byte| byte == b'\n').count() as u64, lines);
        assert_eq!(trace.last(), Some(&b'\n'));
        let text = answer(trace.as_slice());
        assert!(text.starts_with("verdict 0 "), "{lines} lines: {text}");
    }
}

/// What No. 7 of document 02 is for: each tenth of the trace has its share.
#[test]
fn processes_and_runnables_begin_and_end_throughout() {
    let trace = String::from_utf8(made(4, 40, 200, 20_000_000, 1)).expect("made of ASCII");
    let lines: Vec<&str> = trace.lines().collect();
    for tenth in lines.chunks_exact(lines.len() / 10) {
        let share = |end: &str| tenth.iter().filter(|line| line.ends_with(end)).count() as f64 / tenth.len() as f64;
        assert!(share(",activate") > 0.02, "{}", share(",activate"));
        assert!(share(",mtalimitexceeded") > 0.001, "{}", share(",mtalimitexceeded"));
        assert!(share(",start") > 0.15, "{}", share(",start"));
        assert!((share(",start") - share(",terminate")).abs() < 0.01);
    }
}

#[test]
fn the_same_seed_gives_the_same_trace() {
    assert_eq!(made(4, 8, 8, 50_000, 3), made(4, 8, 8, 50_000, 3));
    assert_ne!(made(4, 8, 8, 50_000, 3), made(4, 8, 8, 50_000, 4));
}

#[test]
fn the_answer_does_not_depend_on_the_pieces() {
    let trace = made(4, 16, 16, 300_000, 5);
    let whole = answer(trace.as_slice());
    for size in [0, 1, 700, 4999] {
        assert_eq!(answer(InPieces { rest: &trace, size }), whole);
    }
    let with_returns = String::from_utf8(trace).expect("made of ASCII").replace('\n', "\r\n");
    assert_eq!(answer(with_returns.as_bytes()), whole);
}
