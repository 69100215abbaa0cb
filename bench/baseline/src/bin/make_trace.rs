//! `make_trace [--end-alike | --short] [--lines] CORES TASKS RUNNABLES SIZE [SEED]`:
//! writes a valid trace of about so many bytes, or of so many lines, to standard
//! output. Its names begin alike, or end alike, or names and times are short.

#![forbid(unsafe_code)]

use std::io;
use std::process::ExitCode;

use baseline::making::{make_trace, Naming, Plan, Size};

const USAGE: &str = "arguments: [--end-alike | --short] [--lines] CORES TASKS RUNNABLES SIZE [SEED]";

fn main() -> ExitCode {
    let arguments: Vec<String> = std::env::args().skip(1).collect();
    let made =
        plan(&arguments).and_then(|plan| make_trace(&plan, io::stdout().lock()).map_err(|error| error.to_string()));
    match made {
        Ok(()) => ExitCode::SUCCESS,
        Err(cause) => {
            eprintln!("make_trace: {cause}");
            ExitCode::from(2)
        }
    }
}

fn plan(arguments: &[String]) -> Result<Plan, String> {
    let (options, numbers) = arguments.split_at(arguments.iter().take_while(|word| word.starts_with("--")).count());
    let (sizes, seed) = match numbers {
        [sizes @ .., seed] if numbers.len() == 5 => (sizes, number(seed)?),
        sizes => (sizes, 1),
    };
    let [cores, tasks, runnables, size] = sizes else {
        return Err(USAGE.to_string());
    };
    let size = Size::Bytes(number(size)?);
    let (cores, tasks, runnables) = (number(cores)?, number(tasks)?, number(runnables)?);
    let mut plan = Plan { cores, tasks, runnables, size, seed, naming: Naming::BeginAlike };
    options.iter().try_for_each(|option| choose(&mut plan, option))?;
    match plan.fault() {
        Some(fault) => Err(fault.to_string()),
        None => Ok(plan),
    }
}

fn choose(plan: &mut Plan, option: &str) -> Result<(), String> {
    match (option, plan.size) {
        ("--end-alike", _) => plan.naming = Naming::EndAlike,
        ("--short", _) => plan.naming = Naming::Short,
        ("--lines", Size::Bytes(size)) => plan.size = Size::Lines(size),
        _ => return Err(USAGE.to_string()),
    }
    Ok(())
}

fn number<N: std::str::FromStr>(text: &str) -> Result<N, String> {
    text.parse().map_err(|_| format!("'{text}' is no such number"))
}
