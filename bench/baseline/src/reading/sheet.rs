//! The text that is printed.

use std::fmt::Arguments;
use std::io::Write;

use super::event_rules::Kind;
use super::history::History;
use super::names::{Name, Names};
use super::refusal::Refused;
use super::Answer;

pub fn refused(refused: &Refused) -> Answer {
    let text = format!("verdict {} line {}\n", refused.why as u8, refused.line).into_bytes();
    Answer { accepted: false, text }
}

pub fn accepted(scale: &str, mut history: History) -> Answer {
    for number in 0..history.names.list.len() {
        if history.names.list[number].kind == Kind::Core {
            history.settle(number, history.last_time);
        }
    }
    let mut text = Vec::new();
    let span = history.last_time - history.first_time;
    print(&mut text, format_args!("verdict 0 line 0 scale {scale} span {span}\n"));
    print_cores(&mut text, &history.names);
    print_processes(&mut text, &history.names);
    Answer { accepted: true, text }
}

fn print_cores(text: &mut Vec<u8>, names: &Names) {
    print(text, format_args!("cores {}\n", names.core_count));
    for core in names.list.iter().filter(|name| name.kind == Kind::Core) {
        text.extend(core.text());
        print(text, format_args!(" {} {} {}\n", core.held, core.idle, core.unknown));
    }
}

fn print_processes(text: &mut Vec<u8>, names: &Names) {
    let is_process = |name: &&Name| matches!(name.kind, Kind::Task | Kind::Interrupt);
    print(text, format_args!("processes {}\n", names.list.iter().filter(is_process).count()));
    for process in names.list.iter().filter(is_process) {
        text.extend(process.text());
        print(text, format_args!(" {}\n", process.held));
    }
}

fn print(text: &mut Vec<u8>, what: Arguments) {
    // a list of bytes takes whatever is written to it
    let _ = text.write_fmt(what);
}
