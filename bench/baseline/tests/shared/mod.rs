//! What the tests of the fast reader's answers have in common.

use baseline::reading::read_trace;

pub const PRELUDE: &str = "#version 2.2.0\n#timeScale ns\n";

pub fn answer(trace: &[u8]) -> String {
    let answer = read_trace(trace).expect("bytes in memory can be read");
    String::from_utf8(answer.text).expect("names are ASCII")
}

/// The number and the line of the verdict on lines behind the prelude.
pub fn verdict(lines: &str) -> (u64, u64) {
    verdict_on(&format!("{PRELUDE}{lines}"))
}

/// The verdict if the number is given to the last of the lines.
pub fn on_the_last(lines: &str, number: u64) -> (u64, u64) {
    match number {
        0 => (0, 0),
        _ => (number, 3 + lines.matches('\n').count() as u64),
    }
}

pub fn verdict_on(trace: &str) -> (u64, u64) {
    let text = answer(trace.as_bytes());
    let words: Vec<&str> = text.split_whitespace().collect();
    (words[1].parse().expect("a number"), words[3].parse().expect("a line"))
}
