//! Names for the entities of a trace.

use super::random::Random;

const PLAIN: [&str; 16] = [
    "Core_1", "Core_2", "Task_A", "Task_B", "TASK_1MS", "ISR_can", "Runnable_1", "Runnable_1_1",
    "Sem1", "Sem2", "Stimulus_Task_A", "Scheduler_1", "SIM", "TIMER_2ms", "S16_C1_1", "Process1",
];

/// Words that stand elsewhere in a line, short names that begin one another,
/// names of the same letters, and the outermost bytes that a name may have.
const ODD: [&str; 24] = [
    "T", "I", "R", "SEM", "start", "cores", "processes", "verdict", "0", "1", "00", "-1", "a",
    "aa", "ab", "ba", "aab", "aba", "baa", "!", "~", "#version", "\"x\"", "a.b-c/d",
];

/// A name that isn't among `used`.
pub fn fresh_name(random: &mut Random, used: &[String]) -> String {
    loop {
        let name = any_name(random);
        if !used.contains(&name) {
            return name;
        }
    }
}

fn any_name(random: &mut Random) -> String {
    match random.below(20) {
        0..=9 => PLAIN[random.below(PLAIN.len())].to_string(),
        10..=15 => ODD[random.below(ODD.len())].to_string(),
        16 => name_of_length(random, 64),
        17 => name_of_length(random, 63),
        _ => {
            let length = random.between(1, 12) as usize;
            name_of_length(random, length)
        }
    }
}

/// Any bytes that a name may have.
pub fn name_of_length(random: &mut Random, length: usize) -> String {
    let mut name = String::new();
    while name.len() < length {
        let byte = random.between(33, 126) as u8;
        if byte != b',' {
            name.push(char::from(byte));
        }
    }
    name
}
