//! Traces with one value at its limit or one past it.

use super::draft::EventText;
use super::names::name_of_length;
use super::random::Random;
use super::story::Story;
use super::world::LATEST;
use super::Made;

pub fn make(random: &mut Random) -> Made {
    match random.below(8) {
        0 => latest_time(random),
        1 => largest_instance(random),
        2 => largest_count(random),
        3 => longest_name(random),
        4 => longest_line(random),
        5 => longest_charge(random),
        _ => last_day_or_hour(random),
    }
}

/// A valid beginning, then these lines, of which the last one earns `aim`.
fn after_events(random: &mut Random, aim: u8, lines: Vec<Vec<u8>>) -> Made {
    let mut story = Story::some_events(random);
    for line in lines {
        story.add(line);
    }
    Made::aimed(aim, story.finish(random))
}

fn latest_time(random: &mut Random) -> Made {
    let over = random.chance(50);
    let time = if over { LATEST + 1 } else { LATEST };
    let event = EventText::new(time, ("S", 0), ("STI", "trigger"), ("S", 0));
    after_events(random, if over { 5 } else { 0 }, vec![event.line()])
}

/// In a field that bears any instance; the names are in no world.
fn largest_instance(random: &mut Random) -> Made {
    let over = random.chance(50);
    let mut event = EventText::new(LATEST, ("new_source", 0), ("T", "activate"), ("new_task", 0));
    let number: &[u8] = if over { b"4294967296" } else { b"4294967295" };
    event.set(*random.pick(&[&3, &6]), number);
    after_events(random, if over { 5 } else { 0 }, vec![event.line()])
}

/// To the largest or smallest count and back, or one step past it.
fn largest_count(random: &mut Random) -> Made {
    let line = |event: &str, count: &str| {
        EventText::new(LATEST, ("P", 0), ("SEM", event), ("new_semaphore", 0)).with_note(count).line()
    };
    let mut lines = if random.chance(60) {
        vec![line("queued", "4294967294"), line("increment", "4294967295")]
    } else {
        vec![line("queued", "1"), line("decrement", "0")]
    };
    let large = lines[1].ends_with(b"5");
    let (aim, last) = match random.below(4) {
        0 if large => (0, line("decrement", "4294967294")),
        0 => (0, line("increment", "1")),
        1 => (5, line("increment", "4294967296")),
        2 if large => (14, line("increment", "0")),
        2 => (14, line("decrement", "4294967295")),
        _ => (14, line("increment", "4294967295")),
    };
    lines.push(last);
    after_events(random, aim, lines)
}

fn longest_name(random: &mut Random) -> Made {
    let over = random.chance(50);
    let name = name_of_length(random, if over { 65 } else { 64 });
    let mut event = EventText::new(LATEST, ("new_task", 0), ("EVENT", "set_event"), ("E", 0)).with_note("x");
    event.set(*random.pick(&[&2, &5, &8]), name.as_bytes());
    after_events(random, if over { 5 } else { 0 }, vec![event.line()])
}

/// A comment of 1,023 bytes is taken and an event line of so many is read;
/// one byte more is refused whatever the text.
fn longest_line(random: &mut Random) -> Made {
    let over = random.chance(50);
    let (start, aim) = *random.pick(&[&("# ", 0), &("0,", 5), &("#version ", 2), &("#creatox ", 3)]);
    let mut line = start.as_bytes().to_vec();
    line.resize(if over { 1024 } else { 1023 }, b'x');
    after_events(random, if over { 1 } else { aim }, vec![line])
}

/// Many cores held over nearly the whole range of times, so that a process's
/// charge comes near 2^62.
fn longest_charge(random: &mut Random) -> Made {
    let mut story = Story::begin(random);
    let cores = random.between(1, 64);
    let processes = random.between(1, 3);
    for core in 0..cores {
        let (name, process) = (format!("core{core}"), format!("task{}", core % processes));
        let event = random.pick(&["start", "resume", "poll_parking", "poll", "run"]);
        story.add_event(&EventText::new(0, (&name, 0), ("T", event), (&process, core as u32)));
    }
    let middle = random.between(0, LATEST);
    story.add_event(&EventText::new(middle, ("S", 0), ("STI", "trigger"), ("S", 0)));
    story.add_event(&EventText::new(LATEST, ("S", 0), ("STI", "trigger"), ("S", 0)));
    Made::aimed(0, story.finish(random))
}

/// A month and the number of its days, in a year that may be a leap year.
const MONTHS: [(&str, u32); 16] = [
    ("2023-01", 31), ("2023-02", 28), ("2024-02", 29), ("1900-02", 28), ("2000-02", 29), ("0000-02", 29),
    ("0100-02", 28), ("2023-03", 31), ("2023-04", 30), ("2023-05", 31), ("2023-06", 30), ("9999-07", 31),
    ("2023-08", 31), ("2023-09", 30), ("2023-11", 30), ("2023-12", 31),
];

/// A creation date with each part first or last of its range, one perhaps one
/// past it.
fn last_day_or_hour(random: &mut Random) -> Made {
    let (month, days) = MONTHS[random.below(MONTHS.len())];
    let last = random.chance(50);
    let (mut day, mut hour, mut minute, mut second) = if last { (days, 23, 59, 59) } else { (1, 0, 0, 0) };
    let mut month = month.to_string();
    let wrong = random.chance(50);
    if wrong {
        match random.below(5) {
            0 => month = random.pick(&["2023-00", "2023-13", "0000-00", "9999-19"]).to_string(),
            1 => day = if last { days + 1 } else { 0 },
            2 => hour = 24,
            3 => minute = 60,
            _ => second = 60,
        }
    }
    let date = format!("#creationDate {month}-{day:02}T{hour:02}:{minute:02}:{second:02}Z");
    let mut story = Story::begin(random);
    story.draft.lines.retain(|line| !line.starts_with(b"#creationDate "));
    let place = 1 + random.below(story.draft.lines.len());
    story.draft.lines.insert(place, date.into_bytes());
    Made::aimed(if wrong { 3 } else { 0 }, story.finish(random))
}
