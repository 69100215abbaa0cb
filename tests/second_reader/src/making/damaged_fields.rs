//! Damage that earns 5 to 7: the forms of fields, the words, the field rules.

use super::draft::EventText;
use super::names::name_of_length;
use super::random::Random;
use super::story::Story;
use super::world::World;
use crate::words::{events_of, read_type_and_event, TYPE_WORDS};

const WRONG_NUMBERS: [&[u8]; 18] = [
    b"", b"00", b"01", b"007", b"+1", b"-1", b"-0", b" 1", b"1 ", b"1.0", b"0x1", b"1e3", b"a", b"1\0",
    b"18446744073709551616", b"18446744073709551617", b"340282366920938463463374607431768211456", b"\xd9\xa1",
];

/// Too large for an instance and a count, but not for a time.
const LARGE_NUMBERS: [&[u8]; 3] = [b"4294967296", b"4294967297", b"72057594037927935"];

/// Too large for a time.
const LATE_TIMES: [&[u8]; 4] =
    [b"72057594037927936", b"100000000000000000", b"18446744073709551615", b"99999999999999999"];

const WRONG_SIGNAL_NOTES: [&[u8]; 12] =
    [b"1.", b".5", b"-", b"1.2.3", b"+1", b"--1", b"1.-2", b"x", b"1e3", b"-.5", b".", b"0x10"];

fn draw(random: &mut Random, pool: &[&[u8]]) -> Vec<u8> {
    random.pick(pool).to_vec()
}

/// Aim 5: a wrong field count, number, name or note form.
pub fn form(random: &mut Random) -> Vec<u8> {
    let story = Story::some_events(random);
    let mut event = story.possible_event(random);
    if random.chance(15) {
        spoil_words(random, &mut event);
    }
    match random.below(8) {
        0 => spoil_field_count(random, &mut event),
        1 => event.set(1, &wrong_number(random, &LATE_TIMES)),
        2 => event.set(3, &wrong_number(random, &LARGE_NUMBERS)),
        3 => event.set(6, &wrong_number(random, &LARGE_NUMBERS)),
        4 => event.set(2, &wrong_name(random)),
        5 => event.set(5, &wrong_name(random)),
        6 => event.set(8, &wrong_name(random)),
        _ => event = wrong_note(random, &story.world),
    }
    story.finish_with_damage(random, event.line())
}

fn wrong_number(random: &mut Random, too_large: &[&[u8]]) -> Vec<u8> {
    if random.chance(30) {
        draw(random, too_large)
    } else {
        draw(random, &WRONG_NUMBERS)
    }
}

/// Empty, too long, or with a byte that no name has.
fn wrong_name(random: &mut Random) -> Vec<u8> {
    let length = *random.pick(&[&1, &5, &63, &64]);
    let mut name = name_of_length(random, length).into_bytes();
    let byte = *random.pick(&[&0, &1, &9, &32, &127, &128, &0xc3, &0xff]);
    match random.below(4) {
        0 => name.clear(),
        1 => name.resize(*random.pick(&[&65, &66, &128, &300]), b'n'),
        2 => *name.last_mut().expect("not empty") = byte,
        _ => name[0] = byte,
    }
    name
}

fn spoil_field_count(random: &mut Random, event: &mut EventText) {
    match random.below(4) {
        0 => event.fields.truncate(1 + random.below(6)),
        1 => event.fields = vec![Vec::new()],
        2 => {
            event.set(8, b"x");
            event.fields.push(draw(random, &[b"", b"x", b"0"]));
        }
        _ => event.fields = vec![Vec::new(); *random.pick(&[&2, &7, &8, &9, &40])],
    }
}

/// A note whose closer form is wrong, though it has a name's bytes.
fn wrong_note(random: &mut Random, world: &World) -> EventText {
    let name = world.any_name(random);
    if random.chance(50) {
        let event = random.pick(&["read", "write"]);
        let mut line = EventText::new(world.time, (&name, 0), ("SIG", event), (&name, 0));
        line.set(8, &draw(random, &WRONG_SIGNAL_NOTES));
        return line;
    }
    let events = events_of(crate::words::TargetType::Semaphore);
    let event = random.pick(events);
    let mut line = EventText::new(world.time, (&name, 0), ("SEM", event), (&name, 0));
    line.set(8, &draw(random, &[b"01", b"x", b"-1", b"+1", b"1.0", b"4294967296", b"18446744073709551617"]));
    line
}

/// Aim 6: an unknown type, or an event that isn't one of its type.
pub fn word(random: &mut Random) -> Vec<u8> {
    let story = Story::some_events(random);
    let mut event = story.possible_event(random);
    spoil_words(random, &mut event);
    if random.chance(20) {
        event.set(8, b"x");
    }
    if random.chance(20) {
        event.set(1, b"0");
    }
    story.finish_with_damage(random, event.line())
}

/// Known words that don't go together, though they easily might.
const NEAR_MISSES: [(&str, &str); 12] = [
    ("I", "mtalimitexceeded"), ("T", "interrupt_suspended"), ("T", "suspend"), ("R", "preempt"), ("R", "activate"),
    ("R", "wait"), ("SEM", "release"), ("T", "released"), ("T", "wait_event"), ("EVENT", "wait"), ("SCHED", "trigger"),
    ("SIG", "set_event"),
];

fn spoil_words(random: &mut Random, event: &mut EventText) {
    let original = event.clone();
    while read_type_and_event(&event.fields[3], &event.fields[6]).is_some() {
        *event = original.clone();
        match random.below(6) {
            0 => event.set(4, random.pick(&["", "t", "ISR", "1", "TASK", "Sem", "CORE", "ST", "TT", "SIGNAL"]).as_bytes()),
            1 => event.set(7, random.pick(&["", "Start", "stop", "suspended", "activ", "-", "trigger_", "free_"]).as_bytes()),
            2 => spoil_one_word(random, event, 4),
            3 => spoil_one_word(random, event, 7),
            4 => swap_in_other_word(random, event),
            _ => {
                let (type_word, word) = NEAR_MISSES[random.below(NEAR_MISSES.len())];
                event.set(4, type_word.as_bytes());
                event.set(7, word.as_bytes());
            }
        }
    }
}

/// Small changes of a known word.
fn spoil_one_word(random: &mut Random, event: &mut EventText, field: usize) {
    let mut word = event.fields[field - 1].clone();
    match random.below(7) {
        0 => word.push(b' '),
        1 => word.insert(0, b' '),
        2 => word.push(0),
        3 => word = word.to_ascii_lowercase(),
        4 => word = word.to_ascii_uppercase(),
        5 => {
            word.pop();
        }
        _ => word.resize(65, b'x'),
    }
    event.set(field, &word);
}

/// A word that is known, but perhaps not together with the other one.
fn swap_in_other_word(random: &mut Random, event: &mut EventText) {
    let (type_word, kind) = TYPE_WORDS[random.below(TYPE_WORDS.len())];
    if random.chance(50) {
        event.set(4, type_word.as_bytes());
    } else {
        let word = random.pick(events_of(kind));
        event.set(7, word.as_bytes());
    }
}

const CORE_EVENTS: [&str; 11] = [
    "start", "resume", "poll_parking", "preempt", "wait", "park", "terminate", "poll", "run", "release",
    "release_parking",
];

const STATE_EVENTS: [&str; 8] =
    ["free", "unlock", "lock", "lock_used", "full", "overfull", "unlock_full", "used"];

/// Aim 7: a rule on source, instances or the note's presence.
pub fn rule(random: &mut Random) -> Vec<u8> {
    let story = Story::some_events(random);
    let time = if random.chance(20) { 0 } else { story.world.time };
    let name = story.world.any_name(random);
    let line = match random.below(6) {
        0 => source_instance(random, time, &name),
        1 => target_instance(random, time, &name),
        2 | 3 => not_by_itself(random, time, &name),
        4 => note_missing(random, time, &name),
        _ => note_barred(random, &story),
    };
    story.finish_with_damage(random, line.line())
}

fn not_zero(random: &mut Random) -> u32 {
    *random.pick(&[&1, &2, &u32::MAX])
}

fn source_instance(random: &mut Random, time: u64, name: &str) -> EventText {
    let number = not_zero(random);
    if random.chance(15) {
        return EventText::new(time, ("S", number), ("I", "interrupt_suspended"), (name, 0));
    }
    let type_word = random.pick(&["T", "I"]);
    let event = CORE_EVENTS[random.below(CORE_EVENTS.len())];
    EventText::new(time, ("C", number), (type_word, event), (name, 0))
}

fn target_instance(random: &mut Random, time: u64, name: &str) -> EventText {
    let target = (name, not_zero(random));
    let source = ("P", 0);
    match random.below(5) {
        0 => EventText::new(time, source, ("SCHED", "schedulepoint"), target),
        1 => EventText::new(time, source, ("EVENT", random.pick(&["wait_event", "clear_event"])), target),
        2 => EventText::new(time, source, ("EVENT", "set_event"), target).with_note("x"),
        3 => EventText::new(time, source, ("SIG", random.pick(&["read", "write"])), target),
        _ => {
            let event = random.pick(&["requestsemaphore", "queued", "assigned", "waiting", "released", "increment", "decrement"]);
            EventText::new(time, source, ("SEM", event), target).with_note("1")
        }
    }
}

/// schedule and a semaphore's states need source = target, both instances 0.
fn not_by_itself(random: &mut Random, time: u64, name: &str) -> EventText {
    let number = not_zero(random);
    let longer = format!("{name}x");
    let other = if name.len() < 64 { longer.as_str() } else { "other" };
    let (source, target) = match random.below(3) {
        0 => ((other, 0), (name, 0)),
        1 => ((name, number), (name, 0)),
        _ => ((name, 0), (name, number)),
    };
    if random.chance(25) {
        return EventText::new(time, source, ("SCHED", "schedule"), target);
    }
    let event = STATE_EVENTS[random.below(STATE_EVENTS.len())];
    EventText::new(time, source, ("SEM", event), target).with_note(random.pick(&["0", "1", "2"]))
}

fn note_missing(random: &mut Random, time: u64, name: &str) -> EventText {
    if random.chance(30) {
        return EventText::new(time, (name, 0), ("EVENT", "set_event"), ("E", 0));
    }
    let event = random.pick(events_of(crate::words::TargetType::Semaphore));
    EventText::new(time, (name, 0), ("SEM", event), (name, 0))
}

/// A note on a line that could come next but for it.
fn note_barred(random: &mut Random, story: &Story) -> EventText {
    loop {
        let mut event = story.possible_event(random);
        let may_have_note = event.fields.len() == 8 || event.fields[3] == b"SIG";
        if !may_have_note {
            event.set(8, random.pick(&["x", "0", "1.5", "Task_A"]).as_bytes());
            return event;
        }
    }
}
