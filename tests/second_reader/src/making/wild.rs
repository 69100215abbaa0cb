//! Traces whose answer the maker doesn't know: several kinds of damage at once
//! and blind draws. They test which number wins, and pairs nobody thought of.

use super::draft::EventText;
use super::random::Random;
use super::story::Story;
use super::world::World;
use super::Made;
use crate::words::{events_of, TYPE_WORDS};

/// A valid trace with some fields, lines or bytes changed.
pub fn make_mixed(random: &mut Random) -> Made {
    let mut story = Story::some_events(random);
    story.go_on(random, 20);
    match random.below(3) {
        0 => {
            let mut event = story.possible_event(random);
            for _ in 0..random.between(1, 3) {
                change_field(random, &story.world, &mut event);
            }
            Made::unaimed(story.finish_with_damage(random, event.line()))
        }
        1 => {
            for _ in 0..random.between(1, 2) {
                change_lines(random, &mut story.draft.lines);
            }
            Made::unaimed(story.finish(random))
        }
        _ => {
            let mut bytes = story.finish(random);
            for _ in 0..random.between(1, 3) {
                change_byte(random, &mut bytes);
            }
            Made::unaimed(bytes)
        }
    }
}

/// Any field gets any value, right or wrong.
fn change_field(random: &mut Random, world: &World, event: &mut EventText) {
    let number = random.pick(&["0", "1", "2", "01", "4294967295", "4294967296", "-1", ""]);
    let time = world.time.saturating_sub(random.between(0, 1)).to_string();
    let name = if random.chance(85) { world.any_name(random) } else { random.pick(&["", " ", "new"]).to_string() };
    let (type_word, kind) = TYPE_WORDS[random.below(TYPE_WORDS.len())];
    let field = 1 + random.below(8);
    let value = match field {
        1 => random.pick(&[time.as_str(), "0", "00", "72057594037927936"]),
        2 | 5 => name.as_str(),
        3 | 6 => number,
        4 => random.pick(&[type_word, type_word, "X"]),
        7 => random.pick(events_of(kind)),
        _ => random.pick(&["0", "1", "2", "x", "", "1.5", "01"]),
    };
    event.set(field, value.as_bytes());
}

/// A line goes, comes twice, or changes places with another.
fn change_lines(random: &mut Random, lines: &mut Vec<Vec<u8>>) {
    let (one, other) = (random.below(lines.len()), random.below(lines.len()));
    match random.below(3) {
        0 if lines.len() > 1 => {
            lines.remove(one);
        }
        1 => lines.insert(other, lines[one].clone()),
        _ => lines.swap(one, other),
    }
}

fn change_byte(random: &mut Random, bytes: &mut Vec<u8>) {
    let place = random.below(bytes.len());
    let byte = *random.pick(&[&b',', &b'\n', &b'\r', &b' ', &b'#', &b'0', &b'1', &b'T', &0, &0xff]);
    match random.below(4) {
        0 => bytes.insert(place, byte),
        1 => bytes[place] = byte,
        2 => bytes.truncate(place + 1),
        _ if bytes.len() > 1 => {
            bytes.remove(place);
        }
        _ => {}
    }
}

/// Well formed lines over a handful of names, drawn blindly or, in part, told
/// by a small world, so that unusual states come about.
pub fn make_blind(random: &mut Random) -> Made {
    let mut story = Story::begin(random);
    let blind_percent = *random.pick(&[&100, &50, &25]);
    for _ in 0..random.between(1, 12) {
        let event = if random.chance(blind_percent) {
            blind_event(random, &story.world)
        } else {
            story.world.next_event(random)
        };
        story.add_event(&event);
    }
    Made::unaimed(story.finish(random))
}

fn blind_event(random: &mut Random, world: &World) -> EventText {
    let number = random.below(3) as u32;
    let (core, process) = (&world.cores[0].name, &world.processes[0]);
    let second_core = &world.cores[world.cores.len() - 1].name;
    let core = random.pick(&[core.as_str(), core, core, second_core, &world.strangers[0]]);
    let events = |word: &str| {
        let kind = TYPE_WORDS.into_iter().find(|(known, _)| *known == word);
        kind.map_or(&["trigger"][..], |(_, kind)| events_of(kind))
    };
    match random.below(10) {
        0..=5 => {
            let event = random.pick(events(process.type_word));
            EventText::new(world.time, (core, 0), (process.type_word, event), (&process.name, number))
        }
        6 | 7 => {
            let event = random.pick(events("R"));
            EventText::new(world.time, ("P", 0), ("R", event), (&world.runnables[0].name, number))
        }
        _ => {
            let name = (world.semaphores[0].name.as_str(), 0);
            let event = random.pick(events("SEM"));
            EventText::new(world.time, name, ("SEM", event), name).with_note(&number.to_string())
        }
    }
}
