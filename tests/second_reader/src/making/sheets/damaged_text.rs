//! Damage to the bytes between names and numbers.

use super::super::random::Random;
use super::draft::Draft;

/// "A malformed sheet includes a refused trace's line": nothing else is there.
pub fn refused_trace(random: &mut Random, _: Draft) -> Vec<u8> {
    let (number, line) = (random.between(1, 14), random.between(1, 30));
    format!("verdict {number} line {line}\n").into_bytes()
}

pub fn empty(_: &mut Random, _: Draft) -> Vec<u8> {
    Vec::new()
}

/// At any place but the first and the last, half the time after a whole line.
pub fn cut_short(random: &mut Random, draft: Draft) -> Vec<u8> {
    let mut text = draft.text();
    let mut length = 1 + random.below(text.len() - 2);
    if random.chance(50) {
        let ends = places(&text, b'\n');
        length = ends[random.below(ends.len() - 1)] + 1;
    }
    text.truncate(length);
    text
}

pub fn no_last_end(_: &mut Random, draft: Draft) -> Vec<u8> {
    let mut text = draft.text();
    text.pop();
    text
}

pub fn something_after(random: &mut Random, draft: Draft) -> Vec<u8> {
    let text = draft.text();
    let again = match random.below(8) {
        0 => b"\n".to_vec(),
        1 => b" ".to_vec(),
        2 => b"\0".to_vec(),
        3 => b"\r\n".to_vec(),
        4 => b"one_more 0\n".to_vec(),
        5 => b"one_more 0".to_vec(),
        6 => draft.process_section(),
        _ => text.clone(),
    };
    [text, again].concat()
}

/// Before a line end, before all of them, or in place of one.
pub fn byte_13(random: &mut Random, draft: Draft) -> Vec<u8> {
    let mut text = draft.text();
    let place = any_place(random, &text, b'\n');
    match random.below(4) {
        0 => text[place] = 13,
        1 => text = text.split(|&byte| byte == b'\n').collect::<Vec<_>>().join(&b"\r\n"[..]),
        _ => text.insert(place, 13),
    }
    text
}

pub fn double_blank(random: &mut Random, draft: Draft) -> Vec<u8> {
    let mut text = draft.text();
    let place = any_place(random, &text, b' ');
    text.insert(place, b' ');
    text
}

pub fn blank_at_edge(random: &mut Random, draft: Draft) -> Vec<u8> {
    let mut text = draft.text();
    let end = any_place(random, &text, b'\n');
    // Before the end of this line or at the beginning of another one.
    let place = if random.chance(50) { end } else { (end + 1) % text.len() };
    text.insert(place, b' ');
    text
}

pub fn other_blank(random: &mut Random, draft: Draft) -> Vec<u8> {
    let mut text = draft.text();
    let place = any_place(random, &text, b' ');
    text[place] = *random.pick(&[&b'\t', &b',', &b'\n', &b'_', &0, &11, &160]);
    text
}

pub fn empty_line(random: &mut Random, draft: Draft) -> Vec<u8> {
    let mut text = draft.text();
    let last = text.len() - 1;
    let place = any_place(random, &text[..last], b'\n');
    text.insert(if random.chance(20) { 0 } else { place }, b'\n');
    text
}

/// A verdict that the program prints for no accepted trace.
pub fn verdict_line(random: &mut Random, draft: Draft) -> Vec<u8> {
    let (scale, span) = (&draft.scale, &draft.span);
    let line = match random.below(12) {
        0 => format!("verdict 13 line 7 scale {scale} span {span}\n"),
        1 => format!("verdict 0 line 1 scale {scale} span {span}\n"),
        2 => format!("verdict 1 line 0 scale {scale} span {span}\n"),
        3 => format!("Verdict 0 line 0 scale {scale} span {span}\n"),
        4 => format!("verdict 0 line 0 span {span} scale {scale}\n"),
        5 => format!("verdict 0 line 0 scale {scale}\n"),
        6 => format!("verdict 0 line 0 scale {scale} span\n"),
        7 => format!("verdict 0 line 0 span {span}\n"),
        8 => format!("verdict 00 line 0 scale {scale} span {span}\n"),
        9 => format!("verdict 0 line 0 scale {scale} span {span} {span}\n"),
        10 => "verdict 0 line 0\n".to_string(),
        _ => String::new(),
    };
    [line.into_bytes(), draft.core_section(), draft.process_section()].concat()
}

pub fn scale(random: &mut Random, mut draft: Draft) -> Vec<u8> {
    draft.scale = random.pick(&["", "m", "h", "n", "NS", "nss", "fs", "min", "Ms", "0", "ns,", "ns\0"]).to_string();
    draft.text()
}

/// The sections in the other order, or their titles alone.
pub fn sections_swapped(random: &mut Random, mut draft: Draft) -> Vec<u8> {
    if random.chance(50) {
        return [draft.verdict_line(), draft.process_section(), draft.core_section()].concat();
    }
    std::mem::swap(&mut draft.cores, &mut draft.processes);
    draft.count_rows();
    draft.text()
}

/// A whole section, or the line with its count; but a process of the name
/// `processes` could stand for that line.
pub fn section_missing(random: &mut Random, draft: Draft) -> Vec<u8> {
    let without_title = |section: Vec<u8>| section[places(&section, b'\n')[0] + 1..].to_vec();
    let (verdict, cores, processes) = (draft.verdict_line(), draft.core_section(), draft.process_section());
    let can_stand_for_it = draft.processes.iter().any(|row| row.name == b"processes");
    match random.below(4) {
        0 => [verdict, processes].concat(),
        1 => [verdict, without_title(cores), processes].concat(),
        2 if !can_stand_for_it => [verdict, cores, without_title(processes)].concat(),
        _ => [verdict, cores].concat(),
    }
}

fn places(text: &[u8], byte: u8) -> Vec<usize> {
    (0..text.len()).filter(|&place| text[place] == byte).collect()
}

/// Any place of the byte, the first and the last one more often: the verdict
/// line and the end of the text are read apart from the rows.
fn any_place(random: &mut Random, text: &[u8], byte: u8) -> usize {
    let places = places(text, byte);
    match random.below(6) {
        0 => places[0],
        1 => places[places.len() - 1],
        _ => places[random.below(places.len())],
    }
}
