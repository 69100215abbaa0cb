//! The lines before the first event, in every order that is allowed.

use super::random::Random;

const DATES: [&str; 8] = [
    "2012-09-02T16:40:30Z",
    "0000-01-01T00:00:00Z",
    "0000-02-29T00:00:00Z",
    "2000-02-29T23:59:59Z",
    "2024-02-29T00:59:00Z",
    "9999-12-31T23:59:59Z",
    "2023-02-28T09:08:07Z",
    "2023-11-30T19:00:09Z",
];

const CREATORS: [&str; 6] = ["x", " ", "TA-Tool Suite 12.06.1", "a,b,c", "#version 2.2.0", "  two  "];

const SCALES: [&str; 5] = ["ps", "ns", "us", "ms", "s"];

/// The version line, exactly one scale, and perhaps creator, date, comments.
pub fn valid_prelude(random: &mut Random) -> Vec<Vec<u8>> {
    let mut rest = vec![scale(random)];
    if random.chance(30) {
        insert_anywhere(random, &mut rest, creator);
    }
    if random.chance(30) {
        insert_anywhere(random, &mut rest, date);
    }
    while random.chance(25) {
        insert_anywhere(random, &mut rest, comment);
    }
    let mut lines = vec![b"#version 2.2.0".to_vec()];
    lines.append(&mut rest);
    lines
}

fn insert_anywhere(random: &mut Random, lines: &mut Vec<Vec<u8>>, make: fn(&mut Random) -> Vec<u8>) {
    let place = random.below(lines.len() + 1);
    lines.insert(place, make(random));
}

pub fn scale(random: &mut Random) -> Vec<u8> {
    let word = random.pick(&["#timeScale ", "#timescale "]);
    format!("{word}{}", SCALES[random.below(SCALES.len())]).into_bytes()
}

pub fn creator(random: &mut Random) -> Vec<u8> {
    if random.chance(10) {
        return [&b"#creator "[..], &any_bytes(random, 1, 20)].concat();
    }
    format!("#creator {}", CREATORS[random.below(CREATORS.len())]).into_bytes()
}

/// A listed date, or a drawn one whose day exists in every month.
pub fn date(random: &mut Random) -> Vec<u8> {
    if random.chance(50) {
        return format!("#creationDate {}", DATES[random.below(DATES.len())]).into_bytes();
    }
    let mut draw = |least, most| random.between(least, most);
    format!(
        "#creationDate {:04}-{:02}-{:02}T{:02}:{:02}:{:02}Z",
        draw(0, 9999), draw(1, 12), draw(1, 28), draw(0, 23), draw(0, 59), draw(0, 59)
    )
    .into_bytes()
}

pub fn comment(random: &mut Random) -> Vec<u8> {
    let most = if random.chance(5) { 1021 } else { 40 };
    [&b"# "[..], &any_bytes(random, 0, most)].concat()
}

/// Bytes of any value but 10 and 13.
fn any_bytes(random: &mut Random, least: u64, most: u64) -> Vec<u8> {
    let length = random.between(least, most);
    (0..length)
        .map(|_| match random.below(256) as u8 {
            b'\n' | b'\r' => b' ',
            byte => byte,
        })
        .collect()
}
