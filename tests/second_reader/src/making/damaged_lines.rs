//! Damage that earns 1 to 4: line ends and lengths, version, parameters, scale.

use super::draft::Draft;
use super::prelude::{comment, creator, date, scale};
use super::random::Random;
use super::story::Story;

/// Aim 1: a line too long, or a byte 13 inside.
pub fn line_itself(random: &mut Random) -> Vec<u8> {
    let mut story = Story::some_events(random);
    let place = random.below(story.draft.lines.len());
    match random.below(5) {
        0 => story.draft.lines[place] = long_line(random),
        1 => {
            let line = &mut story.draft.lines[place];
            let filler = 1024 - line.len() + random.below(3);
            line.extend(vec![b'x'; filler]);
        }
        2 => return carriage_return_at_the_end(random, &story.draft),
        _ => put_carriage_return_inside(random, &mut story.draft.lines[place]),
    }
    story.finish(random)
}

fn long_line(random: &mut Random) -> Vec<u8> {
    let length = *random.pick(&[&1024, &1025, &2000, &4096, &70_000]);
    let start = random.pick(&["# ", "#creator ", "#version 2.2.0", "0,", "", "#"]);
    let mut line = start.as_bytes().to_vec();
    line.resize(length, b'x');
    line
}

/// Anywhere before the last byte of the line, so that it can't be its end.
fn put_carriage_return_inside(random: &mut Random, line: &mut Vec<u8>) {
    let place = random.below(line.len());
    line.insert(place, b'\r');
}

/// Two before byte 10, or one before the end of input.
fn carriage_return_at_the_end(random: &mut Random, draft: &Draft) -> Vec<u8> {
    let mut bytes = draft.lines.join(&b'\n');
    bytes.extend_from_slice(random.pick(&[&b"\r\r\n"[..], b"\r", b"\n\r", b"\r\r", b"\n\r\r\n"]));
    bytes
}

const WRONG_FIRST_LINES: [&str; 24] = [
    "", " ", "#", "# ", "# version 2.2.0", "#version", "#version ", "#version 2.2", "#version 2.2.1",
    "#version 2.1.5", "#version 2.2.0 ", "#version  2.2.0", " #version 2.2.0", "#Version 2.2.0",
    "version 2.2.0", "#version 2.2.0x", "#version\t2.2.0", "#version 2.2.00", "#VERSION 2.2.0",
    "\u{feff}#version 2.2.0", "#timeScale ns", "# comment", "0,S,0,STI,S,0,trigger", "#version 2.2.0\0",
];

const LATER_VERSION_LINES: [&str; 6] =
    ["#version", "#version ", "#version 2.2.0", "#version 2.1.5", "#version x y", "#version  "];

/// Aim 2: a wrong first line, none at all, or the version later on.
pub fn version(random: &mut Random) -> Vec<u8> {
    let mut story = Story::some_events(random);
    let lines = &mut story.draft.lines;
    match random.below(8) {
        0 => return random.pick(&[&b""[..], b"\n", b"\r\n", b"\n\n", b"#"]).to_vec(),
        1 => {
            lines.remove(0);
        }
        2 => lines.insert(0, comment(random)),
        3..=5 => lines[0] = WRONG_FIRST_LINES[random.below(WRONG_FIRST_LINES.len())].into(),
        _ => {
            let place = 1 + random.below(lines.len());
            lines.insert(place, LATER_VERSION_LINES[random.below(LATER_VERSION_LINES.len())].into());
        }
    }
    story.finish(random)
}

const WRONG_PARAMETERS: [&str; 34] = [
    "#", "##", "#x", "#\t", "#-", "#,", "#versionx", "#version\t2.2.0", "#version2.2.0", "#Version 2.2.0",
    "#timeScale", "#timeScale ", "#timeScale NS", "#timeScale ns ", "#timeScale  ns", "#timeScale n",
    "#timeScale nss", "#timeScale m", "#TimeScale ns", "#timescale\tns", "#timeScalens", "#timeScale ns,us",
    "#timescale min", "#creator", "#creator ", "#creators x", "#Creator x", "#creator\tx", "#creationDate",
    "#creationdate 2012-09-02T16:40:30Z", "#entityMapping 0 Task_1ms", "#typeMapping 0 T",
    "#entityTypeMapping T Task_1ms", "#0,S,0,STI,S,0,trigger",
];

const WRONG_DATES: [&str; 27] = [
    "", "2012-08-31T15:53:00", "2012-08-31T15:53:00z", "2012-08-31 15:53:00Z", "2012-08-31T15:53:00ZZ",
    "2012-08-31T15:53:00 Z", "2012-08-31T15:53:00+00:00", "2012-08-31T15:53Z", "2012-8-31T15:53:00Z",
    "12012-08-31T15:53:00Z", "2012-08-31t15:53:00Z", "2012/08/31T15:53:00Z", "-012-08-31T15:53:00Z",
    "1900-02-29T00:00:00Z", "2023-02-29T00:00:00Z", "2100-02-29T00:00:00Z", "2000-02-30T00:00:00Z",
    "2023-04-31T00:00:00Z", "2023-06-31T00:00:00Z", "2023-11-31T00:00:00Z", "2023-00-10T00:00:00Z",
    "2023-13-10T00:00:00Z", "2023-01-00T00:00:00Z", "2023-01-32T00:00:00Z", "2023-01-10T24:00:00Z",
    "2023-01-10T00:60:00Z", "2023-01-10T00:00:60Z",
];

/// Aim 3: an unknown, malformed, repeated or late parameter.
pub fn parameter(random: &mut Random) -> Vec<u8> {
    let mut story = Story::some_events(random);
    let first_event = story.draft.first_event();
    let lines = &mut story.draft.lines;
    // After the first event everything but a comment is late.
    let after_event = first_event + 1 + random.below(lines.len() - first_event + 1);
    let anywhere = 1 + random.below(lines.len());
    match random.below(6) {
        0 | 1 => lines.insert(anywhere, WRONG_PARAMETERS[random.below(WRONG_PARAMETERS.len())].into()),
        2 => lines.insert(anywhere, wrong_date(random)),
        3 if first_event < lines.len() => {
            let parameter = any_parameter(random);
            lines.insert(after_event.min(lines.len()), parameter);
        }
        _ => repeat(random, lines, first_event),
    }
    story.finish(random)
}

fn wrong_date(random: &mut Random) -> Vec<u8> {
    format!("#creationDate {}", WRONG_DATES[random.below(WRONG_DATES.len())]).into_bytes()
}

fn any_parameter(random: &mut Random) -> Vec<u8> {
    match random.below(3) {
        0 => scale(random),
        1 => creator(random),
        _ => date(random),
    }
}

/// Puts one parameter twice at the end of the prelude; the second at latest is
/// a repetition, since each kind may come once.
fn repeat(random: &mut Random, lines: &mut Vec<Vec<u8>>, first_event: usize) {
    let (one, other) = match random.below(3) {
        0 => (scale(random), scale(random)),
        1 => (creator(random), creator(random)),
        _ => (date(random), date(random)),
    };
    lines.insert(first_event, one);
    lines.insert(first_event, other);
}

/// Aim 4: no scale before the first event, or none by the end.
pub fn no_scale(random: &mut Random) -> Vec<u8> {
    let mut story = match random.below(3) {
        0 => Story::begin(random),
        _ => Story::some_events(random),
    };
    let lines = &mut story.draft.lines;
    lines.retain(|line| !line.starts_with(b"#timeScale ") && !line.starts_with(b"#timescale "));
    let end_of_prelude = story.draft.first_event();
    match random.below(4) {
        0 => story.draft.lines.insert(end_of_prelude, malformed_event(random)),
        1 => {
            // The scale comes, but after the first event.
            let event = malformed_event(random);
            let scale = scale(random);
            story.draft.lines.splice(end_of_prelude..end_of_prelude, [event, scale]);
        }
        2 => story.draft.lines.truncate(end_of_prelude),
        _ => {}
    }
    story.finish(random)
}

/// Earns 5, 6 or 7 where a scale stands before it.
fn malformed_event(random: &mut Random) -> Vec<u8> {
    random
        .pick(&["", " ", ",", ",,,,,,", "x", "0,S,0,STI,S,0", "0,S,0,X,S,0,trigger", "0,C,1,T,A,0,start", "01,C,0,T,A,0,start"])
        .as_bytes()
        .to_vec()
}
