//! Sheets whose answer the maker doesn't know: bytes and lines changed blindly,
//! and what is printed for made traces.

use super::super::random::Random;
use super::super::valid;
use super::wishes::Conflicts;
use super::{make_pair, MadeSheets};
use crate::printing::run_on;

/// A pair that fits, and one of its sheets.
fn pair_to_change(random: &mut Random) -> (Vec<Vec<u8>>, usize) {
    (make_pair(random, Conflicts::default()), random.below(2))
}

pub fn changed_bytes(random: &mut Random) -> MadeSheets {
    let (mut sheets, chosen) = pair_to_change(random);
    change_bytes(random, &mut sheets[chosen]);
    MadeSheets::unaimed(sheets)
}

pub fn changed_lines(random: &mut Random) -> MadeSheets {
    let (mut sheets, chosen) = pair_to_change(random);
    change_lines(random, &mut sheets[chosen]);
    MadeSheets::unaimed(sheets)
}

pub fn change_bytes(random: &mut Random, sheet: &mut Vec<u8>) {
    for _ in 0..random.between(1, 2) {
        change_byte(random, sheet);
    }
}

/// Bytes that part the text, digits, and bytes that a name has.
const BYTES: [&u8; 12] = [&b' ', &b'\n', &b'\r', &b'0', &b'1', &b'9', &b'A', &b'z', &b',', &b'-', &0, &0xff];

fn change_byte(random: &mut Random, sheet: &mut Vec<u8>) {
    let place = random.below(sheet.len());
    let byte = *random.pick(&BYTES);
    match random.below(5) {
        0 => sheet.insert(place, byte),
        1 | 2 => sheet[place] = byte,
        3 => sheet.swap(place, random.below(place + 1)),
        _ if sheet.len() > 1 => {
            sheet.remove(place);
        }
        _ => {}
    }
}

/// Rows in another order are as good; a row that goes or comes twice is not.
pub fn change_lines(random: &mut Random, sheet: &mut Vec<u8>) {
    let mut lines: Vec<Vec<u8>> = sheet.split_inclusive(|&byte| byte == b'\n').map(<[u8]>::to_vec).collect();
    let (one, other) = (random.below(lines.len()), random.below(lines.len()));
    match random.below(6) {
        0 => {
            lines.remove(one);
        }
        1 => lines.insert(other, lines[one].clone()),
        2 => lines[other] = lines[one].clone(),
        _ => lines.swap(one, other),
    }
    *sheet = lines.concat();
}

/// "Read sheets as the program prints them": of two traces.
pub fn sheets_of_traces(random: &mut Random) -> MadeSheets {
    let first = printed(random);
    let second = printed_beside(random, &first);
    MadeSheets::unaimed(vec![first, second])
}

/// The sheet of a trace.
pub fn printed(random: &mut Random) -> Vec<u8> {
    run_on(&valid(random)).printed.into_bytes()
}

/// Of another trace, mostly in the same scale; at times the same sheet.
pub fn printed_beside(random: &mut Random, first: &[u8]) -> Vec<u8> {
    let mut second = printed(random);
    for _ in 0..6 {
        if scale_in(first) == scale_in(&second) {
            break;
        }
        second = printed(random);
    }
    if random.chance(10) {
        return first.to_vec();
    }
    second
}

/// The sixth word of the verdict line.
fn scale_in(sheet: &[u8]) -> Option<&[u8]> {
    sheet.split(|&byte| byte == b' ').nth(5)
}
