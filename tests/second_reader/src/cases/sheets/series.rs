//! Three sheets and more, from the left: the first refusal ends it.

use super::{in_scale, numbered, sheet, texts, SheetCase};

fn case(label: &str, sheets: &[&str], printed: &str) -> SheetCase {
    let sheets = sheets.iter().map(|text| text.as_bytes().to_vec()).collect();
    SheetCase { label: label.to_string(), sheets, printed: printed.to_string() }
}

pub fn cases() -> Vec<SheetCase> {
    let one = sheet(10, &["C 4 3 3"], &["A 4"]);
    let two = sheet(7, &["D 7 0 0"], &["B 5", "A 2"]);
    let three = sheet(1, &["C 0 1 0"], &["Z 0"]);
    let all = sheet(18, &["C 4 4 10", "D 7 0 11"], &["A 6", "B 5", "Z 0"]);
    let in_us = in_scale("us", 0, &[], &[]);
    let process = sheet(0, &[], &["C 0"]);
    let long = sheet(72_057_594_037_927_930, &[], &[]);
    let cores = |first: usize, last: usize| sheet(0, &texts(&numbered("c", first, last, "0 0 0")), &[]);
    vec![
        case("three", &[&one, &two, &three], &all),
        case("three-turned", &[&three, &two, &one], &all),
        case("five", &[three.as_str(); 5], &sheet(5, &["C 0 5 0"], &["Z 0"])),
        case("21-third", &[&one, &two, "verdict 13 line 7\n"], "refused 21\n"),
        case("22-third", &[&one, &two, &in_us], "refused 22\n"),
        case("22-then-malformed", &[&one, &in_us, ""], "refused 22\n"),
        case("23-third", &[&one, &two, &process], "refused 23\n"),
        case("23-then-22", &[&one, &process, &in_us], "refused 23\n"),
        case("24-third", &[&cores(1, 30), &cores(31, 64), &cores(65, 65)], "refused 24\n"),
        case("64-cores-of-three", &[&cores(1, 30), &cores(31, 63), &cores(64, 64)], &cores(1, 64)),
        case("25-third", &[&long, &sheet(5, &[], &[]), &sheet(1, &[], &[])], "refused 25\n"),
        case("25-then-23", &[&long, &one, &process], "refused 25\n"),
    ]
}
