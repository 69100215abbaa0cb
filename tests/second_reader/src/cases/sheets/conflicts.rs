//! 22 to 25: "Refused in this order, each exactly then". Two sheets that are
//! well formed, each by itself.

use super::{in_scale, numbered, refused, sheet, texts, SheetCase};

const LONGEST: u64 = 72_057_594_037_927_935;

pub fn cases() -> Vec<SheetCase> {
    [scales(), kinds(), rows(), spans()].concat()
}

fn case(label: &str, number: u8, first: &str, second: &str) -> SheetCase {
    refused(label, number, first.as_bytes(), second.as_bytes())
}

/// 40 cores, all idle; with 40 of another name they are too many.
fn forty_cores(name: &str, span: u64) -> String {
    let cores = numbered(name, 1, 40, &format!("0 {span} 0"));
    sheet(span, &texts(&cores), &[])
}

fn scales() -> Vec<SheetCase> {
    let nothing = sheet(0, &[], &[]);
    let core = sheet(1, &["C 0 0 1"], &[]);
    let forty = forty_cores("d", 1);
    let forty_in_s = forty_cores("c", 1).replace("scale ns", "scale s");
    vec![
        case("22-empty-sheets", 22, &nothing, &in_scale("us", 0, &[], &[])),
        case("22-ms-and-s", 22, &in_scale("ms", 1, &[], &[]), &in_scale("s", 1, &[], &[])),
        case("22-before-23", 22, &core, &in_scale("ps", 0, &[], &["C 0"])),
        case("22-before-24", 22, &forty, &forty_in_s),
        case("22-before-25", 22, &core, &in_scale("ps", LONGEST, &[], &[])),
    ]
}

/// "A process in one sheet and a core in the other: 23."
fn kinds() -> Vec<SheetCase> {
    let core = sheet(3, &["D 1 2 0", "X 0 0 3"], &["A 1"]);
    let process = sheet(3, &["D 3 0 0"], &["A 0", "X 3"]);
    let forty = forty_cores("c", 0);
    let others = forty_cores("d", 0).replace("processes 0\n", "processes 1\nc007 0\n");
    vec![
        case("23-core-in-the-first", 23, &core, &process),
        case("23-core-in-the-second", 23, &process, &core),
        case("23-without-other-rows", 23, &sheet(0, &["X 0 0 0"], &[]), &sheet(0, &[], &["X 0"])),
        case("23-before-24", 23, &forty, &others),
        case("23-before-25", 23, &core, &sheet(LONGEST, &[], &["X 0"])),
    ]
}

/// "24 counts the sum's cores and names."
fn rows() -> Vec<SheetCase> {
    let cores = |first: usize, last: usize| sheet(0, &texts(&numbered("c", first, last, "0 0 0")), &[]);
    let processes = |first: usize, last: usize| numbered("p", first, last, "0");
    let some = |first: usize, last: usize| sheet(0, &["c 0 0 0"], &texts(&processes(first, last)));
    vec![
        case("24-65-cores", 24, &cores(1, 64), &cores(65, 65)),
        case("24-65-cores-shared", 24, &cores(1, 40), &cores(20, 65)),
        case("24-128-cores", 24, &cores(1, 64), &cores(65, 128)),
        case("24-257-names", 24, &some(1, 255), &some(256, 256)),
        case("24-257-names-shared", 24, &some(1, 200), &some(100, 256)),
        case(
            "24-257-processes",
            24,
            &some(1, 250),
            &sheet(0, &[], &["p251 0", "p252 0", "p253 0", "p254 0", "p255 0", "p256 0"]),
        ),
        case("24-before-25", 24, &forty_cores("c", LONGEST), &forty_cores("d", 1)),
    ]
}

/// "summed span above 2^56 − 1".
fn spans() -> Vec<SheetCase> {
    let span = |span: u64| sheet(span, &[], &[]);
    let held = |ticks: u64| sheet(ticks, &[&format!("C {ticks} 0 0")], &[&format!("A {ticks}")]);
    vec![
        case("25-one-tick-more", 25, &span(LONGEST), &span(1)),
        case("25-one-tick-before", 25, &span(1), &span(LONGEST)),
        case("25-half-and-half", 25, &span(36_028_797_018_963_968), &span(36_028_797_018_963_968)),
        case("25-twice-the-longest", 25, &span(LONGEST), &span(LONGEST)),
        case("25-with-figures", 25, &held(LONGEST), &held(1)),
    ]
}
