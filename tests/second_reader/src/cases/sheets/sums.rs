//! Sums: figures, missing names, order, sizes that just fit.

use super::{in_scale, numbered, sheet, sum, texts, SheetCase};

pub fn cases() -> Vec<SheetCase> {
    let mut cases = vec![listing_twice(), two_shifts(), charge_above_the_span(), figures_near_2_to_62()];
    cases.extend(missing_names());
    cases.extend(orders());
    cases.extend(sparse_sheets());
    cases.extend(names());
    cases.extend(scales());
    cases.extend(limits());
    cases
}

/// Document 01 prints this sheet in full.
fn listing_twice() -> SheetCase {
    let listing = "verdict 0 line 0 scale ns span 960175\n\
                   cores 1\n\
                   Core_1 959975 100 100\n\
                   processes 2\n\
                   TASK_InputProcessing 488250\n\
                   TASK_1MS 471725\n";
    let printed = "verdict 0 line 0 scale ns span 1920350\n\
                   cores 1\n\
                   Core_1 1919950 200 200\n\
                   processes 2\n\
                   TASK_1MS 943450\n\
                   TASK_InputProcessing 976500\n";
    sum("listing-2-7-twice", listing, listing, printed)
}

/// The sheet of the README, a shift of the night with a core and a task of its
/// own, and a core that stood still.
fn two_shifts() -> SheetCase {
    let day = sheet(2500, &["Core_A 1400 1000 100", "Core_B 1500 500 500"], &["TASK_Tension 1700", "TASK_Log 1200"]);
    let night = sheet(100, &["Core_C 60 30 10", "Core_A 0 100 0"], &["TASK_Brake 40", "TASK_Log 20"]);
    let both = "verdict 0 line 0 scale ns span 2600\n\
                cores 3\n\
                Core_A 1400 1100 100\n\
                Core_B 1500 500 600\n\
                Core_C 60 30 2510\n\
                processes 3\n\
                TASK_Brake 40\n\
                TASK_Log 1220\n\
                TASK_Tension 1700\n";
    sum("two-shifts", &day, &night, both)
}

/// A process that holds two cores at a time.
fn charge_above_the_span() -> SheetCase {
    let two_cores = sheet(10, &["C 10 0 0", "D 9 1 0"], &["A 19"]);
    let printed = sheet(20, &["C 20 0 0", "D 18 2 0"], &["A 38"]);
    sum("charge-above-the-span", &two_cores, &two_cores, &printed)
}

/// 64 cores held all the time: 64 times 2^56 − 1 is the largest charge.
fn figures_near_2_to_62() -> SheetCase {
    let cores = numbered("c", 1, 64, "72057594037927935 0 0");
    let long = sheet(72_057_594_037_927_935, &texts(&cores), &["A 4611686018427387840"]);
    sum("largest-charge", &long, &sheet(0, &[], &[]), &long)
}

fn missing_names() -> Vec<SheetCase> {
    let one = sheet(10, &["C 4 3 3"], &["A 4"]);
    let other = sheet(7, &["D 7 0 0"], &["B 5", "A 2"]);
    let both = sheet(17, &["C 4 3 10", "D 7 0 10"], &["A 6", "B 5"]);
    let no_core = sheet(5, &[], &["B 0"]);
    vec![
        sum("each-lacks-a-core", &one, &other, &both),
        sum("each-lacks-a-core-turned", &other, &one, &both),
        sum("no-core-in-the-second", &one, &no_core, &sheet(15, &["C 4 3 8"], &["A 4", "B 0"])),
        sum("no-core-in-the-first", &no_core, &one, &sheet(15, &["C 4 3 8"], &["A 4", "B 0"])),
    ]
}

/// "Sorted by unsigned bytes from the front, a beginning before what continues
/// it (`B`, `a`, `aa`, `ab`)."
fn orders() -> Vec<SheetCase> {
    let rows = ["ab 0 0 1", "aa 0 0 1", "a 0 0 1", "B 0 0 1"];
    let sorted = ["B 0 0 1", "a 0 0 1", "aa 0 0 1", "ab 0 0 1"];
    let nothing = sheet(0, &[], &[]);
    let processes = sheet(0, &[], &["ab 0", "B 0", "aa 0"]);
    let more = sheet(0, &[], &["a 0", "~ 0", "! 0", "a! 0"]);
    let all = sheet(0, &[], &["! 0", "B 0", "a 0", "a! 0", "aa 0", "ab 0", "~ 0"]);
    vec![
        sum("cores-sorted", &sheet(1, &rows, &[]), &nothing, &sheet(1, &sorted, &[])),
        sum("cores-sorted-turned", &nothing, &sheet(1, &rows, &[]), &sheet(1, &sorted, &[])),
        sum("a-sorted-sheet-stays", &nothing, &sheet(1, &sorted, &[]), &sheet(1, &sorted, &[])),
        sum("processes-sorted", &processes, &more, &all),
        sum(
            "numbers-as-bytes",
            &sheet(0, &[], &["T2 0"]),
            &sheet(0, &[], &["T10 0"]),
            &sheet(0, &[], &["T10 0", "T2 0"]),
        ),
    ]
}

/// "A core without any process, or a process without a core, is no reason to
/// refuse".
fn sparse_sheets() -> Vec<SheetCase> {
    let nothing = sheet(0, &[], &[]);
    let cores = sheet(3, &["C 0 1 2"], &[]);
    let processes = sheet(4, &[], &["A 0"]);
    vec![
        sum("empty-sheets", &nothing, &nothing, &nothing),
        sum("spans-alone", &sheet(1, &[], &[]), &sheet(2, &[], &[]), &sheet(3, &[], &[])),
        sum("core-without-process", &cores, &cores, &sheet(6, &["C 0 2 4"], &[])),
        sum("process-without-core", &processes, &processes, &sheet(8, &[], &["A 0"])),
        sum("cores-and-processes-apart", &cores, &processes, &sheet(7, &["C 0 1 6"], &["A 0"])),
    ]
}

/// Words of the sheet itself, digits, 64 bytes, and every byte that a name has.
fn names() -> Vec<SheetCase> {
    let words = sheet(2, &["processes 2 0 0", "cores 0 2 0"], &["verdict 1", "0 1"]);
    let twice = sheet(4, &["cores 0 4 0", "processes 4 0 0"], &["0 2", "verdict 2"]);
    let long = format!("{} 0", "n".repeat(64));
    let bytes: Vec<String> =
        (33..=126).filter(|&byte| byte != 44).map(|byte: u8| format!("{} 0", char::from(byte))).collect();
    let turned: Vec<&str> = texts(&bytes).into_iter().rev().collect();
    vec![
        sum("words-as-names", &words, &words, &twice),
        sum("name-of-64", &sheet(0, &[], &[&long]), &sheet(0, &[], &[]), &sheet(0, &[], &[&long])),
        sum("every-byte", &sheet(0, &[], &turned), &sheet(0, &[], &[]), &sheet(0, &[], &texts(&bytes))),
    ]
}

fn scales() -> Vec<SheetCase> {
    let case = |scale: &str| {
        let one = |span: u64| in_scale(scale, span, &[], &[]);
        sum(&format!("scale-{scale}"), &one(2), &one(3), &one(5))
    };
    ["ps", "ns", "us", "ms", "s"].into_iter().map(case).collect()
}

/// What just fits: 64 cores, 256 names, a span of 2^56 − 1.
fn limits() -> Vec<SheetCase> {
    let cores = |first: usize, last: usize| numbered("c", first, last, "0 0 0");
    let some_cores = |first: usize, last: usize| sheet(0, &texts(&cores(first, last)), &[]);
    let processes = |first: usize, last: usize| numbered("p", first, last, "0");
    let some = |first: usize, last: usize| sheet(0, &["c 0 0 0"], &texts(&processes(first, last)));
    let span = |span: u64| sheet(span, &[], &[]);
    vec![
        sum("64-cores", &some_cores(33, 64), &some_cores(1, 32), &some_cores(1, 64)),
        sum("64-cores-in-both", &some_cores(1, 64), &some_cores(1, 64), &some_cores(1, 64)),
        sum("256-names", &some(1, 255), &some(100, 200), &some(1, 255)),
        sum("256-names-apart", &some(128, 255), &some(1, 127), &some(1, 255)),
        sum("longest-span", &span(72_057_594_037_927_934), &span(1), &span(72_057_594_037_927_935)),
        sum("longest-span-alone", &span(72_057_594_037_927_935), &span(0), &span(72_057_594_037_927_935)),
    ]
}
