//! 21: every cause by itself, in either sheet, and before 22 to 25.

use super::{in_scale, numbered, refused, sheet, sum, texts, SheetCase};

/// The sheet that the damage is done to, well formed.
const GOOD: &str = "verdict 0 line 0 scale ns span 10\n\
                    cores 2\n\
                    C 4 3 3\n\
                    D 10 0 0\n\
                    processes 2\n\
                    A 5\n\
                    B 9\n";

pub fn cases() -> Vec<SheetCase> {
    let mut cases = Vec::new();
    for (label, text) in damaged_texts().into_iter().chain(without_rows()).chain(sizes()).chain(bytes()) {
        cases.push(refused(&format!("{label}-in-the-first"), 21, &text, GOOD.as_bytes()));
        cases.push(refused(&format!("{label}-in-the-second"), 21, GOOD.as_bytes(), &text));
        let other_scale = in_scale("us", 72_057_594_037_927_935, &[], &["C 0"]);
        cases.push(refused(&format!("{label}-before-22"), 21, other_scale.as_bytes(), &text));
    }
    cases.push(refused("both-malformed", 21, b"", b""));
    let twice = sheet(20, &["C 8 6 6", "D 20 0 0"], &["A 10", "B 18"]);
    cases.push(sum("without-damage", GOOD, GOOD, &twice));
    cases
}

/// A part of the good sheet, and what stands there instead.
const CHANGES: [(&str, &str, &str); 53] = [
    ("refused-trace", GOOD, "verdict 13 line 7\n"),
    ("accepted-without-sheet", GOOD, "verdict 0 line 0\n"),
    ("empty-file", GOOD, ""),
    ("one-line-end", GOOD, "\n"),
    ("verdict-line-alone", GOOD, "verdict 0 line 0 scale ns span 10\n"),
    ("no-processes", "processes 2\nA 5\nB 9\n", ""),
    ("no-cores", "cores 2\nC 4 3 3\nD 10 0 0\n", ""),
    ("no-verdict", "verdict 0 line 0 scale ns span 10\n", ""),
    ("no-last-end", "B 9\n", "B 9"),
    ("cut-in-a-row", "B 9\n", "B"),
    ("cut-before-a-row", "B 9\n", ""),
    ("end-twice", "B 9\n", "B 9\n\n"),
    ("row-after", "B 9\n", "B 9\nE 0\n"),
    ("byte-0-after", "B 9\n", "B 9\n\0"),
    ("cr-in-the-verdict", "span 10\n", "span 10\r\n"),
    ("cr-in-a-row", "C 4 3 3\n", "C 4 3 3\r\n"),
    ("cr-at-the-end", "B 9\n", "B 9\r\n"),
    ("double-blank-in-the-verdict", "line 0", "line  0"),
    ("double-blank-in-a-row", "C 4 3", "C 4  3"),
    ("blank-before", "A 5", " A 5"),
    ("blank-behind", "A 5", "A 5 "),
    ("tab", "A 5", "A\t5"),
    ("empty-line", "processes 2\n", "\nprocesses 2\n"),
    ("verdict-13", "verdict 0 line 0", "verdict 13 line 0"),
    ("line-7", "verdict 0 line 0", "verdict 0 line 7"),
    ("words-in-capitals", "cores 2", "Cores 2"),
    ("scale-unknown", "scale ns", "scale m"),
    ("scale-in-capitals", "scale ns", "scale NS"),
    ("scale-missing", " scale ns", ""),
    ("span-leading-zero", "span 10", "span 010"),
    ("figure-leading-zero", "C 4 3 3", "C 04 3 3"),
    ("zero-twice", "D 10 0 0", "D 10 00 0"),
    ("count-leading-zero", "cores 2", "cores 02"),
    ("plus", "A 5", "A +5"),
    ("minus-nothing", "D 10 0 0", "D 10 -0 0"),
    ("negative", "C 4 3 3", "C 8 -1 3"),
    ("no-figure", "A 5", "A five"),
    ("one-core-too-few", "cores 2", "cores 1"),
    ("one-core-too-many", "cores 2", "cores 3"),
    ("one-process-too-few", "processes 2", "processes 1"),
    ("one-process-too-many", "processes 2", "processes 3"),
    ("figure-missing-from-core", "C 4 3 3", "C 4 6"),
    ("figure-missing-from-process", "A 5", "A"),
    ("figure-too-many-in-core", "C 4 3 3", "C 4 3 3 0"),
    ("figure-too-many-in-process", "A 5", "A 5 0"),
    ("empty-name", "A 5", " 5"),
    ("comma-in-name", "A 5", "A,A 5"),
    ("blank-in-name", "A 5", "A A 5"),
    ("core-twice", "D 10 0 0", "C 10 0 0"),
    ("process-twice", "B 9", "A 9"),
    ("name-in-both-sections", "B 9", "D 9"),
    ("figures-one-too-many", "C 4 3 3", "C 4 4 3"),
    ("figures-one-too-few", "C 4 3 3", "C 4 3 2"),
];

/// Further sums that don't hold, some only in numbers of any size.
const TOTALS: [(&str, &str, &str); 7] = [
    ("two-cores-right-together", "C 4 3 3\nD 10 0 0\n", "C 5 3 3\nD 9 0 0\n"),
    ("charges-one-too-many", "B 9", "B 10"),
    ("charges-one-too-few", "B 9", "B 8"),
    ("figure-of-40-digits", "B 9", "B 9000000000000000000000000000000000000009"),
    ("figure-and-2-to-64", "C 4 3 3", "C 4 18446744073709551619 3"),
    ("charge-and-2-to-64", "A 5", "A 18446744073709551621"),
    ("charge-and-2-to-128", "A 5", "A 340282366920938463463374607431768211461"),
];

fn damaged_texts() -> Vec<(String, Vec<u8>)> {
    let changes = CHANGES.into_iter().chain(TOTALS);
    let mut texts: Vec<(String, Vec<u8>)> = changes
        .map(|(label, part, instead)| {
            assert_eq!(GOOD.matches(part).count(), 1, "{label}");
            (label.to_string(), GOOD.replace(part, instead).into_bytes())
        })
        .collect();
    let swapped = "verdict 0 line 0 scale ns span 10\nprocesses 2\nA 5\nB 9\ncores 2\nC 4 3 3\nD 10 0 0\n";
    texts.push(("sections-swapped".to_string(), swapped.into()));
    texts
}

/// Sheets without rows, which have their counts alone.
fn without_rows() -> Vec<(String, Vec<u8>)> {
    let verdict = "verdict 0 line 0 scale ns span 0\n";
    let cases = [
        ("no-last-end-without-rows", "cores 0\nprocesses 0"),
        ("no-processes-without-rows", "cores 0\n"),
        ("no-cores-without-rows", "processes 0\n"),
        ("swapped-without-rows", "processes 0\ncores 0\n"),
        ("core-missing", "cores 1\nprocesses 0\n"),
        ("process-missing", "cores 0\nprocesses 1\n"),
        ("no-count", "cores\nprocesses 0\n"),
        ("empty-count", "cores 0\nprocesses \n"),
        ("zeros-without-rows", "cores 0\nprocesses 00\n"),
        ("sheet-twice", "cores 0\nprocesses 0\nverdict 0 line 0 scale ns span 0\ncores 0\nprocesses 0\n"),
    ];
    cases.map(|(label, rest)| (label.to_string(), format!("{verdict}{rest}").into_bytes())).to_vec()
}

/// One more than fits: a name, cores, names, the span.
fn sizes() -> Vec<(String, Vec<u8>)> {
    let long = format!("{} 0", "n".repeat(65));
    let cores = numbered("c", 1, 65, "0 0 0");
    let names = numbered("p", 1, 257, "0");
    let with_a_core = numbered("p", 1, 256, "0");
    let cases = [
        ("name-of-65", sheet(0, &[], &[&long])),
        ("65-cores", sheet(0, &texts(&cores), &[])),
        ("257-processes", sheet(0, &[], &texts(&names))),
        ("257-names", sheet(0, &["c 0 0 0"], &texts(&with_a_core))),
        ("span-2-to-56", sheet(72_057_594_037_927_936, &["C 0 0 72057594037927936"], &[])),
        ("span-2-to-56-alone", sheet(72_057_594_037_927_936, &[], &[])),
        ("span-2-to-64", "verdict 0 line 0 scale ns span 18446744073709551616\ncores 0\nprocesses 0\n".to_string()),
        ("span-of-40-digits", sheet(0, &[], &[]).replace("span 0", &format!("span 1{}", "0".repeat(39)))),
    ];
    cases.map(|(label, text)| (label.to_string(), text.into_bytes())).to_vec()
}

/// Bytes 0 to 32 and 127 to 255 are in no name.
fn bytes() -> Vec<(String, Vec<u8>)> {
    let with_byte = |byte: u8| [GOOD.replace("B 9\n", "B").as_bytes(), &[byte], b" 9\n"].concat();
    (0..=32).chain(127..=255).map(|byte| (format!("byte-{byte}-in-name"), with_byte(byte))).collect()
}
