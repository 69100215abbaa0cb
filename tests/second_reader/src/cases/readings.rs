//! The doubtful points of document 01, as they were settled: every row of the
//! table of readings but what fell with the requests of document 02.

use super::{accepted, after_prelude, living, refused, Case, EMPTY_SHEET, PRELUDE};

pub fn cases() -> Vec<Case> {
    let mut cases = line_ends();
    cases.extend(first_lines());
    cases.extend(hash_lines());
    cases.extend(words());
    cases.extend(notes());
    cases.extend(names());
    cases.extend(full_tables());
    cases.extend(processes());
    cases.extend(semaphores());
    cases.extend(cores());
    cases.extend(sheets());
    cases
}

/// The prelude and then these bytes, with no end added.
fn raw_after_prelude(bytes: &[u8]) -> Vec<u8> {
    [PRELUDE.as_bytes(), bytes].concat()
}

fn line_ends() -> Vec<Case> {
    let comment = |length: usize| [&b"# "[..], &vec![b'x'; length - 2]].concat();
    vec![
        refused("reading-cr-at-end-of-input", "#version 2.2.0\n#timeScale ns\r", 1, 2),
        accepted("reading-1023-bytes-cr-lf", raw_after_prelude(&[comment(1023), b"\r\n".to_vec()].concat()), 0, &EMPTY_SHEET),
        refused("reading-1023-bytes-of-event-cr-lf", raw_after_prelude(&[vec![b'0'; 1023], b"\r\n".to_vec()].concat()), 5, 3),
        refused("reading-1022-bytes-cr-cr-lf", raw_after_prelude(&[comment(1022), b"\r\r\n".to_vec()].concat()), 1, 3),
        refused("reading-1024-bytes", raw_after_prelude(&[comment(1024), b"\n".to_vec()].concat()), 1, 3),
        refused("reading-lone-cr-line", raw_after_prelude(b"\r"), 1, 3),
        accepted("reading-all-cr-lf", "#version 2.2.0\r\n#timeScale ns\r\n", 0, &EMPTY_SHEET),
        accepted("reading-last-line-without-end", "#version 2.2.0\n#timeScale ns", 0, &EMPTY_SHEET),
    ]
}

fn first_lines() -> Vec<Case> {
    vec![
        refused("reading-lone-lf", "\n", 2, 1),
        refused("reading-version-without-end", "#version 2.2.0", 4, 2),
        refused("reading-empty-line-before-scale", "#version 2.2.0\n\n", 4, 2),
        refused("reading-malformed-event-before-scale", "#version 2.2.0\n0,S\n#timeScale ns\n", 4, 2),
        refused("reading-comment-first", "# hello\n#version 2.2.0\n#timeScale ns\n", 2, 1),
        refused("reading-empty-line-after-scale", raw_after_prelude(b"\n"), 5, 3),
    ]
}

fn hash_lines() -> Vec<Case> {
    let taken = |label: &str, line: &[u8]| accepted(label, raw_after_prelude(line), 0, &EMPTY_SHEET);
    let third = |label: &str, line: &[u8], number| refused(label, raw_after_prelude(line), number, 3);
    let late = |label: &str, line: &str| refused(label, after_prelude(&["0,S,0,STI,S,0,trigger", line]), 3, 4);
    vec![
        taken("reading-empty-comment", b"# \n"),
        taken("reading-comment-of-any-bytes", b"# \0\xff\x80,\t#\n"),
        third("reading-hash-alone", b"#\n", 3),
        taken("reading-creator-of-one-blank", b"#creator  \n"),
        taken("reading-creator-of-any-bytes", b"#creator \xfe\0\n"),
        third("reading-creator-and-one-blank", b"#creator \n", 3),
        third("reading-versionx", b"#versionx\n", 3),
        third("reading-version-and-tab", b"#version\t2.2.0\n", 3),
        third("reading-version-alone-later", b"#version\n", 2),
        third("reading-version-again", b"#version 2.2.0\n", 2),
        third("reading-scale-in-both-spellings", b"#timescale ns\n", 3),
        taken("reading-year-0-leap-day", b"#creationDate 0000-02-29T00:00:00Z\n"),
        late("reading-late-date", "#creationDate 2012-09-02T16:40:30Z"),
        late("reading-late-creator", "#creator x"),
    ]
}

fn line_three(label: &str, line: &str, number: u8) -> Case {
    refused(label, after_prelude(&[line]), number, 3)
}

fn words() -> Vec<Case> {
    let long = "x".repeat(65);
    let third = |label: &str, line: &[u8]| refused(label, raw_after_prelude(line), 6, 3);
    vec![
        line_three("reading-type-empty", "0,S,0,,A,0,start", 6),
        line_three("reading-event-empty", "0,S,0,T,A,0,", 6),
        line_three("reading-type-of-65", &format!("0,S,0,{long},A,0,start"), 6),
        line_three("reading-event-of-65", &format!("0,S,0,T,A,0,{long}"), 6),
        line_three("reading-type-with-blank", "0,S,0,T ,A,0,start", 6),
        line_three("reading-event-with-blank", "0,S,0,T,A,0, start", 6),
        third("reading-type-not-ascii", b"0,S,0,\xc3\x84,A,0,start\n"),
        third("reading-event-not-ascii", b"0,S,0,T,A,0,\xff\n"),
        third("reading-type-and-byte-0", b"0,S,0,T\0,A,0,start\n"),
        third("reading-event-and-byte-0", b"0,C,0,T,A,0,start\0\n"),
        line_three("reading-event-of-other-type", "0,S,0,SEM,A,0,start,x", 6),
        line_three("reading-mtalimitexceeded-of-i", "0,S,0,I,A,0,mtalimitexceeded", 6),
        line_three("reading-interrupt-suspended-of-t", "0,S,0,T,A,0,interrupt_suspended", 6),
    ]
}

fn notes() -> Vec<Case> {
    let mut cases: Vec<Case> = ["1.", ".5", "-", "1.2.3", "+1"]
        .iter()
        .enumerate()
        .map(|(k, note)| line_three(&format!("reading-signal-note-wrong-{k}"), &format!("0,S,0,SIG,A,0,read,{note}"), 5))
        .collect();
    for (k, note) in ["-0", "007", "-12.50"].iter().enumerate() {
        let line = format!("0,S,0,SIG,A,0,read,{note}");
        cases.push(accepted(&format!("reading-signal-note-right-{k}"), after_prelude(&[&line]), 0, &EMPTY_SHEET));
    }
    let long_note = format!("0,S,0,T,A,0,activate,{}", "x".repeat(65));
    cases.extend([
        line_three("reading-count-with-leading-zero", "0,S,0,SEM,A,0,queued,01", 5),
        line_three("reading-count-too-large", "0,S,0,SEM,A,0,queued,4294967296", 5),
        line_three("reading-count-absent", "0,S,0,SEM,A,0,lock", 7),
        line_three("reading-count-empty", "0,S,0,SEM,A,0,lock,", 5),
        line_three("reading-barred-note", "0,S,0,T,A,0,activate,x", 7),
        line_three("reading-barred-note-of-65", &long_note, 5),
        accepted("reading-trigger-source", after_prelude(&["0,A,1,STI,A,2,trigger"]), 0, &EMPTY_SHEET),
    ]);
    cases
}

fn names() -> Vec<Case> {
    vec![
        accepted("reading-release-by-itself", after_prelude(&["0,A,0,T,A,0,release"]), 0, &["cores 0", "processes 1", "A 0"]),
        accepted(
            "reading-release-by-a-tracked-task",
            after_prelude(&["0,S,0,T,A,0,activate", "0,A,0,T,B,0,release"]),
            0,
            &["cores 0", "processes 2", "A 0", "B 0"],
        ),
        accepted(
            "reading-sources-are-not-tracked",
            after_prelude(&[
                "0,C,0,T,A,0,start",
                "0,C,0,R,r,0,start",
                "0,r,0,SEM,s,0,queued,0",
                "0,s,0,SIG,A,0,read",
                "0,C,0,EVENT,r,0,set_event,s",
                "0,A,0,STI,C,0,trigger",
                "0,C,0,SCHED,C,0,schedule",
            ]),
            0,
            &["cores 1", "C 0 0 0", "processes 1", "A 0"],
        ),
    ]
}

/// So many semaphores, which are names and nothing else.
fn semaphore_lines(count: usize) -> Vec<String> {
    (0..count).map(|k| format!("0,P,0,SEM,s{k},0,queued,1")).collect()
}

/// So many cores, each held by another instance of task A.
fn core_lines(count: usize) -> Vec<String> {
    (0..count).map(|k| format!("0,c{k},0,T,A,{k},start")).collect()
}

fn with_last(mut lines: Vec<String>, last: &str) -> Vec<u8> {
    lines.push(last.to_string());
    after_prelude(&lines.iter().map(String::as_str).collect::<Vec<_>>())
}

fn full_tables() -> Vec<Case> {
    let mut sheet = vec!["cores 64".to_string()];
    sheet.extend((0..64).map(|k| format!("c{k} 0 0 0")));
    sheet.extend(["processes 2", "A 0", "B 0"].map(String::from));
    let sheet: Vec<&str> = sheet.iter().map(String::as_str).collect();
    vec![
        refused("reading-255-names-and-two", with_last(semaphore_lines(255), "0,C,0,T,A,0,start"), 10, 258),
        refused("reading-255-names-and-one-twice", with_last(semaphore_lines(255), "0,C,0,T,C,0,start"), 9, 258),
        refused("reading-64-cores-and-a-task", with_last(core_lines(64), "0,A,0,T,B,0,start"), 9, 67),
        refused("reading-65-cores", with_last(core_lines(64), "0,c64,0,T,B,0,start"), 10, 67),
        refused("reading-1024-instances-and-one", with_last(living(1024), "0,S,0,R,q,0,start"), 10, 1027),
        accepted("reading-release-by-a-65th-core", with_last(core_lines(64), "0,c64,0,T,B,0,release"), 0, &sheet),
    ]
}

fn processes() -> Vec<Case> {
    let two = |label: &str, first: &str, second: &str, number| refused(label, after_prelude(&[first, second]), number, 4);
    vec![
        two("reading-mtalimitexceeded-then-start", "0,S,0,T,A,0,mtalimitexceeded", "0,C,0,T,A,0,start", 11),
        two("reading-activate-3-limit-9", "0,S,0,T,A,3,activate", "0,S,0,T,A,9,mtalimitexceeded", 12),
        two("reading-numbers-do-not-wrap", "0,S,0,T,A,4294967295,activate", "0,S,0,T,A,0,activate", 12),
        accepted(
            "reading-start-is-not-in-the-series",
            after_prelude(&["0,C,0,T,A,3,start", "0,S,0,T,A,9,activate"]),
            0,
            &["cores 1", "C 0 0 0", "processes 1", "A 0"],
        ),
        two("reading-activate-3-twice", "0,S,0,T,A,3,activate", "0,S,0,T,A,3,activate", 11),
    ]
}

fn semaphores() -> Vec<Case> {
    let two = |label: &str, first: &str, second: &str| refused(label, after_prelude(&[first, second]), 14, 4);
    vec![
        accepted(
            "reading-state-open-after-queued",
            after_prelude(&["0,S,0,SEM,A,0,queued,1", "0,A,0,SEM,A,0,full,1"]),
            0,
            &EMPTY_SHEET,
        ),
        accepted("reading-decrement-first", after_prelude(&["0,S,0,SEM,A,0,decrement,4294967295"]), 0, &EMPTY_SHEET),
        two("reading-decrement-after-0", "0,S,0,SEM,A,0,queued,0", "0,S,0,SEM,A,0,decrement,4294967295"),
        two("reading-increment-after-the-largest", "0,S,0,SEM,A,0,queued,4294967295", "0,S,0,SEM,A,0,increment,0"),
    ]
}

fn cores() -> Vec<Case> {
    let mut cases = vec![refused(
        "reading-preempt-after-terminate",
        after_prelude(&["0,C,0,T,A,0,terminate", "0,C,0,T,A,0,preempt"]),
        11,
        4,
    )];
    // The instance is seen before, RUNNING or POLLING on C, so that the chart
    // allows the event; D isn't tracked yet.
    for (before, event) in [
        ("start", "preempt"),
        ("start", "wait"),
        ("start", "terminate"),
        ("start", "poll"),
        ("poll", "park"),
        ("poll", "run"),
    ] {
        let first = format!("0,C,0,T,A,0,{before}");
        let second = format!("0,D,0,T,A,0,{event}");
        cases.push(refused(&format!("reading-{event}-on-an-unknown-core"), after_prelude(&[&first, &second]), 13, 4));
    }
    cases.push(accepted(
        "reading-a-source-has-not-been-seen",
        after_prelude(&["0,A,0,R,B,0,start", "0,C,0,T,A,0,preempt"]),
        0,
        &["cores 1", "C 0 0 0", "processes 1", "A 0"],
    ));
    cases.push(accepted(
        "reading-poll-first",
        after_prelude(&["0,C,0,T,A,0,poll", "5,S,0,STI,S,0,trigger"]),
        5,
        &["cores 1", "C 5 0 0", "processes 1", "A 5"],
    ));
    cases.push(accepted(
        "reading-unknown-until-tracked",
        after_prelude(&["0,S,0,STI,S,0,trigger", "5,C,0,T,A,0,preempt"]),
        5,
        &["cores 1", "C 0 0 5", "processes 1", "A 0"],
    ));
    cases
}

fn sheets() -> Vec<Case> {
    let mut sheet = vec!["cores 64".to_string()];
    sheet.extend((0..64).map(|k| format!("c{k} 72057594037927935 0 0")));
    sheet.extend(["processes 1", "A 4611686018427387840"].map(String::from));
    let sheet: Vec<&str> = sheet.iter().map(String::as_str).collect();
    vec![
        accepted(
            "reading-first-mention-is-the-tracking-line",
            after_prelude(&["0,B,0,R,r,0,start", "0,S,0,T,A,0,activate", "0,S,0,T,B,0,activate"]),
            0,
            &["cores 0", "processes 2", "A 0", "B 0"],
        ),
        accepted(
            "reading-processes-are-t-and-i",
            after_prelude(&["0,S,0,I,i,0,activate", "7,S,0,T,t,0,activate", "9,t,0,R,r,0,start"]),
            9,
            &["cores 0", "processes 2", "i 0", "t 0"],
        ),
        accepted(
            "reading-64-cores-for-the-longest-time",
            with_last(core_lines(64), "72057594037927935,S,0,STI,S,0,trigger"),
            72057594037927935,
            &sheet,
        ),
    ]
}
