//! Document 02, No. 7: "A day's trace has far more than 1,024 activations." An
//! instance that ends gives its room back, and nothing else changes by it. What
//! a full table answers is in `full_table.rs`.

use super::{accepted, after_prelude, living, refused, Case, EMPTY_SHEET};

/// Those that are part of the sample: short ones, and a few that fill the table.
pub fn cases() -> Vec<Case> {
    let mut cases = vec![a_middle_one_ends(), a_holder_is_still_the_holder(), charges_stay()];
    cases.extend(events_after_the_end());
    cases.extend(room_used_again());
    cases.push(names_still_count());
    cases
}

/// Those that are too long for the sample.
pub fn longer_cases() -> Vec<Case> {
    let mut cases = vec![a_day_of_a_runnable(), a_day_of_two_tasks(), a_day_of_limits(), a_day_at_a_full_table()];
    cases.extend(room_of_each_kind());
    cases
}

fn case_of(label: &str, lines: &[String], span: u64, sheet: &[&str]) -> Case {
    accepted(label, after_prelude(&lines.iter().map(String::as_str).collect::<Vec<_>>()), span, sheet)
}

/// The last of the lines is refused.
fn last_refused(label: &str, lines: &[String], number: u8) -> Case {
    let trace = after_prelude(&lines.iter().map(String::as_str).collect::<Vec<_>>());
    refused(label, trace, number, 2 + lines.len() as u64)
}

/// Four instances live; the second ends, and the others go on from the states
/// that they were in.
fn a_middle_one_ends() -> Case {
    accepted(
        "request-7-a-middle-one-ends",
        after_prelude(&[
            "0,S,0,T,A,1,activate",
            "0,P,0,R,r,1,start",
            "0,S,0,T,A,2,activate",
            "0,P,0,R,r,2,start",
            "10,P,0,R,r,2,suspend",
            "20,P,0,R,r,1,terminate",
            "30,C,0,T,A,2,start",
            "40,P,0,R,r,2,resume",
            "60,C,0,T,A,2,wait",
            "70,C,0,T,A,1,start",
            "80,C,0,T,A,1,terminate",
            "90,S,0,T,A,2,release",
            "90,P,0,R,r,2,terminate",
            "95,C,0,T,A,2,resume",
            "100,C,0,T,A,2,terminate",
        ]),
        100,
        &["cores 1", "C 45 25 30", "processes 1", "A 45"],
    )
}

/// Each of four instances holds a core. Those on the first and the third end;
/// the others hold theirs on, and are charged for it.
fn a_holder_is_still_the_holder() -> Case {
    accepted(
        "request-7-a-holder-is-still-the-holder",
        after_prelude(&[
            "0,S,0,T,A,1,activate",
            "0,S,0,T,B,1,activate",
            "0,S,0,T,A,2,activate",
            "0,S,0,T,D,1,activate",
            "0,c0,0,T,A,1,start",
            "0,c1,0,T,B,1,start",
            "0,c2,0,T,A,2,start",
            "0,c3,0,T,D,1,start",
            "10,c0,0,T,A,1,terminate",
            "20,c2,0,T,A,2,terminate",
            "30,c3,0,T,D,1,poll",
            "40,c1,0,T,B,1,preempt",
            "50,c3,0,T,D,1,run",
            "60,c3,0,T,D,1,terminate",
            "70,c0,0,T,B,1,resume",
            "100,c0,0,T,B,1,terminate",
        ]),
        100,
        &["cores 4", "c0 40 60 0", "c1 40 60 0", "c2 20 80 0", "c3 60 40 0", "processes 3", "A 30", "B 70", "D 60"],
    )
}

/// "Charges stay with the process": three instances of A end, and one of B.
fn charges_stay() -> Case {
    let mut lines = Vec::new();
    for number in 0..3u64 {
        let time = 100 * number;
        lines.push(format!("{time},S,0,T,A,{number},activate"));
        lines.push(format!("{},C,0,T,A,{number},start", time + 10));
        lines.push(format!("{},C,0,T,A,{number},terminate", time + 17));
    }
    lines.push("217,S,0,T,B,0,activate".to_string());
    lines.push("217,C,0,T,B,0,start".to_string());
    lines.push("300,C,0,T,B,0,terminate".to_string());
    case_of("request-7-charges-stay", &lines, 300, &["cores 1", "C 104 186 10", "processes 2", "A 21", "B 83"])
}

/// "a non-activating event of it is 11, an activating one other than the next
/// 12": of one that ended long ago, just now, or as one of two.
fn events_after_the_end() -> Vec<Case> {
    let life = ["0,S,0,T,A,4,activate", "0,C,0,T,A,4,start", "0,C,0,T,A,4,terminate"];
    let next = ["0,S,0,T,A,5,activate", "0,C,0,T,A,5,start", "0,C,0,T,A,5,terminate"];
    let both = [&life[..], &next[..]].concat();
    let runnable = ["0,P,0,R,r,4,start", "0,P,0,R,r,4,terminate"];
    let limit = ["0,S,0,T,A,4,mtalimitexceeded"];
    let mut cases = Vec::new();
    for (label, lines, last, number) in [
        ("terminate-again", &life[..], "0,C,0,T,A,4,terminate", 11),
        ("start-after-the-end", &life[..], "0,C,0,T,A,4,start", 11),
        ("release-after-the-end", &life[..], "0,C,0,T,A,4,release", 11),
        ("preempt-on-a-new-core-after-the-end", &life[..], "0,D,0,T,A,4,preempt", 11),
        ("resume-of-the-one-before", &both[..], "0,C,0,T,A,4,resume", 11),
        ("resume-of-the-last", &both[..], "0,C,0,T,A,5,resume", 11),
        ("activate-after-the-end", &life[..], "0,S,0,T,A,4,activate", 12),
        ("limit-after-the-end", &life[..], "0,S,0,T,A,4,mtalimitexceeded", 12),
        ("activate-the-one-before", &both[..], "0,S,0,T,A,4,activate", 12),
        ("activate-the-last-again", &both[..], "0,S,0,T,A,5,activate", 12),
        ("runnable-terminate-again", &runnable[..], "0,P,0,R,r,4,terminate", 11),
        ("runnable-resume-after-the-end", &runnable[..], "0,P,0,R,r,4,resume", 11),
        ("runnable-start-again", &runnable[..], "0,P,0,R,r,4,start", 12),
        ("resume-of-a-limit", &limit[..], "0,C,0,T,A,4,resume", 11),
        ("activate-a-limit", &limit[..], "0,S,0,T,A,4,activate", 12),
    ] {
        let lines = [lines, &[last]].concat();
        cases.push(refused(&format!("request-7-{label}"), after_prelude(&lines), number, 2 + lines.len() as u64));
    }
    cases
}

/// A full table whose instances end one after the other, with another one for
/// each: the next of a task after a limit, which needs no room, one that is
/// older and ends, the next start, and the end of one with no activation. The
/// two that are old keep their entries.
fn full_and_turned_over() -> Vec<String> {
    let mut lines = living(1024);
    lines.push("0,S,0,T,A,7,mtalimitexceeded".to_string());
    for (ended, begun) in [
        (1023, "0,S,0,T,A,8,activate"),
        (0, "0,C,0,T,A,3,terminate"),
        (511, "0,P,0,R,r,1024,start"),
        (512, "0,P,0,R,q,9,terminate"),
    ] {
        lines.push(format!("0,P,0,R,r,{ended},terminate"));
        lines.push(begun.to_string());
    }
    lines
}

/// "Give its room back at once and use it for new instances."
fn room_used_again() -> Vec<Case> {
    let sheet = ["cores 1", "C 0 0 0", "processes 1", "A 0"];
    let with = |last: &str| [full_and_turned_over(), vec![last.to_string()]].concat();
    vec![
        case_of("request-7-room-used-again", &with("0,P,0,R,r,1022,suspend"), 0, &sheet),
        last_refused("request-7-room-used-up", &with("0,P,0,R,r,1025,start"), 10),
        last_refused("request-7-a-skipped-start-at-a-full-table", &with("0,P,0,R,r,1026,start"), 12),
    ]
}

/// "Names that don't fit are 10 as before", also for a mtalimitexceeded.
fn names_still_count() -> Case {
    let mut lines: Vec<String> = (0..256).map(|k| format!("0,P,0,SEM,s{k},0,queued,1")).collect();
    lines.push("0,S,0,T,A,7,mtalimitexceeded".to_string());
    last_refused("request-7-limit-of-a-257th-name", &lines, 10)
}

/// 3,000 instances, each of which ends before the next one starts.
fn a_day_of_a_runnable() -> Case {
    let lines: Vec<String> =
        (0..3000).flat_map(|k| ["start", "terminate"].map(|event| format!("{k},P,0,R,r,{k},{event}"))).collect();
    case_of("request-7-a-day-of-a-runnable", &lines, 2999, &EMPTY_SHEET)
}

/// A has the core for 3 ticks of each ten and B for 2, 1,500 times; after that an
/// old A, for which there is room as ever.
fn a_day_of_two_tasks() -> Case {
    let mut lines = Vec::new();
    for k in 0..1500 {
        let (time, a, b) = (10 * k, k + 9, k);
        lines.push(format!("{time},S,0,T,A,{a},activate"));
        lines.push(format!("{time},S,0,T,B,{b},activate"));
        lines.push(format!("{},C,0,T,A,{a},start", time + 1));
        lines.push(format!("{},C,0,T,A,{a},terminate", time + 4));
        lines.push(format!("{},C,0,T,B,{b},start", time + 6));
        lines.push(format!("{},C,0,T,B,{b},terminate", time + 8));
    }
    lines.push("15000,C,0,T,A,8,resume".to_string());
    lines.push("15005,S,0,STI,S,0,trigger".to_string());
    let sheet = ["cores 1", "C 7505 7499 1", "processes 2", "A 4505", "B 3000"];
    case_of("request-7-a-day-of-two-tasks", &lines, 15005, &sheet)
}

/// A limit needs no entry, however many there are. Until this request each was
/// counted among the 1,024.
fn a_day_of_limits() -> Case {
    let mut lines: Vec<String> = (0..1100).map(|k| format!("0,S,0,T,A,{k},mtalimitexceeded")).collect();
    lines.push("0,S,0,T,A,1100,activate".to_string());
    case_of("request-7-a-day-of-limits", &lines, 0, &["cores 0", "processes 1", "A 0"])
}

/// 1,024 instances live at any time, and 3,024 in all.
fn a_day_at_a_full_table() -> Case {
    let mut lines = living(1024);
    for k in 0..2000 {
        lines.push(format!("0,P,0,R,r,{},terminate", (k * 7) % 1024 + k / 1024 * 1024));
        lines.push(format!("0,P,0,R,r,{},start", k + 1024));
    }
    lines.push("0,P,0,R,r,3024,start".to_string());
    last_refused("request-7-a-day-at-a-full-table", &lines, 10)
}

/// The room of each kind of instance is there for each kind, once.
fn room_of_each_kind() -> Vec<Case> {
    let lives = [
        ("task", "0,S,0,T,A,4,activate", "0,C,0,T,A,4,start", "0,C,0,T,A,4,terminate"),
        ("routine", "0,S,0,I,A,4,activate", "0,C,0,I,A,4,start", "0,C,0,I,A,4,terminate"),
        ("runnable", "0,P,0,R,q,4,start", "0,P,0,R,q,4,suspend", "0,P,0,R,q,4,resume"),
    ];
    let users = [
        ("the-next", "0,P,0,R,r,1023,start"),
        ("a-new-one", "0,S,0,T,B,0,activate"),
        ("an-old-one", "0,P,0,R,x,7,terminate"),
    ];
    let mut cases = Vec::new();
    for (kind, begun, goes_on, then) in lives {
        for (user, line) in users {
            let mut lines = vec![begun.to_string()];
            lines.extend(living(1023));
            lines.extend([goes_on, then].map(String::from));
            if kind == "runnable" {
                lines.push("0,P,0,R,q,4,terminate".to_string());
            }
            lines.push(line.to_string());
            lines.push("0,P,0,R,y,0,start".to_string());
            cases.push(last_refused(&format!("request-7-room-of-a-{kind}-for-{user}"), &lines, 10));
        }
    }
    cases
}
