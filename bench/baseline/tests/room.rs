//! Document 02, No. 7: which instances need an entry, and what the fast reader
//! answers where 1,024 do.

mod shared;

use shared::{answer, on_the_last, verdict, PRELUDE};

const MOST: usize = 1024;

/// So many instances of one runnable that were started and live.
fn living(count: usize) -> String {
    (0..count).map(|number| format!("0,S,0,R,r,{number},start\n")).collect()
}

/// So many instances of one runnable that have ended, and no start of it.
fn ended_before_any_start(count: usize) -> String {
    (0..count).map(|number| format!("0,S,0,R,q,{number},terminate\n")).collect()
}

/// The last of the lines gets `with_room` where one entry is left before it, and
/// `full` where none is. The lines before the last add so many entries.
fn assert_both(lines: &str, adding: usize, with_room: u64, full: u64) {
    for (left, number) in [(1, with_room), (0, full)] {
        let trace = living(MOST - adding - left) + lines;
        assert_eq!(verdict(&trace), on_the_last(&trace, number), "{lines:?} with {left} left");
    }
}

#[test]
fn what_needs_an_entry_is_10_where_there_is_no_room() {
    for (lines, adding) in [
        ("0,S,0,T,B,0,activate", 0),
        ("0,C,0,T,B,0,resume", 0),
        ("0,C,0,T,B,0,terminate", 0),
        ("0,C,0,I,B,0,interrupt_suspended", 0),
        ("0,S,0,R,s,0,start", 0),
        ("0,S,0,R,s,0,terminate", 0),
        ("0,S,0,T,A,4,activate\n0,S,0,T,A,5,activate", 1),
        ("0,S,0,T,A,4,activate\n0,C,0,T,A,3,resume", 1),
        ("0,S,0,T,A,4,activate\n0,C,0,T,A,3,terminate", 1),
        ("0,S,0,T,A,4,mtalimitexceeded\n0,C,0,T,A,3,resume", 0),
        ("0,S,0,T,A,4,mtalimitexceeded\n0,S,0,T,A,5,activate", 0),
        ("0,C,0,T,A,4,release\n0,C,0,T,A,9,release", 1),
        ("0,C,0,T,A,4,release\n0,S,0,T,A,5,activate", 1),
        ("0,C,0,T,A,4,release\n0,S,0,T,A,9,mtalimitexceeded\n0,C,0,T,A,8,release", 1),
    ] {
        assert_both(lines, adding, 0, 10);
    }
    let one_more = living(MOST + 1);
    assert_eq!(verdict(&living(MOST)), (0, 0));
    assert_eq!(verdict(&one_more), (10, 3 + MOST as u64));
}

/// 12 is tested after 10: an unseen instance below the first number, and a first
/// activation, would have to be added.
#[test]
fn wrong_numbers_that_need_an_entry_are_10_before_12() {
    for (lines, adding) in [
        ("0,S,0,T,A,4,activate\n0,S,0,T,A,3,activate", 1),
        ("0,S,0,T,A,4,mtalimitexceeded\n0,S,0,T,A,3,activate", 0),
        ("0,S,0,T,A,4294967295,activate\n0,S,0,T,A,0,activate", 1),
        ("0,C,0,T,A,5,release\n0,S,0,T,A,4,activate", 1),
        ("0,C,0,T,A,5,terminate\n0,S,0,T,A,4,activate", 1),
        ("0,S,0,R,s,4,start\n0,S,0,R,s,3,start", 1),
        ("0,S,0,R,s,5,terminate\n0,S,0,R,s,4,start", 1),
    ] {
        assert_both(lines, adding, 12, 10);
    }
}

#[test]
fn what_needs_no_entry_is_answered_alike_with_and_without_room() {
    for (lines, adding, number) in [
        // no older than the first activation: it has ended or never begun
        ("0,S,0,T,A,4,activate\n0,C,0,T,A,9,resume", 1, 11),
        ("0,S,0,T,A,4,activate\n0,C,0,T,A,5,start", 1, 11),
        ("0,S,0,T,A,4,activate\n0,S,0,T,A,6,activate", 1, 12),
        ("0,S,0,T,A,4,mtalimitexceeded\n0,C,0,T,A,4,start", 0, 11),
        ("0,S,0,T,A,4,mtalimitexceeded\n0,S,0,T,A,4,activate", 0, 12),
        ("0,S,0,T,A,4294967295,mtalimitexceeded\n0,C,0,T,A,4294967295,start", 0, 11),
        ("0,S,0,R,s,4,start\n0,S,0,R,s,5,resume", 1, 11),
        ("0,S,0,R,s,4,start\n0,S,0,R,s,6,start", 1, 12),
        // an activation beyond the limit
        ("0,S,0,T,A,4,mtalimitexceeded", 0, 0),
        ("0,S,0,T,A,4,activate\n0,S,0,T,A,5,mtalimitexceeded", 1, 0),
        ("0,S,0,T,A,4,activate\n0,S,0,T,A,6,mtalimitexceeded", 1, 12),
        ("0,S,0,T,A,4,activate\n0,S,0,T,A,3,mtalimitexceeded", 1, 12),
        ("0,C,0,T,A,5,release\n0,S,0,T,A,6,mtalimitexceeded", 1, 0),
        ("0,C,0,T,A,5,release\n0,S,0,T,A,4,mtalimitexceeded", 1, 12),
        // an instance that has an entry
        ("0,S,0,T,A,4,activate\n0,C,0,T,A,4,start", 1, 0),
        ("0,S,0,T,A,4,activate\n0,S,0,T,A,4,activate", 1, 11),
        ("0,C,0,T,A,5,terminate\n0,C,0,T,A,5,start", 1, 11),
        ("0,C,0,T,A,5,terminate\n0,S,0,T,A,5,activate", 1, 12),
        ("0,C,0,T,A,5,terminate\n0,S,0,T,A,6,mtalimitexceeded\n0,S,0,T,A,5,activate", 1, 12),
        ("0,C,0,T,A,5,release\n0,S,0,T,A,5,activate", 1, 11),
    ] {
        assert_both(lines, adding, number, number);
    }
}

/// An instance that was activated in the trace ends, and another takes its room.
#[test]
fn room_is_given_back_at_once() {
    for lines in [
        "0,S,0,R,r,5,terminate\n0,S,0,T,B,0,activate",
        "0,S,0,R,r,0,terminate\n0,S,0,R,r,1024,start",
        "0,S,0,R,r,1023,terminate\n0,C,0,T,B,9,release",
        "0,S,0,R,r,7,terminate\n0,S,0,T,B,0,activate\n0,C,0,T,B,0,start\n0,C,0,T,B,0,terminate\n0,S,0,T,B,1,activate",
    ] {
        assert_eq!(verdict(&(living(MOST) + lines)), (0, 0), "{lines:?}");
        let one_more = living(MOST) + lines + "\n0,S,0,R,s,0,start";
        assert_eq!(verdict(&one_more), on_the_last(&one_more, 10), "{lines:?}");
    }
}

#[test]
fn an_instance_that_gave_its_room_back_has_ended() {
    let ended = living(MOST) + "0,S,0,R,r,5,terminate\n";
    for (line, number) in [
        ("0,S,0,R,r,5,start", 12),
        ("0,S,0,R,r,5,resume", 11),
        ("0,S,0,R,r,5,suspend", 11),
        ("0,S,0,R,r,5,terminate", 11),
        ("0,S,0,R,r,4,terminate", 0),
        ("0,S,0,R,r,6,suspend", 0),
    ] {
        let trace = ended.clone() + line;
        assert_eq!(verdict(&trace), on_the_last(&trace, number), "{line:?}");
        let reused = ended.clone() + "0,S,0,T,B,5,activate\n" + line;
        assert_eq!(verdict(&reused), on_the_last(&reused, number), "{line:?} after its room is used");
    }
}

/// Also if the first activation came later.
#[test]
fn one_older_than_the_first_activation_keeps_its_entry() {
    let full = ended_before_any_start(MOST);
    assert_eq!(verdict(&full), (0, 0));
    for (line, number) in [
        ("0,S,0,R,q,1024,start", 10),
        ("0,S,0,R,r,0,start", 10),
        ("0,S,0,R,q,5,start", 12),
        ("0,S,0,R,q,5,resume", 11),
        ("0,S,0,T,A,0,mtalimitexceeded", 0),
    ] {
        let trace = full.clone() + line;
        assert_eq!(verdict(&trace), on_the_last(&trace, number), "{line:?}");
    }
    // the last one comes and goes, and the others stay
    let mut trace = ended_before_any_start(MOST - 1);
    for number in MOST..MOST + 9 {
        trace += &format!("0,S,0,R,q,{number},start\n0,S,0,R,q,{number},terminate\n");
    }
    assert_eq!(verdict(&trace), (0, 0));
    trace += "0,S,0,R,q,1033,start\n0,S,0,R,r,0,start";
    assert_eq!(verdict(&trace), on_the_last(&trace, 10));
}

#[test]
fn names_that_do_not_fit_are_10_as_before() {
    let names = (0..256).map(|number| format!("0,S,0,R,n{number},0,start\n")).collect::<String>();
    let trace = names + "0,S,0,T,A,0,mtalimitexceeded";
    assert_eq!(verdict(&trace), on_the_last(&trace, 10));
}

#[test]
fn charges_stay_with_the_process() {
    let mut trace = PRELUDE.to_string();
    for number in 0..20_000 {
        let time = number * 10;
        trace += &format!("{time},S,0,T,A,{number},activate\n{},C,0,T,A,{number},start\n", time + 1);
        trace += &format!("{},C,0,T,A,{number},terminate\n", time + 4);
    }
    let sheet = "verdict 0 line 0 scale ns span 199994\ncores 1\nC 60000 139993 1\nprocesses 1\nA 60000\n";
    assert_eq!(answer(trace.as_bytes()), sheet);
}
