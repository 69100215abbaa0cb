//! The fast reader's answers to the examples of document 01, to the readings that
//! were settled, and to document 02's requests that have landed.

mod shared;

use shared::{answer, on_the_last, verdict, verdict_on, PRELUDE};

#[test]
fn the_listing_of_document_01_is_charged_as_shown() {
    let trace = "#version 2.2.0\n#timeScale ns\n\
        6150000,TIMER_2ms,3,T,TASK_InputProcessing,3,activate\n\
        6150100,Core_1,0,T,TASK_InputProcessing,3,start\n\
        6250000,TIMER_1MS,6,T,TASK_1MS,6,activate\n\
        6250100,Core_1,0,T,TASK_InputProcessing,3,preempt\n\
        6250100,Core_1,0,T,TASK_1MS,6,start\n\
        6721825,Core_1,0,T,TASK_1MS,6,terminate\n\
        6721925,Core_1,0,T,TASK_InputProcessing,3,resume\n\
        7110175,Core_1,0,T,TASK_InputProcessing,3,terminate\n";
    let sheet = "verdict 0 line 0 scale ns span 960175\n\
        cores 1\nCore_1 959975 100 100\n\
        processes 2\nTASK_InputProcessing 488250\nTASK_1MS 471725\n";
    assert_eq!(answer(trace.as_bytes()), sheet);
}

#[test]
fn whole_traces() {
    for (trace, wanted) in [
        ("", (2, 1)),
        ("\n", (2, 1)),
        ("# first\n#version 2.2.0\n", (2, 1)),
        ("#version 2.2.0", (4, 2)),
        ("#version 2.2.0\n\n", (4, 2)),
        ("#version 2.2.0\n#timeScale ns\r", (1, 2)),
        ("#version 2.2.0\r\n#timeScale ns\r\n", (0, 0)),
        ("#version 2.2.0\n#timeScale ns\n#timescale ns\n", (3, 3)),
    ] {
        assert_eq!(verdict_on(trace), wanted, "{trace:?}");
    }
}

#[test]
fn single_lines() {
    for (line, number) in [
        ("100,Core_1,0,T,Task_A,0,start", 0),
        ("100,Core_1,0,T,Task_A,0,start,", 5),
        ("0100,Core_1,0,T,Task_A,0,start", 5),
        ("72057594037927935,Core_1,0,T,Task_A,0,start", 0),
        ("72057594037927936,Core_1,0,T,Task_A,0,start", 5),
        ("100,Core_1,1,T,Task_A,0,start", 7),
        ("100,Core_1,0,T,Task\r_A,0,start", 1),
        ("0,C,0,T,A,0,resume", 0),
        ("0,A,0,T,A,0,release", 0),
        ("0,A,0,T,A,0,start", 9),
        ("0,S,0,SEM,A,0,start,x", 6),
        ("0,S,0,I,A,0,mtalimitexceeded", 6),
        ("0,S,0,T,A,0,interrupt_suspended", 6),
        ("0,S,0,SIG,A,0,read,1.", 5),
        ("0,S,0,SIG,A,0,read,-12.50", 0),
        ("0,S,0,SEM,A,0,queued,01", 5),
        ("0,S,0,SEM,A,0,lock", 7),
        ("0,S,0,SEM,A,0,lock,", 5),
        ("0,S,0,T,A,0,activate,x", 7),
        ("0,A,1,STI,A,2,trigger", 0),
        ("0,S,0,SEM,A,0,decrement,4294967295", 0),
        ("0,A,0,SEM,A,0,free,1", 14),
        ("#creator", 3),
        ("#version 2.2.0", 2),
    ] {
        assert_eq!(verdict(line), on_the_last(line, number), "{line:?}");
    }
}

#[test]
fn two_lines() {
    for (lines, number) in [
        ("5,S,0,STI,S,0,trigger\n4,S,0,STI,S,0,trigger", 8),
        ("0,C,0,T,A,0,start\n0,C,0,T,B,0,start", 13),
        ("0,C,0,T,A,0,start\n0,C,0,T,A,0,start", 11),
        ("0,S,0,T,A,3,activate\n0,S,0,T,A,5,activate", 12),
        ("0,S,0,T,A,3,activate\n0,S,0,T,A,3,activate", 11),
        ("0,S,0,T,A,3,activate\n0,S,0,T,A,9,mtalimitexceeded", 12),
        ("0,S,0,T,A,4294967295,activate\n0,S,0,T,A,0,activate", 12),
        ("0,S,0,T,A,0,mtalimitexceeded\n0,C,0,T,A,0,start", 11),
        ("0,C,0,T,A,0,terminate\n0,C,0,T,A,0,preempt", 11),
        ("0,S,0,T,A,0,activate\n0,S,0,I,A,0,activate", 9),
        ("0,A,0,R,B,0,start\n0,C,0,T,A,0,preempt", 0),
        ("0,C,0,T,A,0,resume\n0,D,0,T,A,0,preempt", 13),
        ("0,S,0,SEM,A,0,queued,1\n0,A,0,SEM,A,0,full,1", 0),
        ("0,S,0,SEM,A,0,queued,1\n0,S,0,SEM,A,0,increment,1", 14),
        ("0,A,0,SEM,A,0,full,2\n0,A,0,SEM,A,0,overfull,2", 0),
        ("0,A,0,SEM,A,0,overfull,2\n0,A,0,SEM,A,0,overfull,2", 0),
        ("0,A,0,SEM,A,0,overfull,2\n0,A,0,SEM,A,0,overfull,3", 14),
        ("0,A,0,SEM,A,0,used,2\n0,A,0,SEM,A,0,overfull,2", 11),
        ("0,S,0,STI,S,0,trigger\n#creator late", 3),
    ] {
        assert_eq!(verdict(lines), on_the_last(lines, number), "{lines:?}");
    }
}

/// Document 02, No. 5: the last line is refused, or none.
#[test]
fn instances_that_were_never_activated() {
    for (lines, number) in [
        ("0,S,0,T,A,4,activate\n0,C,0,T,A,9,resume", 11),
        ("0,S,0,T,A,3,activate\n0,C,0,T,A,4,resume", 11),
        ("0,S,0,T,A,4,activate\n0,C,0,T,A,3,resume", 0),
        ("0,S,0,T,A,4,activate\n0,S,0,T,A,5,activate\n0,C,0,T,A,3,resume", 0),
        ("0,S,0,T,A,4,activate\n0,S,0,T,A,5,activate\n0,C,0,T,A,6,resume", 11),
        ("0,S,0,T,A,4,mtalimitexceeded\n0,C,0,T,A,9,release", 11),
        ("0,S,0,T,A,4,mtalimitexceeded\n0,C,0,T,A,3,release", 0),
        ("0,S,0,I,A,4,activate\n0,C,0,I,A,5,interrupt_suspended", 11),
        ("0,S,0,I,A,4,activate\n0,C,0,I,A,3,interrupt_suspended", 0),
        ("0,S,0,T,A,0,activate\n0,C,0,T,A,4294967295,resume", 11),
        ("0,S,0,T,A,4294967295,activate\n0,C,0,T,A,4294967294,resume", 0),
        ("0,C,0,T,A,4,start\n0,D,0,T,A,9,resume", 0),
        ("0,S,0,T,A,4,activate\n0,C,0,T,B,9,resume", 0),
        ("0,S,0,T,A,4,activate\n0,C,0,T,B,0,start\n0,C,0,T,A,9,resume", 11),
        ("0,A,0,R,r,4,start\n0,A,0,R,r,5,resume", 11),
        ("0,A,0,R,r,4,start\n0,A,0,R,r,3,resume", 0),
        ("0,A,0,R,r,4,start\n0,A,0,R,q,5,resume", 0),
    ] {
        assert_eq!(verdict(lines), on_the_last(lines, number), "{lines:?}");
    }
}

#[test]
fn first_activations_above_all_seen() {
    for (lines, number) in [
        ("0,C,0,T,A,5,start\n0,S,0,T,A,5,activate", 11),
        ("0,C,0,T,A,5,terminate\n0,S,0,T,A,5,activate", 12),
        ("0,C,0,T,A,5,terminate\n0,S,0,T,A,5,mtalimitexceeded", 12),
        ("0,C,0,T,A,5,start\n0,S,0,T,A,4,activate", 12),
        ("0,C,0,T,A,5,start\n0,S,0,T,A,6,activate", 0),
        ("0,C,0,T,A,5,start\n0,S,0,T,A,9,mtalimitexceeded", 0),
        ("0,C,0,T,A,8,release\n0,C,0,T,A,5,release\n0,S,0,T,A,7,activate", 12),
        ("0,C,0,T,A,8,release\n0,C,0,T,A,5,release\n0,S,0,T,A,9,activate", 0),
        ("0,C,0,T,A,3,release\n0,S,0,T,A,4,activate\n0,S,0,T,A,5,activate", 0),
        ("0,C,0,T,A,3,release\n0,S,0,T,A,4,activate\n0,S,0,T,A,6,activate", 12),
        ("0,C,0,T,A,4294967295,release\n0,S,0,T,A,0,activate", 12),
        ("0,C,0,I,A,5,interrupt_suspended\n0,S,0,I,A,5,activate", 11),
        ("0,C,0,I,A,5,interrupt_suspended\n0,S,0,I,A,6,activate", 0),
        ("0,C,0,T,A,9,resume\n0,S,0,T,B,4,activate", 0),
        ("0,A,9,R,r,0,start\n0,S,0,T,A,4,activate", 0),
        ("0,A,0,R,r,5,resume\n0,A,0,R,r,5,start", 11),
        ("0,A,0,R,r,5,terminate\n0,A,0,R,r,5,start", 12),
        ("0,A,0,R,r,5,resume\n0,A,0,R,r,4,start", 12),
        ("0,A,0,R,r,5,resume\n0,A,0,R,r,6,start", 0),
    ] {
        assert_eq!(verdict(lines), on_the_last(lines, number), "{lines:?}");
    }
}

#[test]
fn what_stands_on_the_sheet() {
    let polled = format!("{PRELUDE}0,C,0,T,A,0,poll\n5,S,0,STI,S,0,trigger\n");
    assert!(answer(polled.as_bytes()).ends_with("cores 1\nC 5 0 0\nprocesses 1\nA 5\n"));
    let late = format!("{PRELUDE}0,S,0,STI,S,0,trigger\n5,C,0,T,A,0,preempt\n");
    assert!(answer(late.as_bytes()).ends_with("cores 1\nC 0 0 5\nprocesses 1\nA 0\n"));
    assert!(answer(PRELUDE.as_bytes()).ends_with("span 0\ncores 0\nprocesses 0\n"));
}

#[test]
fn sizes_at_their_limits() {
    let names = |count: usize| (0..count).map(|n| format!("0,S,0,R,n{n},0,start\n")).collect::<String>();
    assert_eq!(verdict(&names(256)), (0, 0));
    assert_eq!(verdict(&names(257)), (10, 259));
    let cores = |count: usize| (0..count).map(|n| format!("0,C{n},0,T,A,{n},start\n")).collect::<String>();
    assert_eq!(verdict(&cores(64)), (0, 0));
    assert_eq!(verdict(&cores(65)), (10, 67));
    let comment = |bytes: usize, end: &str| format!("# {}{end}", "x".repeat(bytes - 2));
    assert_eq!(verdict(&comment(1023, "\r\n")), (0, 0));
    assert_eq!(verdict(&comment(1024, "\n")), (1, 3));
    assert_eq!(verdict(&comment(200_000, "")), (1, 3));
}
