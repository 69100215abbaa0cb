//! The listings of document 000, with the underscores that some of them lost
//! and 0 for the O in line 15 of Listing 2-3. The sheets are added up by hand.

use super::{accepted, after_prelude, refused, Case, EMPTY_SHEET};

pub fn cases() -> Vec<Case> {
    let mut cases = vec![
        refused("listing-2-1", listing_2_1("2012-08-31T15:53:00"), 3, 4),
        accepted(
            "listing-2-1-with-the-z",
            listing_2_1("2012-08-31T15:53:00Z"),
            200,
            &["cores 1", "Core_1 100 0 100", "processes 1", "Task_A 100"],
        ),
    ];
    cases.extend(listings_with_cores());
    cases.extend(listings_without_cores());
    cases
}

/// "Section 2.2.2 demands the Z, so the date in Listing 2-1 is refused."
fn listing_2_1(date: &str) -> Vec<u8> {
    format!(
        "#version 2.2.0\n\
         #creator TA-Tool Suite 12.06.1\n\
         # Simulation of dualcore processor 120MHz, 16Kbyte RAM\n\
         #creationDate {date}\n\
         #timeScale ns\n\
         0,Stimulus_Task_A,0,T,Task_A,0,activate\n\
         100,Core_1,0,T,Task_A,0,start\n\
         100,Task_A,0,R,Runnable_A_1,0,start\n\
         200,Task_A,0,SIG,S1,0,read,12.3\n"
    )
    .into_bytes()
}

fn listings_with_cores() -> Vec<Case> {
    vec![
        accepted("listing-2-3", after_prelude(&LISTING_2_3), 21200, &["cores 1", "Core_1 21000 100 100", "processes 2", "Task_A 14000", "Task_B 7000"]),
        accepted("listing-2-4", after_prelude(&LISTING_2_4), 7200, &["cores 1", "Core_1 7100 0 100", "processes 2", "Task_A 7100", "Task_B 0"]),
        accepted("listing-2-7", after_prelude(&LISTING_2_7), 960175, &["cores 1", "Core_1 959975 100 100", "processes 2", "TASK_InputProcessing 488250", "TASK_1MS 471725"]),
        accepted("listing-2-8", after_prelude(&LISTING_2_8), 51100, &["cores 1", "Core_1 26000 100 25000", "processes 2", "Task_B 1000", "Task_A 25000"]),
        accepted("listing-2-10", after_prelude(&LISTING_2_10), 14100, &["cores 1", "Core_1 14000 100 0", "processes 1", "Task_B 14000"]),
        accepted("listing-2-11", after_prelude(&LISTING_2_11), 21100, &["cores 2", "Core_1 19908 1092 100", "Core_2 20000 0 1100", "processes 2", "Task_A 19908", "Task_B 20000"]),
    ]
}

fn listings_without_cores() -> Vec<Case> {
    vec![
        accepted("listing-2-5", after_prelude(&LISTING_2_5), 0, &EMPTY_SHEET),
        accepted("listing-2-6", after_prelude(&LISTING_2_6), 0, &EMPTY_SHEET),
        accepted("listing-2-9", after_prelude(&LISTING_2_9), 380, &EMPTY_SHEET),
        accepted("listing-2-12", after_prelude(&LISTING_2_12), 4367947, &EMPTY_SHEET),
        accepted("listing-2-13", after_prelude(&LISTING_2_13), 462154, &EMPTY_SHEET),
    ]
}

const LISTING_2_3: [&str; 16] = [
    "0,Stimulus_Task_A,0,T,Task_A,0,activate",
    "100,Core_1,0,T,Task_A,0,start",
    "100,Task_A,0,R,Runnable_A_1,0,start",
    "7100,Task_A,0,R,Runnable_A_1,0,terminate",
    "7100,Task_A,0,R,Runnable_A_2,0,start",
    "10000,Stimulus_Task_B,0,T,Task_B,0,activate",
    "10100,Task_A,0,R,Runnable_A_2,0,suspend",
    "10100,Core_1,0,T,Task_A,0,preempt",
    "10100,Core_1,0,T,Task_B,0,start",
    "10100,Task_B,0,R,Runnable_B_1,0,start",
    "17100,Task_B,0,R,Runnable_B_1,0,terminate",
    "17100,Core_1,0,T,Task_B,0,terminate",
    "17200,Core_1,0,T,Task_A,0,resume",
    "17200,Task_A,0,R,Runnable_A_2,0,resume",
    "21200,Task_A,0,R,Runnable_A_2,0,terminate",
    "21200,Core_1,0,T,Task_A,0,terminate",
];

const LISTING_2_4: [&str; 7] = [
    "0,Stimulus_Task_A,0,STI,Stimulus_Task_A,0,trigger",
    "0,Stimulus_Task_A,0,T,Task_A,0,activate",
    "100,Core_1,0,T,Task_A,0,start",
    "7100,Task_A,0,STI,Stimulus_Task_B,0,trigger",
    "7100,Stimulus_Task_B,0,T,Task_B,0,activate",
    "7200,Core_1,0,T,Task_A,0,preempt",
    "7200,Core_1,0,T,Task_B,0,start",
];

const LISTING_2_5: [&str; 2] = [
    "20000000,SIM,0,STI,Periodic_Stimulus,1,trigger",
    "20000000,Periodic_Stimulus,1,EVENT,Event_1,0,set_event,Task_1",
];

const LISTING_2_6: [&str; 2] = [
    "20000000,SIM,0,STI,Periodic_Stimulus,1,trigger",
    "20000000,Periodic_Stimulus,1,SIG,Signal_1,0,write,2",
];

const LISTING_2_7: [&str; 8] = [
    "6150000,TIMER_2ms,3,T,TASK_InputProcessing,3,activate",
    "6150100,Core_1,0,T,TASK_InputProcessing,3,start",
    "6250000,TIMER_1MS,6,T,TASK_1MS,6,activate",
    "6250100,Core_1,0,T,TASK_InputProcessing,3,preempt",
    "6250100,Core_1,0,T,TASK_1MS,6,start",
    "6721825,Core_1,0,T,TASK_1MS,6,terminate",
    "6721925,Core_1,0,T,TASK_InputProcessing,3,resume",
    "7110175,Core_1,0,T,TASK_InputProcessing,3,terminate",
];

const LISTING_2_8: [&str; 11] = [
    "100100,Task_A,0,R,Runnable_A,0,start",
    "125000,Stimulus_2,0,T,Task_B,0,activate",
    "125100,Task_A,0,R,Runnable_A,0,suspend",
    "125100,Core_1,0,T,Task_A,0,preempt",
    "125100,Core_1,0,T,Task_B,0,start",
    "125100,Task_B,0,R,Runnable_B,0,start",
    "126100,Task_B,0,R,Runnable_B,0,terminate",
    "126100,Core_1,0,T,Task_B,0,terminate",
    "126200,Core_1,0,T,Task_A,0,resume",
    "126200,Task_A,0,R,Runnable_A,0,resume",
    "151200,Task_A,0,R,Runnable_A,0,terminate",
];

const LISTING_2_9: [&str; 10] = [
    "100,Task_1,0,R,Runnable_1,0,start",
    "170,Task_1,0,R,Runnable_1_1,0,start",
    "205,Task_1,0,R,Runnable_1_1,0,suspend",
    "205,Task_1,0,R,Runnable_1,0,suspend",
    "205,Task_2,0,R,Runnable_2,0,start",
    "275,Task_2,0,R,Runnable_2,0,terminate",
    "375,Task_1,0,R,Runnable_1,0,resume",
    "375,Task_1,0,R,Runnable_1_1,0,resume",
    "410,Task_1,0,R,Runnable_1_1,0,terminate",
    "480,Task_1,0,R,Runnable_1,0,terminate",
];

const LISTING_2_10: [&str; 6] = [
    "10100,Core_1,0,T,Task_B,0,start",
    "17100,Task_B,0,SCHED,Scheduler_1,0,schedulepoint",
    "17100,Core_1,0,T,Task_B,0,preempt",
    "17200,Scheduler_1,0,SCHED,Scheduler_1,0,schedule",
    "17200,Core_1,0,T,Task_B,0,resume",
    "24200,Core_1,0,T,Task_B,0,terminate",
];

const LISTING_2_11: [&str; 12] = [
    "0,Stimulus_Task_A,0,T,Task_A,0,activate",
    "100,Core_1,0,T,Task_A,0,start",
    "1000,Stimulus_Task_B,0,T,Task_B,0,activate",
    "1100,Core_2,0,T,Task_B,0,start",
    "10108,Task_A,0,EVENT,ExampleOsEvent,0,wait_event",
    "10108,Core_1,0,T,Task_A,0,wait",
    "11100,Task_B,0,EVENT,ExampleOsEvent,0,set_event,Task_A",
    "11100,Core_1,0,T,Task_A,0,release",
    "11200,Core_1,0,T,Task_A,0,resume",
    "11200,Task_A,0,EVENT,ExampleOsEvent,0,clear_event",
    "21100,Core_1,0,T,Task_A,0,terminate",
    "21100,Core_2,0,T,Task_B,0,terminate",
];

const LISTING_2_12: [&str; 4] = [
    "1222481,STI_MODE_SWITCH,0,SIG,HighPowerMode,0,write,1",
    "1222481,TASK_200MS,0,SIG,HighPowerMode,0,read,1",
    "4482566,TASK_WritingActuator,2,SIG,S16_C1_1,0,write,0",
    "5590428,TASK_10MS,0,SIG,S16_C1_1,0,read,0",
];

const LISTING_2_13: [&str; 15] = [
    "0,Sem1,0,SEM,Sem1,0,free,0",
    "308,Process1,0,SEM,Sem1,0,requestsemaphore,0",
    "308,Process1,0,SEM,Sem1,0,increment,1",
    "308,Process1,0,SEM,Sem1,0,queued,1",
    "308,Sem1,0,SEM,Sem1,0,lock,1",
    "308,Process1,0,SEM,Sem1,0,assigned,1",
    "9539,Process2,0,SEM,Sem1,0,requestsemaphore,1",
    "9539,Process2,0,SEM,Sem1,0,increment,2",
    "9539,Process2,0,SEM,Sem1,0,queued,2",
    "9539,Sem1,0,SEM,Sem1,0,overfull,2",
    "9539,Process2,0,SEM,Sem1,0,waiting,2",
    "462154,Process1,0,SEM,Sem1,0,released,2",
    "462154,Process1,0,SEM,Sem1,0,decrement,1",
    "462154,Sem1,0,SEM,Sem1,0,full,1",
    "462154,Process2,0,SEM,Sem1,0,assigned,1",
];
