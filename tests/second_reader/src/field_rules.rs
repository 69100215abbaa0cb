//! Answer 7: "source, instance or note presence rule broken".

use crate::cores;
use crate::event_line::EventLine;
use crate::semaphores::is_state_event;
use crate::words::TargetType;

pub fn is_broken(line: &EventLine) -> bool {
    (source_instance_must_be_zero(line) && line.source_instance != 0)
        || (source_must_be_the_target(line) && !source_is_the_target(line))
        || (target_instance_must_be_zero(line) && line.target_instance != 0)
        || note_is_missing(line)
        || note_is_barred(line)
}

/// "source instance 0 for core events (start, resume, poll_parking, preempt,
/// wait, park, terminate, poll, run, release, release_parking on T or I), for
/// interrupt_suspended and for schedule."
fn source_instance_must_be_zero(line: &EventLine) -> bool {
    cores::source_is_a_core(line)
        || line.event == "interrupt_suspended"
        || line.event == "schedule"
}

/// "Source equals target, both instances 0, for schedule and for a semaphore's
/// own state events."
fn source_must_be_the_target(line: &EventLine) -> bool {
    line.event == "schedule" || is_state_event(line)
}

fn source_is_the_target(line: &EventLine) -> bool {
    line.source == line.target && line.source_instance == 0 && line.target_instance == 0
}

/// "Target instance 0 for SEM, SCHED, EVENT, SIG."
fn target_instance_must_be_zero(line: &EventLine) -> bool {
    matches!(
        line.target_type,
        TargetType::Semaphore | TargetType::Scheduler | TargetType::OsEvent | TargetType::Signal
    )
}

/// "Notes: required for SEM (a count) and `set_event` (a name)".
fn note_is_required(line: &EventLine) -> bool {
    line.target_type == TargetType::Semaphore || line.event == "set_event"
}

/// "optional for SIG".
fn note_is_optional(line: &EventLine) -> bool {
    line.target_type == TargetType::Signal
}

/// "A note that is absent where required, or present where barred, is 7."
fn note_is_missing(line: &EventLine) -> bool {
    note_is_required(line) && line.note.is_none()
}

/// "absent elsewhere".
fn note_is_barred(line: &EventLine) -> bool {
    line.note.is_some() && !note_is_required(line) && !note_is_optional(line)
}

#[cfg(test)]
mod tests {
    use crate::event_line::read_event_line;

    fn answer(line: &str) -> u8 {
        read_event_line(line.as_bytes()).err().unwrap_or(0)
    }

    #[test]
    fn core_events_and_the_schedulers_bear_source_instance_0() {
        for event in [
            "start", "resume", "poll_parking", "preempt", "wait", "park", "terminate", "poll",
            "run", "release", "release_parking",
        ] {
            for letter in ["T", "I"] {
                assert_eq!(answer(&format!("0,C,0,{letter},A,3,{event}")), 0);
                assert_eq!(answer(&format!("0,C,1,{letter},A,3,{event}")), 7);
            }
        }
        assert_eq!(answer("0,S,1,I,A,3,interrupt_suspended"), 7);
        assert_eq!(answer("0,S,0,I,A,3,interrupt_suspended"), 0);
        assert_eq!(answer("0,S,1,T,A,3,activate"), 0);
        assert_eq!(answer("0,S,1,T,A,3,mtalimitexceeded"), 0);
        assert_eq!(answer("0,A,1,R,r,3,start"), 0);
        assert_eq!(answer("0,A,1,SCHED,S,0,schedulepoint"), 0);
    }

    #[test]
    fn schedule_and_semaphore_states_speak_of_themselves() {
        assert_eq!(answer("0,S,0,SCHED,S,0,schedule"), 0);
        assert_eq!(answer("0,X,0,SCHED,S,0,schedule"), 7);
        assert_eq!(answer("0,S,1,SCHED,S,0,schedule"), 7);
        for event in ["free", "unlock", "lock", "lock_used", "full", "overfull", "unlock_full", "used"] {
            assert_eq!(answer(&format!("0,A,0,SEM,A,0,{event},1")), 0);
            assert_eq!(answer(&format!("0,B,0,SEM,A,0,{event},1")), 7);
            assert_eq!(answer(&format!("0,A,1,SEM,A,0,{event},1")), 7);
            assert_eq!(answer(&format!("0,A,0,SEM,A,1,{event},1")), 7);
        }
        for event in ["requestsemaphore", "queued", "assigned", "waiting", "released", "increment", "decrement"] {
            assert_eq!(answer(&format!("0,B,5,SEM,A,0,{event},1")), 0);
            assert_eq!(answer(&format!("0,B,5,SEM,A,1,{event},1")), 7);
        }
    }

    #[test]
    fn target_instance_0() {
        for (kind, event) in [
            ("SCHED", "schedulepoint"),
            ("EVENT", "wait_event"),
            ("EVENT", "clear_event"),
            ("SIG", "read"),
            ("SIG", "write"),
        ] {
            assert_eq!(answer(&format!("0,A,4,{kind},X,0,{event}")), 0);
            assert_eq!(answer(&format!("0,A,4,{kind},X,1,{event}")), 7);
        }
        assert_eq!(answer("0,A,1,STI,A,2,trigger"), 0);
    }

    #[test]
    fn notes_are_there_where_they_must_be_and_nowhere_else() {
        assert_eq!(answer("0,A,0,EVENT,E,0,set_event"), 7);
        assert_eq!(answer("0,A,0,EVENT,E,0,set_event,Task"), 0);
        assert_eq!(answer("0,A,0,EVENT,E,0,wait_event,Task"), 7);
        assert_eq!(answer("0,A,0,EVENT,E,0,clear_event,Task"), 7);
        assert_eq!(answer("0,A,0,SIG,S,0,read"), 0);
        assert_eq!(answer("0,A,0,SIG,S,0,read,12.3"), 0);
        assert_eq!(answer("0,A,0,STI,S,0,trigger,1"), 7);
        assert_eq!(answer("0,A,0,R,S,0,start,1"), 7);
        assert_eq!(answer("0,A,0,SCHED,S,0,schedulepoint,1"), 7);
    }
}
