//! The counts that a semaphore's lines bear.

use crate::charts::is_chart_event;
use crate::event_line::EventLine;
use crate::words::TargetType;

/// A semaphore's own state events are those of its chart.
pub fn is_state_event(line: &EventLine) -> bool {
    line.target_type == TargetType::Semaphore && is_chart_event(line.target_type, line.event)
}

/// "c is the note of the semaphore's last line. requestsemaphore, queued,
/// assigned, waiting, released and all state events bear c, increment c + 1,
/// decrement c − 1." Wider numbers keep c + 1 and c − 1 from wrapping round.
pub fn follows(event: &str, last_count: u32, count: u32) -> bool {
    let last = i64::from(last_count);
    let wanted = match event {
        "increment" => last + 1,
        "decrement" => last - 1,
        _ => last,
    };
    i64::from(count) == wanted
}

/// "Always: increment at least 1; free and unlock 0; lock 1; used,
/// unlock_full, lock_used and full at least 1; overfull at least 2."
pub fn fixed_count_is_right(event: &str, count: u32) -> bool {
    match event {
        "increment" => count >= 1,
        "free" | "unlock" => count == 0,
        "lock" => count == 1,
        "used" | "unlock_full" | "lock_used" | "full" => count >= 1,
        "overfull" => count >= 2,
        _ => true,
    }
}

#[cfg(test)]
mod tests {
    use super::*;

    #[test]
    fn counts_do_not_wrap_round() {
        assert!(!follows("increment", u32::MAX, 0));
        assert!(!follows("decrement", 0, u32::MAX));
        assert!(follows("increment", u32::MAX - 1, u32::MAX));
        assert!(follows("decrement", 1, 0));
        assert!(follows("queued", 7, 7));
        assert!(!follows("lock", 7, 8));
    }

    #[test]
    fn fixed_counts() {
        let smallest_and_largest = |event: &str| {
            let right: Vec<u32> = [0, 1, 2, 3, u32::MAX]
                .into_iter()
                .filter(|&count| fixed_count_is_right(event, count))
                .collect();
            (right[0], right[right.len() - 1])
        };
        assert_eq!(smallest_and_largest("free"), (0, 0));
        assert_eq!(smallest_and_largest("unlock"), (0, 0));
        assert_eq!(smallest_and_largest("lock"), (1, 1));
        for event in ["used", "unlock_full", "lock_used", "full", "increment"] {
            assert_eq!(smallest_and_largest(event), (1, u32::MAX));
        }
        assert_eq!(smallest_and_largest("overfull"), (2, u32::MAX));
        assert_eq!(smallest_and_largest("decrement"), (0, u32::MAX));
        assert_eq!(smallest_and_largest("waiting"), (0, u32::MAX));
    }
}
