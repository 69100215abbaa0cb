//! Cutting a trace into lines, and refusal 1: the one that a line earns by its
//! size, its place or its bytes 10 and 13, before any of its text is read.

/// Table of sizes: "line without its end | 1,023 bytes".
pub const LONGEST_LINE: usize = 1_023;

/// Table of sizes: "lines | 1,000,000,000".
pub const MOST_LINES: u64 = 1_000_000_000;

const LINE_FEED: u8 = 10;
const CARRIAGE_RETURN: u8 = 13;

/// "A line ends at byte 10; one byte 13 before it belongs to the end. The last
/// line may lack its end; nothing after a final end isn't a line."
pub fn cut_into_lines(trace: &[u8]) -> Vec<&[u8]> {
    let mut lines = Vec::new();
    let mut rest = trace;
    while !rest.is_empty() {
        match rest.iter().position(|&byte| byte == LINE_FEED) {
            Some(end) => {
                lines.push(without_one_carriage_return(&rest[..end]));
                rest = &rest[end + 1..];
            }
            // Without a byte 10 there is no end, so a byte 13 here stays inside.
            None => {
                lines.push(rest);
                rest = &[];
            }
        }
    }
    lines
}

/// "one byte 13 before it belongs to the end": one, so a second one stays.
fn without_one_carriage_return(line: &[u8]) -> &[u8] {
    line.strip_suffix(&[CARRIAGE_RETURN]).unwrap_or(line)
}

/// Answer 1: "line too long, byte 10 or 13 inside, or line past the
/// 1,000,000,000th".
pub fn line_itself_is_refused(line: &[u8], line_number: u64) -> bool {
    is_too_long(line) || has_a_line_end_inside(line) || line_number > MOST_LINES
}

fn is_too_long(line: &[u8]) -> bool {
    line.len() > LONGEST_LINE
}

/// "A byte 10 or 13 left inside a line is refusal 1."
fn has_a_line_end_inside(line: &[u8]) -> bool {
    line.contains(&LINE_FEED) || line.contains(&CARRIAGE_RETURN)
}

#[cfg(test)]
mod tests {
    use super::*;

    #[test]
    fn a_final_end_opens_no_further_line() {
        assert_eq!(cut_into_lines(b"a\nb\n"), [b"a", b"b"]);
        assert_eq!(cut_into_lines(b"a\nb"), [b"a", b"b"]);
        assert!(cut_into_lines(b"").is_empty());
    }

    #[test]
    fn empty_lines_are_lines() {
        assert_eq!(cut_into_lines(b"\n\r\n"), [b"", b""]);
    }

    #[test]
    fn only_one_carriage_return_belongs_to_the_end() {
        assert_eq!(cut_into_lines(b"a\r\r\n"), [b"a\r"]);
        assert_eq!(cut_into_lines(b"a\r"), [b"a\r"]);
    }

    #[test]
    fn the_line_past_the_last_allowed_one_is_refused() {
        assert!(!line_itself_is_refused(b"# x", 1_000_000_000));
        assert!(line_itself_is_refused(b"# x", 1_000_000_001));
    }
}
