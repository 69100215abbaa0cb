//! The judge: fed line by line, it remembers the first refusal.

use crate::event_line::{read_event_line, Refusal};
use crate::history::History;
use crate::lines::{cut_into_lines, line_itself_is_refused};
use crate::parameters::{
    is_comment, is_the_version_line, read_parameter, speaks_of_the_version, starts_with_hash,
    Parameter,
};
use crate::refusals::lowest_refusal;
use crate::sheet::{sheet_of, span_of, Sheet};
use crate::ways::Ways;

/// The answer about a trace, if it ended now.
#[derive(Clone, Debug, PartialEq, Eq)]
pub enum Verdict {
    Accepted { scale: &'static str, span: u64, sheet: Sheet },
    Refused { number: Refusal, line: u64 },
}

#[derive(Default)]
pub struct Judge {
    lines_taken: u64,
    scale: Option<&'static str>,
    creator_seen: bool,
    creation_date_seen: bool,
    history: History,
    refused: Option<(Refusal, u64)>,
    /// For the comparison alone; no answer depends on it.
    pub ways: Ways,
}

/// Judges a whole trace from a fresh start.
pub fn judge_trace(trace: &[u8]) -> Verdict {
    judge_lines(trace).verdict_if_ended_now()
}

/// A judge that has been fed every line of the trace.
pub fn judge_lines(trace: &[u8]) -> Judge {
    let mut judge = Judge::default();
    for line in cut_into_lines(trace) {
        judge.take_line(line);
    }
    judge
}

impl Judge {
    /// "A refused line changes nothing but the remembered verdict: number and
    /// line, counted from 1. Further lines get that verdict again."
    pub fn take_line(&mut self, line: &[u8]) {
        if self.refused.is_some() {
            return;
        }
        let line_number = self.lines_taken + 1;
        match self.judge_line(line, line_number) {
            Ok(()) => self.lines_taken = line_number,
            Err(number) => self.refused = Some((number, line_number)),
        }
    }

    /// "The lowest number that applies wins": the tests stand in the order of
    /// their numbers.
    fn judge_line(&mut self, line: &[u8], line_number: u64) -> Result<(), Refusal> {
        if line_itself_is_refused(line, line_number) {
            return Err(1);
        }
        if line_number == 1 {
            return judge_first_line(line);
        }
        if starts_with_hash(line) {
            self.judge_hash_line(line)
        } else {
            self.judge_event_line(line)
        }
    }

    fn judge_hash_line(&mut self, line: &[u8]) -> Result<(), Refusal> {
        if speaks_of_the_version(line) {
            return Err(2);
        }
        if is_comment(line) {
            return Ok(());
        }
        // Answer 3: "other parameter unknown, malformed, repeated or late".
        let parameter = read_parameter(line).ok_or(3)?;
        if self.is_repeated(parameter) || self.is_late() {
            return Err(3);
        }
        self.remember(parameter);
        Ok(())
    }

    /// Time scale: "Exactly one"; creator and creation date: "At most one
    /// each".
    fn is_repeated(&self, parameter: Parameter) -> bool {
        match parameter {
            Parameter::TimeScale(_) => self.scale.is_some(),
            Parameter::Creator => self.creator_seen,
            Parameter::CreationDate => self.creation_date_seen,
        }
    }

    /// "before the first event", said of all three parameters.
    fn is_late(&self) -> bool {
        self.history.last_time().is_some()
    }

    fn remember(&mut self, parameter: Parameter) {
        match parameter {
            Parameter::TimeScale(scale) => self.scale = Some(scale),
            Parameter::Creator => self.creator_seen = true,
            Parameter::CreationDate => self.creation_date_seen = true,
        }
    }

    fn judge_event_line(&mut self, line: &[u8]) -> Result<(), Refusal> {
        // Answer 4: "event line without a time scale before it".
        if self.scale.is_none() {
            return Err(4);
        }
        let line = read_event_line(line)?;
        let refused = lowest_refusal(&self.history, &line);
        self.ways.note(&self.history, &line, refused);
        if let Some(number) = refused {
            return Err(number);
        }
        self.history.take(&line);
        Ok(())
    }

    /// "the verdict if the trace ended now, with scale and span, and the sheet
    /// of the lines taken."
    pub fn verdict_if_ended_now(&self) -> Verdict {
        if let Some((number, line)) = self.refused {
            return Verdict::Refused { number, line };
        }
        // "An empty trace is refusal 2 at line 1."
        if self.lines_taken == 0 {
            return Verdict::Refused { number: 2, line: 1 };
        }
        match self.scale {
            // "A trace of n taken lines that ends without a scale is refusal 4
            // at line n + 1."
            None => Verdict::Refused { number: 4, line: self.lines_taken + 1 },
            Some(scale) => Verdict::Accepted {
                scale,
                span: span_of(&self.history),
                sheet: sheet_of(&self.history),
            },
        }
    }
}

/// Answer 2: "first line isn't the version line".
fn judge_first_line(line: &[u8]) -> Result<(), Refusal> {
    if is_the_version_line(line) {
        Ok(())
    } else {
        Err(2)
    }
}

#[cfg(test)]
mod tests {
    use super::*;

    /// A trace of so many lines can't be made here, so the count is set.
    #[test]
    fn the_thousand_millionth_line_is_the_last() {
        let mut judge = Judge { lines_taken: 999_999_999, scale: Some("ns"), ..Judge::default() };
        judge.take_line(b"# the last one that may come");
        assert!(matches!(judge.verdict_if_ended_now(), Verdict::Accepted { .. }));
        judge.take_line(b"# one more");
        assert_eq!(
            judge.verdict_if_ended_now(),
            Verdict::Refused { number: 1, line: 1_000_000_001 }
        );
    }

    #[test]
    fn a_full_trace_without_a_scale_is_refused_after_its_end() {
        let judge = Judge { lines_taken: 1_000_000_000, ..Judge::default() };
        assert_eq!(
            judge.verdict_if_ended_now(),
            Verdict::Refused { number: 4, line: 1_000_000_001 }
        );
    }

    #[test]
    fn the_first_refusal_is_remembered() {
        let mut judge = Judge::default();
        for line in [&b"#version 2.2.0"[..], b"#x", b"\r", b"#timeScale ns"] {
            judge.take_line(line);
        }
        assert_eq!(judge.verdict_if_ended_now(), Verdict::Refused { number: 3, line: 2 });
    }

    #[test]
    fn the_verdict_can_be_asked_between_lines() {
        let mut judge = Judge::default();
        assert_eq!(judge.verdict_if_ended_now(), Verdict::Refused { number: 2, line: 1 });
        judge.take_line(b"#version 2.2.0");
        assert_eq!(judge.verdict_if_ended_now(), Verdict::Refused { number: 4, line: 2 });
        judge.take_line(b"#timescale ms");
        assert!(matches!(judge.verdict_if_ended_now(), Verdict::Accepted { scale: "ms", span: 0, .. }));
    }
}
