//! The judge: takes the lines of chunk after chunk until one is refused.

use super::bytes::Part;
use super::chunk::{Chunk, MOST_KEPT};
use super::event_line::read;
use super::event_table::EventTable;
use super::fields::Fields;
use super::history::History;
use super::line::Line;
use super::parameters::{parameter, Parameter, VERSION_LINE};
use super::refusal::{Refusal, Refused};
use super::{sheet, Answer};

const MOST_LINE: usize = 1023;
const MOST_LINES: u64 = 1_000_000_000;

/// What the parameters have said so far.
#[derive(Default)]
struct Header {
    scale: Option<&'static str>,
    creator: bool,
    creation_date: bool,
}

pub struct Judge {
    table: EventTable,
    lines: u64,
    header: Header,
    history: History,
}

impl Judge {
    pub fn new() -> Judge {
        Judge { table: EventTable::new(), lines: 0, header: Header::default(), history: History::new() }
    }

    /// Takes the whole lines of a chunk and keeps the rest of it.
    pub fn take_lines(&mut self, chunk: &mut Chunk) -> Result<(), Refused> {
        let (lines, bytes) = chunk.lines();
        let mut start = 0;
        for line in lines {
            if let Err(why) = self.take_line(bytes, &line) {
                return Err(self.refused(why));
            }
            self.lines += 1;
            start = line.end + 1;
        }
        chunk.keep_from(start);
        if chunk.left() > MOST_KEPT {
            return Err(self.refused(Refusal::Line));
        }
        Ok(())
    }

    /// The answer at the end of the input, where so many bytes are left that
    /// make no line.
    pub fn finish(self, left: usize) -> Answer {
        let why = match self.header.scale {
            _ if left > 0 => Refusal::Line,
            _ if self.lines == 0 => Refusal::Version,
            None => Refusal::Scale,
            Some(scale) => return sheet::accepted(scale, self.history),
        };
        sheet::refused(&self.refused(why))
    }

    fn refused(&self, why: Refusal) -> Refused {
        Refused { why, line: self.lines + 1 }
    }

    #[inline(always)]
    fn take_line(&mut self, bytes: &[u8], line: &Line) -> Result<(), Refusal> {
        let with_return = line.end > line.from && bytes[line.end - 1] == b'\r';
        let part = Part::between(line.from, if with_return { line.end - 1 } else { line.end });
        if part.len > MOST_LINE || self.lines >= MOST_LINES {
            return Err(Refusal::Line);
        }
        if self.lines == 0 || bytes[line.from] == b'#' {
            return self.take_parameter(part.of(bytes));
        }
        // a taken event line holds no byte 13, so it is looked for in others only
        self.take_event_line(bytes, part, &line.commas).map_err(|why| {
            if part.of(bytes).contains(&b'\r') {
                Refusal::Line
            } else {
                why
            }
        })
    }

    #[cold]
    fn take_parameter(&mut self, line: &[u8]) -> Result<(), Refusal> {
        if line.contains(&b'\r') {
            return Err(Refusal::Line);
        }
        if self.lines == 0 && line != VERSION_LINE {
            return Err(Refusal::Version);
        }
        if self.lines > 0 {
            self.keep_parameter(parameter(line)?)?;
        }
        Ok(())
    }

    /// 3: a parameter that is repeated or late.
    fn keep_parameter(&mut self, parameter: Parameter) -> Result<(), Refusal> {
        let header = &mut self.header;
        let repeated = match parameter {
            Parameter::Comment => return Ok(()),
            Parameter::Scale(scale) => header.scale.replace(scale).is_some(),
            Parameter::Creator => std::mem::replace(&mut header.creator, true),
            Parameter::CreationDate => std::mem::replace(&mut header.creation_date, true),
        };
        if repeated || self.history.seen_event {
            Err(Refusal::Parameter)
        } else {
            Ok(())
        }
    }

    #[inline(always)]
    fn take_event_line(&mut self, bytes: &[u8], line: Part, commas: &[u32; 8]) -> Result<(), Refusal> {
        if self.header.scale.is_none() {
            return Err(Refusal::Scale);
        }
        let fields = Fields::cut(line, commas).ok_or(Refusal::Form)?;
        let event = read(bytes, &fields, &self.table, &self.history.names)?;
        self.history.take(bytes, &event)
    }
}

#[cfg(test)]
mod tests {
    use super::*;

    #[test]
    fn a_line_past_the_last_is_refused() {
        let mut judge = Judge::new();
        judge.lines = MOST_LINES - 1;
        let mut chunk = Chunk::new();
        assert!(chunk.fill(&mut &b"# last\n# one more\n"[..]).is_ok());
        let refused = Refused { why: Refusal::Line, line: MOST_LINES + 1 };
        assert_eq!(judge.take_lines(&mut chunk), Err(refused));
        assert_eq!(judge.lines, MOST_LINES);
    }
}
