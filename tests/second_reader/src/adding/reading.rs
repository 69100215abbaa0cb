//! A printed sheet, read from its bytes: "Exactly the bytes that the program
//! could print".

use super::figures::read_figure;
use super::soundness::fault_of;
use crate::forms::read_name;
use crate::parameters::read_scale;
use crate::sheet::{CoreCharge, ProcessCharge, Sheet, Ticks};

/// "A sheet is the whole print of an accepted trace".
#[derive(Clone, Debug, PartialEq, Eq)]
pub struct PrintedSheet {
    pub scale: &'static str,
    pub span: Ticks,
    /// The rows in the order of the text.
    pub sheet: Sheet,
}

impl PrintedSheet {
    pub fn core_names(&self) -> Vec<&str> {
        self.sheet.cores.iter().map(|core| core.name.as_str()).collect()
    }

    pub fn process_names(&self) -> Vec<&str> {
        self.sheet.processes.iter().map(|process| process.name.as_str()).collect()
    }

    /// As a sum is: both sections by name bytes.
    pub fn is_sorted(&self) -> bool {
        self.core_names().is_sorted() && self.process_names().is_sorted()
    }

    /// "span 0, no cores and no processes".
    pub fn is_empty(&self) -> bool {
        self.span == 0 && self.sheet.cores.is_empty() && self.sheet.processes.is_empty()
    }
}

/// Why a sheet is refused. All are 21; they are told apart for the tests alone.
#[derive(Clone, Copy, Debug, PartialEq, Eq)]
pub enum Fault {
    /// The bytes are none that the program could print, whatever the figures.
    Text,
    SpanTooLong,
    TooManyRows,
    NameTwice,
    /// Of a core: they don't make the span.
    CoreFigures,
    /// They don't make all held ticks.
    Charges,
}

pub fn read_sheet(text: &[u8]) -> Result<PrintedSheet, Fault> {
    let printed = read_text(text).ok_or(Fault::Text)?;
    match fault_of(&printed) {
        Some(fault) => Err(fault),
        None => Ok(printed),
    }
}

/// "the counts are those of the lines that follow; nothing after."
fn read_text(text: &[u8]) -> Option<PrintedSheet> {
    let lines = &mut Lines { rest: text };
    let (scale, span) = read_verdict_line(&lines.next()?)?;
    let cores = read_section(lines, b"cores", read_core)?;
    let processes = read_section(lines, b"processes", read_process)?;
    let sheet = Sheet { cores, processes };
    lines.rest.is_empty().then_some(PrintedSheet { scale, span, sheet })
}

/// The part of the text that is still to be read.
struct Lines<'a> {
    rest: &'a [u8],
}

impl<'a> Lines<'a> {
    /// The next line, cut at every blank: two blanks have an empty part between
    /// them, and no name or number is empty, so that only "single blanks" are
    /// taken. "every line ends with byte 10, the last too": bytes without such
    /// an end are no line.
    fn next(&mut self) -> Option<Vec<&'a [u8]>> {
        let end = self.rest.iter().position(|&byte| byte == b'\n')?;
        let line = &self.rest[..end];
        self.rest = &self.rest[end + 1..];
        Some(line.split(|&byte| byte == b' ').collect())
    }
}

/// "`verdict 0 line 0 scale X span N`".
fn read_verdict_line(line: &[&[u8]]) -> Option<(&'static str, Ticks)> {
    match line {
        [b"verdict", b"0", b"line", b"0", b"scale", scale, b"span", span] => {
            Some((read_scale(scale)?, read_figure(span)?))
        }
        _ => None,
    }
}

/// The line with the count, and then so many rows.
fn read_section<Row>(lines: &mut Lines, title: &[u8], read_row: fn(&[&[u8]]) -> Option<Row>) -> Option<Vec<Row>> {
    let count = match lines.next()?.as_slice() {
        [word, count] if *word == title => read_figure(count)?,
        _ => return None,
    };
    // A count above what there is ends at the end of the text.
    (0..count).map(|_| read_row(&lines.next()?)).collect()
}

/// "a core line gives held, idle, unknown".
fn read_core(line: &[&[u8]]) -> Option<CoreCharge> {
    let [name, held, idle, unknown] = line else { return None };
    Some(CoreCharge {
        name: read_name(name)?,
        held: read_figure(held)?,
        idle: read_figure(idle)?,
        unknown: read_figure(unknown)?,
    })
}

fn read_process(line: &[&[u8]]) -> Option<ProcessCharge> {
    let [name, charge] = line else { return None };
    Some(ProcessCharge { name: read_name(name)?, charge: read_figure(charge)? })
}
