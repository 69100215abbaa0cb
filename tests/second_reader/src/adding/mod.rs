//! Document 02, No. 2: "Read sheets as the program prints them, and add two".
//! The answer is the text of the sum or the number of the refusal.

pub mod at_once;
mod figures;
pub mod reading;
mod soundness;
pub mod summing;

use crate::event_line::Refusal;
use crate::printing::{accepted_text, Run, ACCEPTED, REFUSED};
use reading::{read_sheet, PrintedSheet};
use summing::{add, refusal_of};

/// "malformed, or a core's three figures not making the span, or charges not
/// making all held ticks".
pub const MALFORMED: Refusal = 21;

/// "21 of either sheet comes before 22 to 25."
pub fn add_two(first: &[u8], second: &[u8]) -> Result<String, Refusal> {
    let first = read_sheet(first).map_err(|_| MALFORMED)?;
    let second = read_sheet(second).map_err(|_| MALFORMED)?;
    if let Some(number) = refusal_of(&first, &second) {
        return Err(number);
    }
    Ok(text_of(&add(&[&first, &second])))
}

/// A sum is printed as an accepted trace is.
fn text_of(sum: &PrintedSheet) -> String {
    accepted_text(sum.scale, sum.span, &sum.sheet)
}

/// Two sheets or more, from the left: the text of each sum is read again and
/// the next sheet added to it. The first refusal ends it.
pub fn add_all(sheets: &[Vec<u8>]) -> Result<String, Refusal> {
    let (first, others) = sheets.split_first().expect("a sheet");
    let (second, others) = others.split_first().expect("a second sheet");
    let sum = add_two(first, second)?;
    others.iter().try_fold(sum, |sum, next| add_two(sum.as_bytes(), next))
}

/// What the program prints for these sheets, and its status.
pub fn run_on_sheets(sheets: &[Vec<u8>]) -> Run {
    run_of(add_all(sheets))
}

pub fn run_of(answer: Result<String, Refusal>) -> Run {
    match answer {
        Ok(printed) => Run { printed, status: ACCEPTED },
        Err(number) => Run { printed: format!("refused {number}\n"), status: REFUSED },
    }
}
