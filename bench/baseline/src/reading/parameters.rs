//! Comments and parameters: the lines that start with `#`, except the first.

use super::refusal::Refusal;

pub const VERSION_LINE: &[u8] = b"#version 2.2.0";

#[derive(Clone, Copy, Debug, PartialEq, Eq)]
pub enum Parameter {
    Comment,
    Scale(&'static str),
    Creator,
    CreationDate,
}

/// What such a line is, from its text alone.
pub fn parameter(line: &[u8]) -> Result<Parameter, Refusal> {
    let (word, value) = split(line);
    match (word, value) {
        (b"#", Some(_)) => Ok(Parameter::Comment),
        (b"#version", _) => Err(Refusal::Version),
        (b"#timeScale" | b"#timescale", Some(value)) => scale(value),
        (b"#creator", Some(value)) if !value.is_empty() => Ok(Parameter::Creator),
        (b"#creationDate", Some(value)) if is_date(value) => Ok(Parameter::CreationDate),
        _ => Err(Refusal::Parameter),
    }
}

/// The part before the first blank, and the part behind it.
fn split(line: &[u8]) -> (&[u8], Option<&[u8]>) {
    match line.iter().position(|&byte| byte == b' ') {
        Some(at) => (&line[..at], Some(&line[at + 1..])),
        None => (line, None),
    }
}

fn scale(value: &[u8]) -> Result<Parameter, Refusal> {
    ["ps", "ns", "us", "ms", "s"]
        .into_iter()
        .find(|known| known.as_bytes() == value)
        .map(Parameter::Scale)
        .ok_or(Refusal::Parameter)
}

/// `YYYY-MM-DDTHH:MM:SSZ`, a real Gregorian date.
fn is_date(text: &[u8]) -> bool {
    const FORM: &[u8] = b"dddd-dd-ddTdd:dd:ddZ";
    let fits = |(&byte, &form): (&u8, &u8)| if form == b'd' { byte.is_ascii_digit() } else { byte == form };
    if text.len() != FORM.len() || !text.iter().zip(FORM).all(fits) {
        return false;
    }
    let number =
        |from: usize, to: usize| text[from..to].iter().fold(0, |sum, &digit| sum * 10 + u32::from(digit - b'0'));
    let (year, month, day) = (number(0, 4), number(5, 7), number(8, 10));
    (1..=12).contains(&month)
        && (1..=days_in(year, month)).contains(&day)
        && number(11, 13) <= 23
        && number(14, 16) <= 59
        && number(17, 19) <= 59
}

fn days_in(year: u32, month: u32) -> u32 {
    let leap = year.is_multiple_of(4) && (!year.is_multiple_of(100) || year.is_multiple_of(400));
    match month {
        2 if leap => 29,
        2 => 28,
        4 | 6 | 9 | 11 => 30,
        _ => 31,
    }
}

#[cfg(test)]
mod tests {
    use super::*;

    #[test]
    fn lines_are_what_document_01_says() {
        use Parameter::*;
        for (line, wanted) in [
            ("# ", Ok(Comment)),
            ("# any, thing", Ok(Comment)),
            ("#", Err(Refusal::Parameter)),
            ("#version", Err(Refusal::Version)),
            ("#version 2.2.0", Err(Refusal::Version)),
            ("#versionx", Err(Refusal::Parameter)),
            ("#version\t", Err(Refusal::Parameter)),
            ("#timeScale ns", Ok(Scale("ns"))),
            ("#timescale s", Ok(Scale("s"))),
            ("#timeScale ns ", Err(Refusal::Parameter)),
            ("#timeScale", Err(Refusal::Parameter)),
            ("#creator  ", Ok(Creator)),
            ("#creator ", Err(Refusal::Parameter)),
            ("#creationDate 0000-02-29T00:00:00Z", Ok(CreationDate)),
            ("#creationDate 1900-02-29T00:00:00Z", Err(Refusal::Parameter)),
            ("#creationDate 2012-08-31T15:53:00", Err(Refusal::Parameter)),
            ("#creationDate 2012-08-31T24:53:00Z", Err(Refusal::Parameter)),
        ] {
            assert_eq!(parameter(line.as_bytes()), wanted, "{line}");
        }
    }
}
