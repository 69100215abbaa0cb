//! The lines that start with `#`: the version line, comments and parameters.

use crate::dates::is_creation_date;

/// What a well formed parameter says. The texts of creator and date are
/// checked but used nowhere, so they are not kept.
#[derive(Clone, Copy, Debug, PartialEq, Eq)]
pub enum Parameter {
    TimeScale(&'static str),
    Creator,
    CreationDate,
}

const SCALES: [&str; 5] = ["ps", "ns", "us", "ms", "s"];

/// "Every other line, the empty one too, is an event line".
pub fn starts_with_hash(line: &[u8]) -> bool {
    line.first() == Some(&b'#')
}

/// "First line: exactly `#version 2.2.0`".
pub fn is_the_version_line(line: &[u8]) -> bool {
    line == b"#version 2.2.0"
}

/// Answer 2: "a later line is `#version` or begins with it and a blank".
pub fn speaks_of_the_version(line: &[u8]) -> bool {
    line == b"#version" || line.starts_with(b"#version ")
}

/// "Comment: `# ` and anything."
pub fn is_comment(line: &[u8]) -> bool {
    line.starts_with(b"# ")
}

/// "Any other line starting with `#` is refusal 3": no parameter is found.
pub fn read_parameter(line: &[u8]) -> Option<Parameter> {
    read_time_scale(line)
        .or_else(|| read_creator(line))
        .or_else(|| read_creation_date(line))
}

/// "`#timeScale X` or `#timescale X` (000 spells both), X one of ps, ns, us,
/// ms, s."
fn read_time_scale(line: &[u8]) -> Option<Parameter> {
    let scale = line
        .strip_prefix(b"#timeScale ")
        .or_else(|| line.strip_prefix(b"#timescale "))?;
    read_scale(scale).map(Parameter::TimeScale)
}

/// "X one of ps, ns, us, ms, s."
pub fn read_scale(word: &[u8]) -> Option<&'static str> {
    SCALES.into_iter().find(|known| known.as_bytes() == word)
}

/// "`#creator X`, X not empty".
fn read_creator(line: &[u8]) -> Option<Parameter> {
    let creator = line.strip_prefix(b"#creator ")?;
    (!creator.is_empty()).then_some(Parameter::Creator)
}

/// "`#creationDate YYYY-MM-DDTHH:MM:SSZ`, a real Gregorian date".
fn read_creation_date(line: &[u8]) -> Option<Parameter> {
    let date = line.strip_prefix(b"#creationDate ")?;
    is_creation_date(date).then_some(Parameter::CreationDate)
}

#[cfg(test)]
mod tests {
    use super::*;

    #[test]
    fn both_spellings_of_the_scale_and_all_five_values() {
        for scale in SCALES {
            for word in ["timeScale", "timescale"] {
                let line = format!("#{word} {scale}");
                assert_eq!(read_parameter(line.as_bytes()), Some(Parameter::TimeScale(scale)));
            }
        }
    }

    #[test]
    fn a_scale_of_other_text_is_no_parameter() {
        for line in ["#timeScale", "#timeScale ", "#timeScale NS", "#timeScale ns ", "#TimeScale ns", "#timeScale  ns", "#timeScale m"] {
            assert_eq!(read_parameter(line.as_bytes()), None, "{line}");
        }
    }

    #[test]
    fn mappings_are_not_covered() {
        for line in ["#entityMapping 0 A", "#typeMapping 0 T", "#entityTypeMapping T A", "#", "##", "#x"] {
            assert_eq!(read_parameter(line.as_bytes()), None, "{line}");
        }
    }
}
