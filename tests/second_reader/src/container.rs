//! Many traces in one file. README.md describes the form.
//!
//! Each trace is `trace LABEL LENGTH` and byte 10, then LENGTH bytes, then
//! byte 10. The length makes it possible to hold any bytes, and a trace whose
//! last line lacks its end.

use crate::printing::run_on;

pub struct LabelledTrace {
    /// One word, without blanks.
    pub label: String,
    pub bytes: Vec<u8>,
}

pub fn write_container(traces: &[LabelledTrace]) -> Vec<u8> {
    let mut container = Vec::new();
    for trace in traces {
        let header = format!("trace {} {}\n", trace.label, trace.bytes.len());
        container.extend_from_slice(header.as_bytes());
        container.extend_from_slice(&trace.bytes);
        container.push(b'\n');
    }
    container
}

/// The traces in order, or what is wrong with the container.
pub fn read_container(container: &[u8]) -> Result<Vec<LabelledTrace>, String> {
    let mut traces = Vec::new();
    let mut rest = container;
    while !rest.is_empty() {
        let (trace, after) = read_one(rest)
            .ok_or_else(|| format!("trace {} of the container is malformed", traces.len() + 1))?;
        traces.push(trace);
        rest = after;
    }
    Ok(traces)
}

/// For each trace the line `trace LABEL` and then what the program prints.
pub fn answers_text(traces: &[LabelledTrace]) -> String {
    let mut text = String::new();
    for trace in traces {
        text += &format!("trace {}\n", trace.label);
        text += &run_on(&trace.bytes).printed;
    }
    text
}

fn read_one(container: &[u8]) -> Option<(LabelledTrace, &[u8])> {
    let end = container.iter().position(|&byte| byte == b'\n')?;
    let header = std::str::from_utf8(&container[..end]).ok()?;
    let (label, length) = header.strip_prefix("trace ")?.split_once(' ')?;
    let length: usize = length.parse().ok()?;
    let body = &container[end + 1..];
    if body.len() <= length || body[length] != b'\n' {
        return None;
    }
    let trace = LabelledTrace { label: label.to_string(), bytes: body[..length].to_vec() };
    Some((trace, &body[length + 1..]))
}

#[cfg(test)]
mod tests {
    use super::*;

    #[test]
    fn what_is_written_is_read_back() {
        let bodies: [&[u8]; 4] = [b"", b"\n", b"a\r\nb", b"trace x 3\n\xff\0"];
        let traces: Vec<LabelledTrace> = bodies
            .iter()
            .enumerate()
            .map(|(index, body)| LabelledTrace { label: format!("t{index}"), bytes: body.to_vec() })
            .collect();
        let back = read_container(&write_container(&traces)).expect("well formed");
        assert_eq!(back.len(), traces.len());
        for (one, other) in back.iter().zip(&traces) {
            assert_eq!((&one.label, &one.bytes), (&other.label, &other.bytes));
        }
    }

    #[test]
    fn a_cut_container_is_told() {
        assert!(read_container(b"trace a 5\nabcde").is_err());
        assert!(read_container(b"trace a 5\nabcdef\n").is_err());
        assert!(read_container(b"trace a\n").is_err());
    }
}
