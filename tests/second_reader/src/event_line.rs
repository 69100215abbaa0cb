//! Reading one event line from its bytes alone: answers 5, 6 and 7.

use crate::field_rules;
use crate::forms::{is_signal_value, read_name, read_number, read_small_number, LATEST_TIME};
use crate::words::{read_type_and_event, TargetType};

/// A number of document 01's table of numbered answers, 1 to 14 here.
pub type Refusal = u8;

/// "seven fields or eight, separated by commas: time, source, source instance,
/// type, target, target instance, event, note."
#[derive(Clone, Debug, PartialEq, Eq)]
pub struct EventLine {
    pub time: u64,
    pub source: String,
    pub source_instance: u32,
    pub target_type: TargetType,
    pub target: String,
    pub target_instance: u32,
    pub event: &'static str,
    pub note: Option<String>,
}

/// The fields whose form doesn't depend on type and event.
struct PlainFields {
    time: u64,
    source: String,
    source_instance: u32,
    target: String,
    target_instance: u32,
    note: Option<String>,
}

/// "The lowest number that applies wins": so forms, then words, then rules.
pub fn read_event_line(line: &[u8]) -> Result<EventLine, Refusal> {
    let fields: Vec<&[u8]> = line.split(|&byte| byte == b',').collect();
    let plain = read_plain_fields(&fields).ok_or(5)?;
    let (target_type, event) = read_type_and_event(fields[3], fields[6]).ok_or(6)?;
    let line = EventLine {
        time: plain.time,
        source: plain.source,
        source_instance: plain.source_instance,
        target_type,
        target: plain.target,
        target_instance: plain.target_instance,
        event,
        note: plain.note,
    };
    if closer_note_form_is_wrong(&line) {
        return Err(5);
    }
    if field_rules::is_broken(&line) {
        return Err(7);
    }
    Ok(line)
}

/// Answer 5: "field count, number, name or note form wrong or out of size".
/// Fields 4 and 7 are left to answer 6.
fn read_plain_fields(fields: &[&[u8]]) -> Option<PlainFields> {
    if fields.len() != 7 && fields.len() != 8 {
        return None;
    }
    Some(PlainFields {
        time: read_number(fields[0], LATEST_TIME)?,
        source: read_name(fields[1])?,
        source_instance: read_small_number(fields[2])?,
        target: read_name(fields[4])?,
        target_instance: read_small_number(fields[5])?,
        note: read_note(fields.get(7).copied())?,
    })
}

/// "Any eighth field needs a name's bytes and length, else 5". The outer
/// `Option` is missing for a wrong form, the inner one for an absent note.
fn read_note(field: Option<&[u8]>) -> Option<Option<String>> {
    match field {
        None => Some(None),
        Some(bytes) => read_name(bytes).map(Some),
    }
}

/// "a closer form is tested only where type and event are known": a count for
/// SEM, a value for SIG. The name that `set_event` asks for has been tested.
fn closer_note_form_is_wrong(line: &EventLine) -> bool {
    let Some(note) = &line.note else { return false };
    match line.target_type {
        TargetType::Semaphore => read_small_number(note.as_bytes()).is_none(),
        TargetType::Signal => !is_signal_value(note),
        _ => false,
    }
}

/// The count that the note of a SEM line bears; nothing for other lines.
pub fn count_of(line: &EventLine) -> Option<u32> {
    let note = line.note.as_ref()?;
    (line.target_type == TargetType::Semaphore)
        .then(|| read_small_number(note.as_bytes()))
        .flatten()
}

#[cfg(test)]
mod tests {
    use super::*;

    #[test]
    fn the_example_line_is_read() {
        let line = read_event_line(b"100,Core_1,0,T,Task_A,0,start").expect("document 01 takes it");
        assert_eq!(line.time, 100);
        assert_eq!(line.source, "Core_1");
        assert_eq!(line.target, "Task_A");
        assert_eq!((line.source_instance, line.target_instance), (0, 0));
        assert_eq!((line.target_type, line.event), (TargetType::Task, "start"));
        assert_eq!(line.note, None);
    }

    #[test]
    fn the_field_count_comes_before_the_words() {
        assert_eq!(read_event_line(b""), Err(5));
        assert_eq!(read_event_line(b"0,S,0,X,A,0"), Err(5));
        assert_eq!(read_event_line(b"0,S,0,X,A,0,y,z,"), Err(5));
        assert_eq!(read_event_line(b"0,S,0,X,A,0,y"), Err(6));
    }
}
