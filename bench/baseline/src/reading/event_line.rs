//! An event line read: the refusals 5 to 7.

use super::bytes::{is_name, Part};
use super::event_rules::{CoreUse, Note, Rule};
use super::event_table::EventTable;
use super::fields::Fields;
use super::names::Names;
use super::numbers::{number, MOST_INSTANCE, MOST_TIME};
use super::refusal::Refusal;

/// A line that was read. Tracked names are looked up on the way, since they are
/// known to have a name's form.
pub struct Event<'table> {
    pub rule: &'table Rule,
    pub time: u64,
    pub source: Part,
    pub target: Part,
    pub instance: u64,
    /// A semaphore's count.
    pub count: u64,
    /// The number of the source's name, where the source is a core.
    pub core_name: Option<usize>,
    pub target_name: Option<usize>,
}

impl Event<'_> {
    #[inline(always)]
    pub fn uses_core(&self) -> bool {
        self.rule.core != CoreUse::None
    }
}

/// Reads the fields: 5 for their form, 6 for an unknown word and 7 for what has
/// to be there or must not.
#[inline(always)]
pub fn read<'table>(
    bytes: &[u8],
    fields: &Fields,
    table: &'table EventTable,
    names: &Names,
) -> Result<Event<'table>, Refusal> {
    let rule = table.find(bytes, fields.of, fields.event);
    let time = number(bytes, fields.time, MOST_TIME).ok_or(Refusal::Form)?;
    let source_instance = number(bytes, fields.source_instance, MOST_INSTANCE).ok_or(Refusal::Form)?;
    let instance = number(bytes, fields.target_instance, MOST_INSTANCE).ok_or(Refusal::Form)?;
    let by_core = rule.is_some_and(|rule| rule.core != CoreUse::None);
    let tracked = rule.is_some_and(|rule| rule.target.is_some());
    let core_name = look_up(bytes, fields.source, names, by_core)?;
    let target_name = look_up(bytes, fields.target, names, tracked)?;
    if fields.note.is_some_and(|note| !is_name(bytes, note)) {
        return Err(Refusal::Form);
    }
    let rule = rule.ok_or(Refusal::Word)?;
    let count = read_note(bytes, fields.note, rule.note)?;
    let broken = (rule.source_instance_is_0 && source_instance != 0)
        || (rule.target_instance_is_0 && instance != 0)
        || (rule.source_is_target && fields.source.of(bytes) != fields.target.of(bytes));
    if broken {
        return Err(Refusal::Presence);
    }
    Ok(Event { rule, time, source: fields.source, target: fields.target, instance, count, core_name, target_name })
}

/// The number of a name, if it is asked for and tracked; 5 if it is no name.
#[inline(always)]
fn look_up(bytes: &[u8], part: Part, names: &Names, asked: bool) -> Result<Option<usize>, Refusal> {
    let found = if asked { names.find(bytes, part) } else { None };
    if found.is_none() && !is_name(bytes, part) {
        return Err(Refusal::Form);
    }
    Ok(found)
}

/// The count of a semaphore's note; 0 for other notes and for none.
#[inline(always)]
fn read_note(bytes: &[u8], note: Option<Part>, wanted: Note) -> Result<u64, Refusal> {
    match (wanted, note) {
        (Note::Barred, None) | (Note::Value, None) | (Note::Name, Some(_)) => Ok(0),
        (Note::Count, Some(note)) => number(bytes, note, MOST_INSTANCE).ok_or(Refusal::Form),
        (Note::Value, Some(note)) if is_value(note.of(bytes)) => Ok(0),
        (Note::Value, Some(_)) => Err(Refusal::Form),
        (Note::Barred, Some(_)) | (Note::Count, None) | (Note::Name, None) => Err(Refusal::Presence),
    }
}

/// A signal's value: an optional minus, digits, and optionally a dot and digits.
#[inline(always)]
fn is_value(note: &[u8]) -> bool {
    match behind_digits(note.strip_prefix(b"-").unwrap_or(note)) {
        Some([]) => true,
        Some([b'.', decimals @ ..]) => behind_digits(decimals).is_some_and(|rest| rest.is_empty()),
        _ => false,
    }
}

/// What follows the digits, of which there is at least one.
#[inline(always)]
fn behind_digits(text: &[u8]) -> Option<&[u8]> {
    let count = text.iter().take_while(|byte| byte.is_ascii_digit()).count();
    (count > 0).then(|| &text[count..])
}

#[cfg(test)]
mod tests {
    use super::is_value;

    #[test]
    fn values_have_digits_on_both_sides_of_a_dot() {
        for good in ["0", "-0", "007", "-12.50", "1.0"] {
            assert!(is_value(good.as_bytes()), "{good}");
        }
        for bad in ["", "-", "1.", ".5", "1.2.3", "+1", "--1", "1-", "x"] {
            assert!(!is_value(bad.as_bytes()), "{bad}");
        }
    }
}
