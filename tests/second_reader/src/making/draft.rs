//! A trace while it is being made: lines without their ends.

use super::random::Random;

/// The fields of an event line, as bytes, so that they can be damaged.
#[derive(Clone)]
pub struct EventText {
    pub fields: Vec<Vec<u8>>,
}

impl EventText {
    /// `source` and `target` are a name with its instance; `what` is type and
    /// event.
    pub fn new(time: u64, source: (&str, u32), what: (&str, &str), target: (&str, u32)) -> EventText {
        let texts = [
            time.to_string(),
            source.0.to_string(),
            source.1.to_string(),
            what.0.to_string(),
            target.0.to_string(),
            target.1.to_string(),
            what.1.to_string(),
        ];
        EventText { fields: texts.into_iter().map(String::into_bytes).collect() }
    }

    pub fn with_note(mut self, note: &str) -> EventText {
        self.fields.push(note.as_bytes().to_vec());
        self
    }

    /// Replaces a field, counted from 1 as the documents do; 8 may add one.
    pub fn set(&mut self, field: usize, bytes: &[u8]) {
        self.fields.truncate(if field == 8 { 7 } else { 8 });
        if field == 8 {
            self.fields.push(bytes.to_vec());
        } else {
            self.fields[field - 1] = bytes.to_vec();
        }
    }

    pub fn line(&self) -> Vec<u8> {
        self.fields.join(&b',')
    }
}

pub struct Draft {
    pub lines: Vec<Vec<u8>>,
}

impl Draft {
    /// The place of the first event line, or of the end.
    pub fn first_event(&self) -> usize {
        self.lines
            .iter()
            .position(|line| line.first() != Some(&b'#'))
            .unwrap_or(self.lines.len())
    }

    /// Gives the lines their ends: all alike or mixed, the last one perhaps
    /// none. An empty last line keeps its end, since it would vanish without.
    pub fn finish(&self, random: &mut Random) -> Vec<u8> {
        let carriage_returns = random.pick(&[&0, &0, &100, &50]);
        let cut = random.chance(20);
        let mut bytes = Vec::new();
        for (index, line) in self.lines.iter().enumerate() {
            bytes.extend_from_slice(line);
            if cut && index + 1 == self.lines.len() && !line.is_empty() {
                break;
            }
            if random.chance(*carriage_returns) {
                bytes.push(b'\r');
            }
            bytes.push(b'\n');
        }
        bytes
    }
}
