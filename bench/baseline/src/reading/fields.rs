//! An event line cut into its fields.

use super::bytes::Part;

pub struct Fields {
    pub time: Part,
    pub source: Part,
    pub source_instance: Part,
    pub of: Part,
    pub target: Part,
    pub target_instance: Part,
    pub event: Part,
    pub note: Option<Part>,
}

impl Fields {
    /// Cuts a line at the next commas of the chunk, if it has seven fields or
    /// eight.
    #[inline(always)]
    pub fn cut(line: Part, commas: &[u32; 8]) -> Option<Fields> {
        let end = line.from + line.len;
        let comma = |count: usize| commas[count] as usize;
        if comma(5) >= end || comma(7) < end {
            return None;
        }
        let has_note = comma(6) < end;
        Some(Fields {
            time: Part::between(line.from, comma(0)),
            source: Part::between(comma(0) + 1, comma(1)),
            source_instance: Part::between(comma(1) + 1, comma(2)),
            of: Part::between(comma(2) + 1, comma(3)),
            target: Part::between(comma(3) + 1, comma(4)),
            target_instance: Part::between(comma(4) + 1, comma(5)),
            event: Part::between(comma(5) + 1, if has_note { comma(6) } else { end }),
            note: has_note.then(|| Part::between(comma(6) + 1, end)),
        })
    }
}
