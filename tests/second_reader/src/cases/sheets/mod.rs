//! Document 02, No. 2 and No. 12: sheets to be added, with the answers that the
//! documents give. The expected text is written by hand, never copied from a run.

mod conflicts;
mod malformed;
pub mod orders;
mod series;
mod sums;

#[derive(Clone)]
pub struct SheetCase {
    pub label: String,
    pub sheets: Vec<Vec<u8>>,
    /// What the program must print.
    pub printed: String,
}

pub fn all_sheet_cases() -> Vec<SheetCase> {
    let mut cases = sums::cases();
    cases.extend(malformed::cases());
    cases.extend(conflicts::cases());
    cases.extend(series::cases());
    cases
}

/// The print of an accepted trace with these rows, in ns.
fn sheet(span: u64, cores: &[&str], processes: &[&str]) -> String {
    in_scale("ns", span, cores, processes)
}

fn in_scale(scale: &str, span: u64, cores: &[&str], processes: &[&str]) -> String {
    let mut text = format!("verdict 0 line 0 scale {scale} span {span}\n");
    for (title, rows) in [("cores", cores), ("processes", processes)] {
        text += &format!("{title} {}\n", rows.len());
        for row in rows {
            text += row;
            text.push('\n');
        }
    }
    text
}

/// Rows of numbered names from `first` to `last`, so that their order is that
/// of the numbers.
fn numbered(name: &str, first: usize, last: usize, figures: &str) -> Vec<String> {
    (first..=last).map(|number| format!("{name}{number:03} {figures}")).collect()
}

fn texts(rows: &[String]) -> Vec<&str> {
    rows.iter().map(String::as_str).collect()
}

fn sum(label: &str, first: &str, second: &str, printed: &str) -> SheetCase {
    let sheets = vec![first.as_bytes().to_vec(), second.as_bytes().to_vec()];
    SheetCase { label: label.to_string(), sheets, printed: printed.to_string() }
}

fn refused(label: &str, number: u8, first: &[u8], second: &[u8]) -> SheetCase {
    let sheets = vec![first.to_vec(), second.to_vec()];
    SheetCase { label: label.to_string(), sheets, printed: format!("refused {number}\n") }
}
