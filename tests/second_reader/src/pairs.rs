//! Many pairs of sheets in one file. README.md describes the form.
//!
//! Each pair is `LENGTH LENGTH` and byte 10, then so many bytes of the first
//! sheet, then so many of the second. The lengths make it possible to hold any
//! bytes, and a sheet whose last line lacks its end.

use crate::adding::run_on_sheets;
use crate::printing::ACCEPTED;

/// The first sheet and the second.
pub type Pair = [Vec<u8>; 2];

pub fn write_pairs(pairs: &[Pair]) -> Vec<u8> {
    let mut container = Vec::new();
    for [first, second] in pairs {
        container.extend_from_slice(format!("{} {}\n", first.len(), second.len()).as_bytes());
        container.extend_from_slice(first);
        container.extend_from_slice(second);
    }
    container
}

/// The pairs in order, or what is wrong with the container.
pub fn read_pairs(container: &[u8]) -> Result<Vec<Pair>, String> {
    let mut pairs = Vec::new();
    let mut rest = container;
    while !rest.is_empty() {
        let (pair, after) =
            read_one(rest).ok_or_else(|| format!("pair {} of the container is malformed", pairs.len() + 1))?;
        pairs.push(pair);
        rest = after;
    }
    Ok(pairs)
}

/// For each pair what the program prints: the sum, or `refused N`. A sum is
/// asked for once more, with an output that is a byte too short: that is 15.
pub fn answers_to_pairs(pairs: &[Pair]) -> String {
    pairs.iter().map(answer_to_pair).collect()
}

fn answer_to_pair(pair: &Pair) -> String {
    let run = run_on_sheets(pair);
    if run.status == ACCEPTED {
        return run.printed + "refused 15\n";
    }
    run.printed
}

fn read_one(container: &[u8]) -> Option<(Pair, &[u8])> {
    let end = container.iter().position(|&byte| byte == b'\n')?;
    let header = std::str::from_utf8(&container[..end]).ok()?;
    let (first, second) = header.split_once(' ')?;
    let (first, rest) = container[end + 1..].split_at_checked(first.parse().ok()?)?;
    let (second, rest) = rest.split_at_checked(second.parse().ok()?)?;
    Some(([first.to_vec(), second.to_vec()], rest))
}

#[cfg(test)]
mod tests {
    use super::*;

    #[test]
    fn what_is_written_is_read_back() {
        let bodies: [&[u8]; 5] = [b"", b"\n", b"a\r\nb", b"1 2\n\xff\0", b""];
        let pairs: Vec<Pair> = bodies.windows(2).map(|two| [two[0].to_vec(), two[1].to_vec()]).collect();
        assert_eq!(read_pairs(&write_pairs(&pairs)), Ok(pairs));
    }

    #[test]
    fn the_form_of_a_container() {
        assert_eq!(write_pairs(&[[b"ab\n".to_vec(), b"c".to_vec()], [vec![], b"d".to_vec()]]), b"3 1\nab\nc0 1\nd");
    }

    #[test]
    fn a_cut_container_is_told() {
        for wrong in ["3 1\nab\n", "3\nabc", "3 1", "a b\n", "3 1\nab\nc\n"] {
            assert!(read_pairs(wrong.as_bytes()).is_err(), "{wrong:?}");
        }
    }
}
