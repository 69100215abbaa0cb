//! A line of a chunk.

/// A chunk is filled up to whole blocks of so many bytes when it is searched.
pub const BLOCK: usize = 64;

/// A place behind every chunk.
pub const NOWHERE: u32 = u32::MAX;

pub struct Line {
    pub from: usize,
    /// Where its byte 10 stands.
    pub end: usize,
    /// Its first eight commas. Where it has fewer, places behind its end follow.
    pub commas: [u32; 8],
}

#[cfg(test)]
mod tests {
    use super::super::looking::LineFinder;
    use super::*;

    /// The lines that are found, each as its bytes and its commas.
    fn found(finder: &mut LineFinder, text: &[u8]) -> Vec<(Vec<u8>, Vec<usize>)> {
        let as_found = |line: Line| {
            let commas = line.commas.map(|comma| comma as usize);
            let own = commas.into_iter().take_while(|&comma| comma < line.end).map(|comma| comma - line.from).collect();
            assert!(commas.is_sorted() && commas[0] >= line.from);
            (text[line.from..line.end].to_vec(), own)
        };
        finder.lines(text).map(as_found).collect()
    }

    /// What is to be found.
    fn wanted(text: &[u8]) -> Vec<(Vec<u8>, Vec<usize>)> {
        let mut lines: Vec<&[u8]> = text.split(|&byte| byte == b'\n').collect();
        // behind the last end there is no line
        lines.pop();
        let commas = |line: &[u8]| (0..line.len()).filter(|&at| line[at] == b',').take(8).collect();
        lines.into_iter().map(|line| (line.to_vec(), commas(line))).collect()
    }

    #[test]
    fn lines_are_found_wherever_they_end() {
        let mut finder = LineFinder::for_chunks_of(256);
        let mut text = [0u8; 256];
        let mut state = 7u32;
        for _ in 0..2000 {
            for byte in &mut text {
                state = state.wrapping_mul(1_664_525).wrapping_add(1_013_904_223);
                *byte = b",\n,+\xac\x8ax-"[(state >> 29) as usize];
            }
            assert_eq!(found(&mut finder, &text), wanted(&text));
        }
    }

    #[test]
    fn a_chunk_full_of_separators_fits() {
        let mut finder = LineFinder::for_chunks_of(128);
        assert_eq!(finder.lines(&[b','; 128]).count(), 0);
        assert_eq!(finder.lines(&[b'\n'; 128]).count(), 128);
        let mut text = [b','; 128];
        text[126..].copy_from_slice(b"x\n");
        assert_eq!(found(&mut finder, &text), wanted(&text));
    }
}
