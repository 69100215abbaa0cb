//! Traces in which something delicate lies across a place where a reader of
//! chunks may cut: a line end, a long line, the end of input.

use super::random::Random;
use super::Made;

/// Chunks are at most 64 KiB; smaller powers of two are likely sizes too.
const PLACES: [&usize; 7] = [&1024, &4096, &8192, &16_384, &32_768, &65_536, &131_072];

const PRELUDE: &[u8] = b"#version 2.2.0\n#timeScale ns\n0,Core,0,T,A,0,start\n";
const NEXT: &[u8] = b"40,Core,0,T,A,0,preempt";
const AFTER: &[u8] = b"100,Core,0,T,A,0,resume\n250,Core,0,T,A,0,poll\n";

pub fn make(random: &mut Random) -> Made {
    let place = *random.pick(&PLACES);
    let delicate = random.below(8);
    let length = delicate_length(delicate);
    // The delicate part begins so that the place falls inside or beside it.
    let start = (place + 2).saturating_sub(random.below(length + 4)).max(PRELUDE.len() + 3);
    let mut bytes = PRELUDE.to_vec();
    pad_to(random, &mut bytes, start);
    let (part, aim) = delicate_part(delicate);
    bytes.extend_from_slice(&part);
    if delicate < 5 {
        bytes.extend_from_slice(AFTER);
    }
    Made::aimed(aim, bytes)
}

fn delicate_length(delicate: usize) -> usize {
    delicate_part(delicate).0.len()
}

/// The first five are followed by further lines, the others end the trace.
fn delicate_part(delicate: usize) -> (Vec<u8>, u8) {
    let long = |length: usize| [&b"# "[..], &vec![b'y'; length - 2]].concat();
    match delicate {
        0 => ([NEXT, b"\n"].concat(), 0),
        1 => ([NEXT, b"\r\n"].concat(), 0),
        2 => ([NEXT, b"\r\r\n"].concat(), 1),
        3 => ([&long(1023)[..], b"\r\n", NEXT, b"\n"].concat(), 0),
        4 => ([&long(1024)[..], b"\r\n"].concat(), 1),
        5 => (NEXT.to_vec(), 0),
        6 => ([NEXT, b"\r"].concat(), 1),
        _ => ([NEXT, b"\r\n"].concat(), 0),
    }
}

/// Comments up to the given length; each is at least `# ` and its end.
fn pad_to(random: &mut Random, bytes: &mut Vec<u8>, length: usize) {
    while bytes.len() < length {
        let rest = length - bytes.len();
        let most = if rest <= 1024 { rest } else { (rest - 3).min(1024) };
        let whole = if rest <= 1024 || random.chance(90) { most } else { 3 + random.below(most - 5) };
        let line = [&b"# "[..], &vec![b'x'; whole - 3], b"\n"].concat();
        bytes.extend_from_slice(&line);
    }
}
