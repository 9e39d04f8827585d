//! Write lines, read in one pass into a list of lines whose bytes are on the heap.

use crate::SplitMix64;
use std::fmt::Write;

#[allow(dead_code)]
pub struct Line {
    pub sector: u32,
    pub bytes: Vec<u8>,
}

fn digit(byte: u8) -> Option<u8> {
    match byte {
        b'0'..=b'9' => Some(byte - b'0'),
        b'a'..=b'f' => Some(byte - b'a' + 10),
        _ => None,
    }
}

fn number(text: &[u8]) -> Option<u32> {
    if text.is_empty() || (text[0] == b'0' && text.len() > 1) {
        return None;
    }
    let mut number: u32 = 0;
    for byte in text {
        let digit = byte.checked_sub(b'0').filter(|digit| *digit < 10)?;
        number = number.checked_mul(10)?.checked_add(digit as u32)?;
    }
    Some(number)
}

fn line_of(text: &[u8]) -> Option<Line> {
    let rest = text.strip_prefix(b"write ")?;
    let space = rest.iter().position(|byte| *byte == b' ')?;
    let digits = &rest[space + 1..];
    if digits.is_empty() || digits.len() % 2 == 1 || digits.len() > 1024 {
        return None;
    }
    let mut bytes = Vec::with_capacity(digits.len() / 2);
    for pair in digits.chunks_exact(2) {
        bytes.push(digit(pair[0])? << 4 | digit(pair[1])?);
    }
    Some(Line {
        sector: number(&rest[..space])?,
        bytes,
    })
}

#[inline(never)]
fn parse(text: &[u8]) -> Option<Vec<Line>> {
    let mut lines = Vec::new();
    for line in text.strip_suffix(b"\n")?.split(|byte| *byte == b'\n') {
        lines.push(line_of(line)?);
    }
    Some(lines)
}

pub fn write_lines(lines: usize) -> String {
    let mut random = SplitMix64(1);
    let mut text = String::new();
    for sector in 0..lines {
        let (high, low) = (random.next_word(), random.next_word());
        writeln!(text, "write {sector} {high:016x}{low:016x}").unwrap();
    }
    text
}

pub fn parsed(lines: usize, rounds: usize) -> u64 {
    let text = write_lines(lines);
    let mut sum = 0;
    for _ in 0..rounds {
        sum += parse(text.as_bytes()).unwrap().len() as u64;
    }
    sum
}
