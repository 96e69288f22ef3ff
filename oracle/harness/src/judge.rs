//! The judge: what every line must be answered where no Rust can say it. Written from document 01 (refusals, limits,
//! layouts), for what came later from document 02, and from docs/ANSWERS.md; where those leave a point open, the comment
//! names the entry of docs/DECISIONS.md. It shares no code with the cases, the crate's side or the program that is asked.
//! This file has the lines; each group of operations has a file below it.

mod bodies;
mod fields;
mod frames;
mod nested;
mod paths;
mod replies;
mod requests;

use fields::Fields;
use std::fmt::Write;

/// Longest line, in digits.
const LONGEST: usize = 600_000;

/// The answer to one line (without its newline); None where the line has nothing on it.
pub fn line(text: &[u8]) -> Option<String> {
    let mut nibbles = vec![];
    let mut other = false;
    for &c in text {
        match c {
            b'#' => break,
            b' ' | b'\t' => {}
            b'0'..=b'9' => nibbles.push(c - b'0'),
            b'A'..=b'F' => nibbles.push(c - b'A' + 10),
            b'a'..=b'f' => nibbles.push(c - b'a' + 10),
            _ => other = true,
        }
    }
    if nibbles.is_empty() && !other {
        return None;
    }
    if other || nibbles.len() % 2 != 0 || nibbles.len() > LONGEST {
        return Some("bad".into());
    }
    let bytes: Vec<u8> = nibbles.chunks(2).map(|n| n[0] * 16 + n[1]).collect();
    Some(match case(&bytes) {
        None => "bad".into(),
        Some(answer) => answer.iter().fold(String::new(), |mut t, b| {
            write!(t, "{b:02X}").unwrap();
            t
        }),
    })
}

/// The answers to a whole input. A last line with no newline is answered.
pub fn whole(input: &[u8]) -> String {
    input.split(|&c| c == b'\n').filter_map(line).map(|a| a + "\n").collect()
}

/// None: not a case.
fn case(bytes: &[u8]) -> Option<Vec<u8>> {
    let (&op, rest) = bytes.split_first()?;
    let mut f = Fields(rest);
    match op {
        0x01..=0x07 => paths::case(op, &mut f),
        0x10..=0x15 | 0x18..=0x1B => requests::case(op, &mut f),
        0x20..=0x27 => replies::case(op, &mut f),
        0x30..=0x34 => bodies::case(op, &mut f),
        0x40 => nested::case(&mut f),
        0x50 => frames::case(&mut f),
        _ => None,
    }
}
