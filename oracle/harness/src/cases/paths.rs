//! Segments and paths, 01 to 07: what the files below share.

pub mod reads;
pub mod writes;

use super::asking::{Case, Sink, Truth};
use super::bytes::{edges, text};
use crate::ask_crate::paths::{answer, one};
use crate::case::*;
use crate::rng::Rng;

/// Small segments of every kind, width and parity.
pub fn small() -> Vec<Plain> {
    vec![
        plain(CLASS, 1, b""),
        plain(CLASS, 256, b""),
        plain(INSTANCE, 0, b""),
        plain(INSTANCE, 65_535, b""),
        plain(ATTRIBUTE, 255, b""),
        plain(ATTRIBUTE, 0x1234, b""),
        plain(ELEMENT, 255, b""),
        plain(ELEMENT, 256, b""),
        plain(ELEMENT, 65_536, b""),
        plain(SYMBOL, 0, b""),
        plain(SYMBOL, 0, b"A"),
        plain(SYMBOL, 0, "é".as_bytes()),
        plain(PORT, 1, b""),
        plain(PORT, 0, &[0]),
        plain(PORT, 14, &[5]),
        plain(PORT, 15, &[5]),
        plain(PORT, 15, b""),
        plain(PORT, 2, &[1, 2]),
        plain(PORT, 3_840, &[1, 2, 3]),
    ]
}

pub fn part(kind: u8, start: u32, len: u32) -> Seg {
    Seg { kind, number: u32::from(kind == PORT), start, len }
}

pub fn class(number: u32) -> Seg {
    Seg { kind: CLASS, number, start: 0, len: 0 }
}

/// A segment by chance, mostly short.
pub fn any_segment(rng: &mut Rng) -> Plain {
    let number = |rng: &mut Rng, most: u64| match rng.below(4) {
        0 => rng.below(300).min(most) as u32,
        1 => rng.pick(&edges(most)),
        _ => rng.below(most + 1) as u32,
    };
    let len = |rng: &mut Rng, most: u64| match rng.below(40) {
        0 => rng.below(most + 1) as usize,
        1 => (most - rng.below(3)) as usize,
        2..=9 => rng.below(20) as usize,
        _ => rng.below(4) as usize,
    };
    let kind = rng.below(6) as u8;
    match kind {
        SYMBOL => {
            let n = len(rng, 255);
            let salt = rng.below(1_000) as usize;
            if rng.once_in(2) {
                plain(kind, 0, &text(n, salt))
            } else {
                plain(kind, 0, &(0..n).map(|_| 32 + rng.below(95) as u8).collect::<Vec<u8>>())
            }
        }
        PORT => {
            let n = len(rng, 254);
            let port = if rng.once_in(2) { rng.below(20) as u32 } else { number(rng, 65_535) };
            plain(kind, port, &rng.bytes(n))
        }
        ELEMENT => plain(kind, number(rng, u64::from(u32::MAX)), b""),
        _ => plain(kind, number(rng, 65_535), b""),
    }
}

/// A list by chance, weighted to short; up to 130 segments, so the limit is passed now and then.
pub fn any_list(rng: &mut Rng) -> Vec<Plain> {
    let n = match rng.below(200) {
        0 => 120 + rng.below(11),
        1..=4 => rng.below(128),
        5..=40 => rng.below(10),
        _ => rng.below(4),
    };
    (0..n).map(|_| any_segment(rng)).collect()
}

/// The list over a pool in no order: parts apart, turned round, shared where they are the same, bytes to spare.
pub fn scattered(rng: &mut Rng, list: &[Plain]) -> (Vec<u8>, Vec<Seg>) {
    let spare = rng.below(4) as usize;
    let mut pool = rng.bytes(spare);
    let (_, mut segs) = end_to_end(list);
    let mut order: Vec<usize> = (0..list.len()).filter(|i| [SYMBOL, PORT].contains(&list[*i].kind)).collect();
    for i in (1..order.len()).rev() {
        order.swap(i, rng.below(i as u64 + 1) as usize);
    }
    for i in order {
        let bytes = &list[i].bytes;
        let there = if bytes.len() == 1 { pool.iter().position(|b| *b == bytes[0]) } else { None };
        let start = there.unwrap_or_else(|| {
            let gap = rng.below(2) as usize;
            pool.extend(vec![0xEE; gap]);
            pool.extend(bytes);
            pool.len() - bytes.len()
        });
        segs[i].start = start as u32;
    }
    (pool, segs)
}

/// A symbol, an element and a port, in a pool.
pub fn sample() -> (Vec<u8>, Vec<Seg>) {
    end_to_end(&[plain(SYMBOL, 0, b"Flow1"), plain(ELEMENT, 7, b""), plain(PORT, 15, &[5])])
}

/// A good line of each operation.
pub fn good_lines() -> Vec<Vec<u8>> {
    let writer = |op| {
        let (pool, list) = sample();
        let list = if op == 1 || op == 3 { list[..1].to_vec() } else { list };
        Writer { op, pool, list, room: 16 }.line()
    };
    let reader = |op| reader_line(op, &[0x91, 1, b'A', 0, 0x20, 6]);
    (1..=4).map(writer).chain((5..=7).map(reader)).collect()
}

/// A case of 01 to 04: the crate's where it is in the domain, else the judge's.
pub fn ask(to: &mut Sink, w: &Writer) {
    let truth = answer(w).map_or(Truth::Judge, Truth::Crate);
    to(Case { line: w.line(), truth });
}

/// An input for one of the readers, of which nothing is known.
pub fn ask_reader(to: &mut Sink, op: u8, input: &[u8]) {
    let truth = if op == 7 { Truth::Judge } else { Truth::Input(input.to_vec()) };
    to(Case { line: reader_line(op, input), truth });
}

/// What the crate writes for a segment of its domain.
pub fn written(p: &Plain) -> Vec<u8> {
    one(p).and_then(Result::ok).unwrap_or_default()
}

/// What the crate wrote for a list, given to the three readers.
pub fn read_back(to: &mut Sink, list: &[Plain], input: &[u8]) {
    // an empty link is written as link 0, and reads back as that
    let list: Vec<Plain> = list.iter().map(normal).collect();
    // 06 reads the front, then the front of what is left; of a long list only the first few, for the sake of time
    let mut rest = input;
    for first in list.iter().take(4) {
        let size = written(first).len();
        let truth = Truth::Front { first: first.clone(), size: size as u32, input: rest.to_vec() };
        to(Case { line: reader_line(6, rest), truth });
        rest = rest.get(size..).unwrap_or_default();
    }
    let count = [&[0][..], &(list.len() as u32).to_le_bytes()].concat();
    to(Case { line: reader_line(7, input), truth: Truth::Crate(digits(&count)) });
    to(Case { line: reader_line(5, input), truth: Truth::List { list, input: input.to_vec() } });
}

fn normal(p: &Plain) -> Plain {
    let mut p = p.clone();
    if p.kind == PORT && p.bytes.is_empty() {
        p.bytes.push(0);
    }
    p
}
