//! Operations 05 to 07 on inputs that no writer made: all short ones, near misses of every form, damaged copies.

use super::*;
use crate::ask_crate;
use crate::cases::bytes::{damaged, every_change_by, link, KNOWN};

const READERS: [u8; 3] = [5, 6, 7];

/// First bytes of no segment.
const UNKNOWN: [u8; 10] = [0x22, 0x26, 0x2C, 0x32, 0x34, 0x43, 0x61, 0x80, 0x90, 0xFF];

fn all_three(to: &mut Sink, input: &[u8]) {
    for op in READERS {
        ask_reader(to, op, input);
    }
}

pub fn fixed(to: &mut Sink) {
    all_three(to, &[]);
    for a in 0..=255 {
        all_three(to, &[a]);
        for b in 0..=255 {
            all_three(to, &[a, b]);
        }
    }
    const TELLING: [u8; 11] = [0, 1, 2, 3, 14, 15, 16, 0x20, 0x7F, 0xFE, 0xFF];
    for a in (0..32).chain(KNOWN) {
        for b in TELLING {
            for c in TELLING {
                all_three(to, &[a, b, c]);
                for d in TELLING {
                    ask_reader(to, 5, &[a, b, c, d]);
                    ask_reader(to, 6, &[a, b, c, d, 0x99]);
                }
            }
        }
    }
    for n in near_misses() {
        all_three(to, &n);
        // the same behind a good segment: starts are counted in the whole
        ask_reader(to, 5, &[&[0x91, 2, b'o', b'k'], &n[..]].concat());
    }
    for n in limits() {
        all_three(to, &n);
    }
    // a bare path has no limit on its bytes: what stands in front is judged
    for front in [&[0x22][..], &[0x21, 0, 5, 0], &[0x11, 255], &[0x91, 1, b'A', 1]] {
        all_three(to, &[front, &[0; 70_000]].concat());
    }
    for p in small().iter().map(written) {
        every_change_by(&[1, 0x10, 0x80, 0xFF], &p, |d| all_three(to, d));
    }
}

/// Whole segments that are not the one form, and their good neighbours.
pub fn near_misses() -> Vec<Vec<u8>> {
    let mut v: Vec<Vec<u8>> = vec![];
    for n in (0..=300).chain(edges(65_535)) {
        let low = (n as u16).to_le_bytes();
        for code in [0x21, 0x25, 0x29, 0x31] {
            v.push(vec![code, 0, low[0], low[1]]);
        }
        // a port in the escaped form, with each form of link
        v.push(vec![0x0F, low[1], low[0], 7]);
        v.push(vec![0x1F, 2, low[1], low[0], 7, 8]);
        v.push(vec![0x1F, 3, low[1], low[0], 7, 8, 9, 0]);
    }
    for n in edges(u64::from(u32::MAX)) {
        v.push([&[0x2A, 0][..], &n.to_le_bytes()].concat());
    }
    for code in [0x21, 0x25, 0x29, 0x2A, 0x31] {
        // pad not zero, value good: whole, and cut behind the pad
        v.push(vec![code, 1, 0, 1, 1, 0]);
        v.push(vec![code, 0x80]);
    }
    for len in 0..=255usize {
        v.extend(ends([&[0x91, len as u8][..], &text(len, 3)].concat()));
        v.extend(ends([&[0x11, len as u8][..], &link(len, 3)].concat()));
        v.extend(ends([&[0x1F, len as u8, 1, 0][..], &link(len, 3)].concat()));
        // link length and escaped port both wrong: the length byte stands first
        v.push([&[0x1F, len as u8, 0, 14][..], &link(len, 3)].concat());
        v.push(vec![0x1F, len as u8, 0]);
    }
    v
}

/// A segment that may lack its pad: as it is, with a zero, with another byte, one byte short.
fn ends(s: Vec<u8>) -> [Vec<u8>; 4] {
    let short = s[..s.len() - 1].to_vec();
    let zero = [&s[..], &[0]].concat();
    let other = [&s[..], &[0x40]].concat();
    [s, zero, other, short]
}

/// Around 127 segments: the 128th is 3 whatever it is, as soon as its first byte is met.
fn limits() -> Vec<Vec<u8>> {
    let mut v = vec![];
    for p in small().iter().map(written) {
        for n in 125..=130 {
            v.push(p.repeat(n));
        }
        v.push([p.repeat(127), vec![0xFF]].concat());
        v.push([p.repeat(127), vec![0x20]].concat());
        v.push([p.repeat(126), vec![0xFF]].concat());
        v.push([p.repeat(126), vec![0x20]].concat());
        v.push([p.repeat(126), vec![0x21, 0, 5, 0], p].concat());
    }
    v.push(written(&plain(SYMBOL, 0, &text(255, 5))).repeat(127));
    v.push(written(&plain(PORT, 15, &link(254, 5))).repeat(128));
    v
}

/// A few bytes that look like segments.
fn likely(rng: &mut Rng) -> Vec<u8> {
    let mut v = vec![];
    for _ in 0..1 + rng.below(3) {
        v.push(match rng.below(8) {
            0..=4 => rng.pick(&KNOWN),
            5..=6 => rng.below(32) as u8,
            _ => rng.pick(&UNKNOWN),
        });
        for _ in 0..rng.below(6) {
            v.push(if rng.once_in(2) { rng.below(4) as u8 } else { rng.byte() });
        }
    }
    v
}

pub fn random(rng: &mut Rng, to: &mut Sink) {
    match rng.below(10) {
        // a share of all inputs of three and four bytes; a first byte that is known gets further than one that is not
        0..=2 => {
            for _ in 0..8 {
                let n = 3 + rng.below(2) as usize;
                let mut input = rng.bytes(n);
                match rng.below(4) {
                    0 | 1 => input[0] = rng.pick(&KNOWN),
                    2 => input[0] %= 32,
                    _ => {}
                }
                ask_reader(to, rng.pick(&READERS), &input);
            }
        }
        3 | 4 => ask_reader(to, rng.pick(&READERS), &likely(rng)),
        _ => {
            if let Some(Ok(good)) = ask_crate::paths::list(&any_list(rng)) {
                ask_reader(to, rng.pick(&READERS), &damaged(rng, &good));
            }
        }
    }
}
