//! Operations 18 to 1B on inputs that no writer made: all short ones, records with one thing changed, with two, cut
//! short, with more behind them, and longer than a record may be.

use super::*;
use crate::cases::bytes::{every_change, every_pair, link, Fault};
use crate::cases::paths::reads::near_misses;

pub fn fixed(to: &mut Sink) {
    short(to);
    for (head, good) in samples() {
        one_change(to, &head, &good);
        every_pair(&faults(&head, &good), &good, |d| ask_own(to, &head, d));
        every_path(to, &head);
        // for every reader, and both forms of 19
        for op in 0x18..=0x1B {
            for large in [0, 1] {
                ask_reader(to, op, large, &good);
            }
        }
    }
    for (head, good) in &samples()[..heads().len()] {
        long(to, head, good);
    }
    words(to);
    sizes(to);
    message_sizes(to);
}

/// Records to be damaged: each head with a short path, and some with none.
fn samples() -> Vec<(Head, Vec<u8>)> {
    let with = |list: &[Plain]| heads().into_iter().map(|h| (h.clone(), written(&h, list))).collect::<Vec<_>>();
    let symbol = [plain(SYMBOL, 0, b"Pmp"), plain(ELEMENT, 300, b"")];
    [with(&short_path()), with(&[]), with(&symbol)].concat()
}

/// Where the size byte of a record's path stands.
fn size_byte(head: &Head) -> usize {
    match head {
        Head::Message { .. } => 1,
        Head::Open(o) => 35 + 4 * o.large as usize,
        Head::Close(_) => 10,
        Head::Send { message, .. } => 4 + message.len().next_multiple_of(2),
    }
}

/// A Forward Close and an Unconnected Send have a reserved byte behind it.
fn path_place(head: &Head) -> usize {
    size_byte(head) + if matches!(head, Head::Message { .. } | Head::Open(_)) { 1 } else { 2 }
}

/// For its own reader.
fn ask_own(to: &mut Sink, head: &Head, input: &[u8]) {
    ask_reader(to, head.op() + 8, head.large(), input);
}

/// Every input of up to one byte, and of two for a message; then all zeros and all ones of every length.
fn short(to: &mut Sink) {
    for op in 0x18..=0x1B {
        for large in [0, 1] {
            ask_reader(to, op, large, &[]);
            for a in 0..=255 {
                ask_reader(to, op, large, &[a]);
            }
            for n in 0..60 {
                ask_reader(to, op, large, &vec![0; n]);
                ask_reader(to, op, large, &vec![0xFF; n]);
            }
        }
    }
    for a in 0..=255 {
        for b in 0..=255 {
            ask_reader(to, 0x18, 0, &[a, b]);
        }
    }
}

/// Every change of one byte, every front, one to three bytes more.
fn one_change(to: &mut Sink, head: &Head, good: &[u8]) {
    every_change(good, |d| ask_own(to, head, d));
    for more in [&[0][..], &[1], &[0, 0], &[0x20, 1], &[0, 0, 0]] {
        ask_own(to, head, &[good, more].concat());
    }
}

/// The places of a record at which something is judged, each with a fault of every kind that it can have.
fn faults(head: &Head, good: &[u8]) -> Vec<Fault> {
    use Fault::*;
    let mut v = vec![More, Cut(1), Cut(2), Cut(good.len() / 2), Cut(good.len())];
    match head {
        Head::Message { .. } => {}
        Head::Open(o) => {
            let wide = 4 * o.large as usize;
            let (a, b) = (26, 32 + wide / 2);
            v.extend([Set(0, 0x1A), Set(19, 1), Set(21, 0x80)]);
            // reserved bits 12, or 16, 24 and 28; connection type 3
            let top = |at: usize| at + 1 + wide / 2;
            v.extend([a, b].into_iter().flat_map(|at| [Xor(top(at), 0x10), Set(top(at), 0x60), Set(top(at), 0x70)]));
            if o.large == 1 {
                v.extend([Xor(a + 2, 1), Xor(a + 3, 1), Xor(b + 2, 0x80)]);
            }
            let codes = 34 + wide;
            v.extend([Set(codes, 0x30), Set(codes, 0x07), Set(codes, 0xFF)]);
        }
        Head::Close(_) => v.extend([Set(0, 0x80), Set(11, 1)]),
        Head::Send { message, .. } => {
            let n = message.len();
            v.extend([Set(0, 0x13), Xor(2, 1), Set(3, 0xFF), Set(4 + n, 1), Set(5 + n, 1), Set(5 + n + n % 2, 9)]);
        }
    }
    let at = size_byte(head);
    v.extend([Set(at, 127), Set(at, 128), Set(at, 255), Set(at, 0), Xor(at, 1)]);
    // the path's first byte: no segment, and a wide form
    let path = path_place(head);
    v.extend([Set(path, 0xFF), Set(path, 0x21), Set(path + 1, 1)]);
    v
}

/// Paths that are not the one form, as a part behind a size; with bytes behind them that could have completed them.
fn every_path(to: &mut Sink, head: &Head) {
    let (bare, at) = (written(head, &[]), path_place(head));
    for path in near_misses().iter().step_by(7).filter(|p| p.len() <= 254) {
        for more in [&[][..], &[0], &[0, 0x20, 1]] {
            let mut d = [&bare[..at], path, more, &bare[at..]].concat();
            d[size_byte(head)] = (path.len().div_ceil(2)) as u8;
            ask_own(to, head, &d);
            d[size_byte(head)] = (path.len() / 2) as u8;
            ask_own(to, head, &d);
        }
    }
}

/// Whole inputs around the limit: it comes before everything else.
fn long(to: &mut Sink, head: &Head, good: &[u8]) {
    for size in [65_534, 65_535, 65_536, 65_537] {
        let mut d = good.to_vec();
        d.resize(size, 0);
        ask_own(to, head, &d);
        d[0] = 0xFF;
        ask_own(to, head, &d);
    }
    ask_own(to, head, &[good, &[0; 140_000]].concat());
}

/// Every bit of both parameter words and every code byte; both words wrong; the whole range of the high byte.
fn words(to: &mut Sink) {
    for large in [0, 1] {
        let wide = 4 * large as usize;
        let (bits, first, second, codes) = (16 + 8 * wide / 2, 26, 32 + wide / 2, 34 + wide);
        for i in 0..48 {
            let o = Open { o_t: word(i, 0x0155), t_o: word(47 - i, 0x00AA), ..some_open(large) };
            let good = written(&Head::Open(o), &short_path());
            for bit in 0..bits {
                for at in [first, second] {
                    let mut d = good.clone();
                    d[at + bit / 8] ^= 1 << (bit % 8);
                    ask_own(to, &Head::Open(o), &d);
                }
            }
        }
        let o = some_open(large);
        let good = written(&Head::Open(o), &short_path());
        for code in 0..=255 {
            for reserved in [0, 1, 0x10] {
                let mut d = good.clone();
                d[codes] = code;
                d[second + 1 + wide / 2] ^= reserved;
                ask_own(to, &Head::Open(o), &d);
            }
        }
        for a in 0..=255 {
            for b in [0, 0x10, 0x60, 0x70, 0x80] {
                let mut d = good.clone();
                (d[first + 1 + wide / 2], d[second + 1 + wide / 2]) = (a, b);
                ask_own(to, &Head::Open(o), &d);
            }
        }
    }
}

/// Every size byte, with its bytes, one short, one more and none.
fn sizes(to: &mut Sink) {
    for head in heads() {
        let (bare, at, back) = (written(&head, &[]), size_byte(&head), path_place(&head));
        for words in 0..=255usize {
            for bytes in [2 * words, 2 * words + 1, (2 * words).saturating_sub(1), 0] {
                let path: Vec<u8> = [0x20, 1].into_iter().cycle().take(bytes).collect();
                let mut d = [&bare[..back], &path].concat();
                d[at] = words as u8;
                ask_own(to, &head, &d);
                if at + 2 == back {
                    d[at + 1] = 1;
                    ask_own(to, &head, &d);
                }
            }
        }
    }
}

/// Message sizes that run past the end, or stop short of it, with and without a pad.
fn message_sizes(to: &mut Sink) {
    for n in (0..=40usize).chain(250..=260).chain([65_525, 65_526, 65_527, 65_528, 65_529, 65_530, 65_535]) {
        for have in [n, n + 1, n.saturating_sub(1)] {
            for end in [&[][..], &[0], &[0, 0], &[1, 0, 0x20, 6], &[0, 1, 0, 0x20, 6], &[9, 1, 0, 0x20, 6]] {
                let size = (n as u16).to_le_bytes();
                let input = [&[3, 0xFA][..], &size, &link(have, 6), end].concat();
                ask_reader(to, 0x1B, 0, &input);
            }
        }
    }
}
