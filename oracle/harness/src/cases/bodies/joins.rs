//! Operation 34: what is joined, which body's refusal comes first, limits and rooms.

use super::*;
use crate::cases::asking::{judged, PAST_THE_END};
use crate::cases::bytes::{every_change_by, link};

pub fn fixed(to: &mut Sink) {
    pairs(to);
    shifts(to);
    refusals(to);
    limits(to);
    many(to);
    bad_lines(to);
}

/// Into rooms around the joined size.
fn around(to: &mut Sink, first: &[u8], second: &[u8]) {
    let size = (first.len() + second.len()).saturating_sub(2);
    for room in [size, size.saturating_sub(1), size + 1, 0] {
        ask_join(to, first, second, room.min(70_000));
    }
}

/// Every two of the samples, the empty body among them; every room up to the joined size of document 01's card.
fn pairs(to: &mut Sink) {
    let mut all = samples();
    all.push(body(&replies()));
    for a in &all {
        for b in &all {
            around(to, a, b);
            ask_join(to, a, b, 70_000);
        }
    }
    for room in 0..=12 {
        ask_join(to, &JOIN_FIRST, &JOIN_SECOND, room);
        ask_join(to, &[0, 0], &[0, 0], room);
    }
}

/// Numbers of items and sizes that carry the offsets of both past 255, 256, 511 and further.
fn shifts(to: &mut Sink) {
    let list = |n: usize, len: usize| body(&(0..n).map(|k| link(1 + (k + len) % len, k)).collect::<Vec<_>>());
    for n in (0..=12).chain([63, 64, 120, 126, 127, 128, 129, 130, 255, 256]) {
        for m in (0..=12).chain([63, 64, 127, 128, 255, 256]) {
            around(to, &list(n, 3), &list(m, 5));
        }
    }
    for a in (230..=260).chain([500, 505, 510, 32_000, 32_760]) {
        for b in [1, 2, 3, 250, 256, 32_000] {
            let two = |n| body(&[link(n, 1), link(2, 2)]);
            ask_join(to, &two(a), &two(b), a + b + 14);
        }
    }
}

/// Bodies with each refusal.
fn refused() -> Vec<Vec<u8>> {
    vec![
        vec![],
        vec![1],
        vec![2, 0, 6],
        vec![1, 0, 4, 0],
        vec![1, 0, 5, 0, 0xAA, 0xBB],
        vec![2, 0, 6, 0, 6, 0, 0xAA],
        vec![0, 0, 0xAA],
        vec![0; 65_536],
    ]
}

/// Every two bodies of which at least one is refused, with room and with none; every byte of either changed.
fn refusals(to: &mut Sink) {
    let good = [vec![0, 0], JOIN_FIRST.to_vec(), body(&replies())];
    for bad in refused() {
        for other in refused().iter().chain(&good) {
            for room in [0, 70_000] {
                ask_join(to, &bad, other, room);
                ask_join(to, other, &bad, room);
            }
        }
    }
    let ways: Vec<u8> = (1..=255).collect();
    for (a, b) in [(&JOIN_FIRST[..], &JOIN_SECOND[..]), (&JOIN_SECOND, &[2, 0, 6, 0, 7, 0, 1, 2, 3]), (&JOIN_FIRST, &[0, 0])] {
        for room in [0, 20] {
            every_change_by(&ways, a, |d| ask_join(to, d, b, room));
            every_change_by(&ways, b, |d| ask_join(to, a, d, room));
            every_change_by(&[1, 4, 128], a, |d| ask_join(to, d, &[1, 0, 9, 0, 9], room));
        }
    }
}

/// A body of so many bytes, with one item or two.
fn sized(n: usize, items: usize) -> Vec<u8> {
    let last = link(n - 2 - 2 * items - (items - 1), n);
    let items: Vec<Vec<u8>> = std::iter::repeat_n(vec![0x11], items - 1).chain([last]).collect();
    body(&items)
}

/// Lengths that are 65,536 to 65,539 in sum, so that the joined body has 65,534 to 65,537; far more; each with room,
/// without, and with a second body that is refused.
fn limits(to: &mut Sink) {
    for sum in [65_536, 65_537, 65_538, 65_539, 131_070] {
        for (first, items) in [(sum / 2, 1), (32_770, 2), ((sum - 65_500).max(9), 1)] {
            let (a, b) = (sized(first, items), sized(sum - first, items));
            for room in [0, sum - 3, sum - 2, 70_000] {
                ask_join(to, &a, &b, room.min(70_000));
            }
            ask_join(to, &b, &a, 70_000);
            // a refusal of the second comes before the whole limit
            ask_join(to, &a, &[&b[..2], &[9], &b[3..]].concat(), 0);
            ask_join(to, &a, &b[..3], 0);
        }
    }
    // the longest body and the empty one, or one of one item
    let longest = sized(65_535, 3);
    for other in [&[0, 0][..], &JOIN_FIRST] {
        around(to, &longest, other);
        around(to, other, &longest);
    }
}

/// Items of one byte each: 20,000 in two halves, 21,844 (the most), one more, and one beside the rest.
fn many(to: &mut Sink) {
    let each = |n: usize| body(&ones(n, 0));
    for (n, m) in [(10_000, 10_000), (10_922, 10_922), (0, 21_844), (21_843, 1)] {
        around(to, &each(n), &each(m));
    }
    for (n, m) in [(10_923, 10_922), (21_844, 1), (1, 21_844), (21_844, 21_844)] {
        ask_join(to, &each(n), &each(m), 70_000);
    }
    // two of about half, in 65,535 bytes together
    let half = |n: usize, size: usize| body(&ones(n, size - 3 * n - 2));
    around(to, &half(9_000, 30_000), &half(11_000, 35_537));
    around(to, &half(9_000, 30_000), &half(11_000, 35_538));
}

fn bad_lines(to: &mut Sink) {
    for room in [69_999, 70_000, 70_001, u32::MAX] {
        let j = |first: &[u8]| Join { first: first.to_vec(), second: JOIN_SECOND.to_vec(), room };
        judged(to, j(&JOIN_FIRST).line());
        judged(to, j(&[]).line());
    }
    for t in ["34", "3400000000", "340000000000000000", "34000000000000000000000000", "3400000000000000000000000000"] {
        judged(to, t.as_bytes().to_vec());
    }
    for len in PAST_THE_END {
        judged(to, format!("34{len}").into_bytes());
        judged(to, format!("3400000000{len}00000000").into_bytes());
    }
    for n in [149_993, 149_994] {
        judged(to, Join { first: vec![0; n], second: vec![0; n], room: 9 }.line());
    }
}
