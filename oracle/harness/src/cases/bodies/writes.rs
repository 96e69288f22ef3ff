//! Operation 30: lengths, limits, rooms, which refusal comes first, and lines that are no case.

use super::*;
use crate::case::digits;
use crate::cases::asking::{judged, PAST_THE_END};
use crate::cases::bytes::{edges, link};

pub fn fixed(to: &mut Sink) {
    small(to);
    lengths(to);
    rooms(to);
    far_lengths(to);
    order(to);
    limits(to);
    many(to);
    bad_lines(to);
}

/// So many lent bytes with these lengths.
fn put(to: &mut Sink, lent: usize, lengths: &[u64], room: usize) {
    ask_write(to, &Items { lent: link(lent, lengths.len()), lengths: lengths.to_vec(), room: room as u32 });
}

/// The exact size.
fn size(lengths: &[u64]) -> usize {
    2 + lengths.iter().map(|n| 2 + *n as usize).sum::<usize>()
}

/// Every list of up to four lengths from 0 to 3: all lent, one byte short, and with bytes to spare; all rooms up to one
/// more than the size.
fn small(to: &mut Sink) {
    let mut lists: Vec<Vec<u64>> = vec![vec![]];
    for _ in 0..4 {
        let longer = lists.iter().flat_map(|l| (0..4).map(move |n| [&l[..], &[n]].concat())).collect::<Vec<_>>();
        lists.extend(longer);
        lists.sort_unstable();
        lists.dedup();
    }
    for l in &lists {
        let (sum, exact) = (l.iter().sum::<u64>() as usize, size(l));
        for lent in [sum, sum + 1, sum + 7, sum.saturating_sub(1), 0] {
            for room in [exact, exact - 1, exact + 1] {
                put(to, lent, l, room);
            }
        }
        if l.len() < 3 {
            (0..exact + 2).for_each(|room| put(to, sum, l, room));
        }
    }
}

/// One item of every length up to 600; two and three of many, so that offsets pass 255, 256 and 511; each byte.
fn lengths(to: &mut Sink) {
    for n in 1..=600 {
        whole(to, &[link(n, 1)], &[-1, 0, 1]);
    }
    for a in (1..=40).chain([245, 246, 247, 248, 249, 250, 251, 255, 256, 257, 505, 512]) {
        for b in (1..=40).chain([243, 250, 256, 300]) {
            put(to, a + b, &[a as u64, b as u64], 6 + a + b);
        }
        whole(to, &[link(a, 1), link(3, 2), link(a, 3)], &[0]);
    }
    for n in 0..=255 {
        whole(to, &[vec![n], vec![!n, n]], &[0, 3]);
    }
    for n in 1..=40 {
        whole(to, &(0..n).map(|k| link(1 + k % 5, k)).collect::<Vec<_>>(), &[0]);
    }
    for n in 1..=260 {
        put(to, n, &vec![1; n], 2 + 3 * n);
        ask_ends(to, &body(&ones(n, 0)));
    }
}

/// Rooms of many sizes, to the largest; what is past the exact size stays, and all of it where the room is too small.
fn rooms(to: &mut Sink) {
    for items in [vec![], vec![vec![0xAA]], replies(), vec![link(300, 1), link(300, 2)]] {
        let wire = body(&items).len();
        for room in (0..=wire + 4).chain([65_535, 65_536, 69_999, 70_000]) {
            ask_write(to, &Items::of(&items, room as u32));
        }
    }
}

/// Lengths that reach far past the end, alone, behind a good one and before one: also those whose sum, with what stands
/// before them, is small again.
fn far_lengths(to: &mut Sink) {
    let mut far: Vec<u64> = vec![0, 4, 5, 6, 65_535, 65_536, 65_537, u64::MAX, u64::MAX - 1, u64::MAX - 3, u64::MAX - 4];
    for bit in [16, 31, 32, 33, 62, 63] {
        let p = 1u64 << bit;
        far.extend([p - 1, p, p + 1, p + 4, p + 5, p - 4]);
    }
    for n in far {
        for lengths in
            [vec![n], vec![1, n], vec![2, n], vec![n, 1], vec![1, n, 1], vec![n, n], vec![4, n], vec![5, n], vec![n, 0]]
        {
            for room in [0, 20] {
                put(to, 5, &lengths, room);
            }
        }
        put(to, 0, &[n], 20);
    }
}

/// Two things wrong: which comes first?
fn order(to: &mut Sink) {
    for lengths in [&[0, 9][..], &[9, 0], &[1, 0, 9], &[1, 9, 0], &[0, 0], &[9, 9], &[1, 0], &[1, 9], &[3, 3], &[0]] {
        for room in [0, 5, 6, 30] {
            put(to, 5, lengths, room);
        }
    }
    // an empty item, or one past the end, and too much in all; then too much in all and no room
    for spoilt in [0, 1, 70_000] {
        for at in 0..3 {
            let mut l = vec![40_000, 40_000];
            l.insert(at, spoilt);
            for (lent, room) in [(80_001, 0), (80_001, 70_000), (80_000, 70_000), (79_999, 9)] {
                put(to, lent, &l, room);
            }
        }
    }
}

/// Bodies of 65,534 to 65,537 bytes, of one item, of two and of three; and those that are small again in 16 bits.
fn limits(to: &mut Sink) {
    for total in [65_534, 65_535, 65_536, 65_537, 65_540, 131_074] {
        for l in [vec![total - 4], vec![1, total - 7], vec![total - 7, 1], vec![32_760, 2, total - 32_770]] {
            let sum = l.iter().sum::<u64>() as usize;
            for room in [0, total as usize - 1, total as usize, 70_000] {
                put(to, sum, &l, room.min(70_000));
            }
            put(to, sum - 1, &l, 70_000);
        }
    }
    for n in edges(65_531) {
        put(to, n as usize, &[n.into()], 65_535);
    }
    // row B10: items of 65,530 bytes and of 1
    put(to, 65_531, &[65_530, 1], 70_000);
    put(to, 65_530, &[65_529, 1], 70_000);
}

/// Many items. 21,844 of one byte each are the most that fit, in 65,534 bytes; a line holds 32,768 lengths.
fn many(to: &mut Sink) {
    for n in [20_000, 21_844, 21_845, 32_766, 32_767, 32_768] {
        let ones = vec![1; n];
        for room in [size(&ones), size(&ones) - 1] {
            put(to, n, &ones, room.min(70_000));
        }
        put(to, n - 1, &ones, 0);
        put(to, n, &[&ones[1..], &[0]].concat(), 0);
    }
    // 20,000 items in 65,535 bytes, 21,844 in as many, and one more byte
    for (n, more) in [(20_000, 5_533), (20_000, 5_534), (21_844, 1), (21_844, 2)] {
        let mut l = vec![1; n];
        l[n / 2] += more;
        put(to, n + more as usize, &l, 65_535);
    }
    // more lengths than a line may have
    for n in [32_768, 32_769] {
        put(to, 0, &vec![1; n], 0);
        put(to, 3, &vec![0; n], 4);
    }
}

fn bad_lines(to: &mut Sink) {
    for room in [70_000, 70_001, 131_072, u32::MAX] {
        judged(to, Items::of(&replies(), room).line());
        judged(to, Items { lent: vec![], lengths: vec![9], room }.line());
    }
    // a count with another number of lengths behind it
    for count in [0, 1, 3, 255, 32_768, 32_769, 65_536, 0x0100_0000, 0x2000_0000, 0x2000_0002, 0x8000_0000, u32::MAX] {
        let mut line = Items { lent: vec![1, 2], lengths: vec![1, 1], room: 12 }.line();
        line[14..22].copy_from_slice(&digits(&count.to_le_bytes()));
        judged(to, line);
    }
    for t in ["30", "3000000000", "300000000000000000", "30000000000000000000000000", "3000000000000000000000000000"] {
        judged(to, t.as_bytes().to_vec());
    }
    for len in PAST_THE_END {
        judged(to, format!("30{len}").into_bytes());
        judged(to, format!("3000000000{len}00000000").into_bytes());
    }
    for n in [299_979, 299_980, 299_981] {
        judged(to, Items { lent: vec![7; n], lengths: vec![3], room: 9 }.line());
    }
}
