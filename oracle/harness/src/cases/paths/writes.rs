//! Operations 01 to 04: in the crate's domain, and what was written given back to the readers; then past the limits, what
//! is refused, with which number, and which number comes first.

use super::*;
use crate::ask_crate;
use crate::cases::bytes::link;
use std::slice;

/// One segment: its size, and written where the room is exact and one more.
fn single(to: &mut Sink, p: &Plain) {
    let (pool, list) = end_to_end(slice::from_ref(p));
    let size = written(p).len() as u32;
    ask(to, &Writer { op: 1, pool: pool.clone(), list: list.clone(), room: 0 });
    for room in [size, size + 1] {
        ask(to, &Writer { op: 3, pool: pool.clone(), list: list.clone(), room });
    }
}

/// A list: its size, written into each of the rooms (added to its size), and read back.
fn whole(to: &mut Sink, list: &[Plain], more: &[i64]) {
    over(to, list, end_to_end(list), more, true);
}

/// The same over a pool that was lent, read back or not.
fn over(to: &mut Sink, list: &[Plain], (pool, segs): (Vec<u8>, Vec<Seg>), more: &[i64], back: bool) {
    let wrote = ask_crate::paths::list(list).and_then(Result::ok);
    let size = wrote.as_ref().map_or(0, |b| b.len() as i64);
    let mut w = Writer { op: 2, pool, list: segs, room: 0 };
    ask(to, &w);
    w.op = 4;
    for m in more {
        w.room = (size + m).clamp(0, 70_000) as u32;
        ask(to, &w);
    }
    if let (true, Some(input)) = (back, wrote) {
        read_back(to, list, &input);
    }
}

pub fn fixed(to: &mut Sink) {
    for kind in [CLASS, INSTANCE, ATTRIBUTE, ELEMENT] {
        let most = if kind == ELEMENT { u64::from(u32::MAX) } else { 65_535 };
        for n in (0..=300).chain(65_000..=65_535).chain(edges(most)) {
            single(to, &plain(kind, n, b""));
        }
    }
    for n in 65_536..=66_000 {
        single(to, &plain(ELEMENT, n, b""));
    }
    // every 16-bit number in each of the five fields, five to a case
    for n in 0..=65_535 {
        let list = [
            plain(CLASS, n, b""),
            plain(INSTANCE, n, b""),
            plain(ATTRIBUTE, n, b""),
            plain(ELEMENT, n, b""),
            plain(PORT, n, &[n as u8]),
        ];
        let (pool, segs) = end_to_end(&list);
        ask(to, &Writer { op: 2, pool: pool.clone(), list: segs.clone(), room: 0 });
        ask(to, &Writer { op: 4, pool, list: segs, room: 64 });
    }
    for n in (0..=300).chain(edges(65_535)) {
        for len in [0, 1, 2, 3, 253, 254] {
            single(to, &plain(PORT, n, &link(len, n as usize)));
        }
    }
    for len in 0..=255 {
        for p in [plain(SYMBOL, 0, &text(len, len)), plain(SYMBOL, 0, &vec![b'n'; len])] {
            single(to, &p);
            whole(to, &[p], &[0]);
        }
    }
    for len in 0..=254 {
        for port in [1, 14, 15, 65_535] {
            let p = plain(PORT, port, &link(len, len));
            single(to, &p);
            whole(to, &[p], &[0]);
        }
    }
    short_lists(to);
    long_lists(to);
}

/// Every list of up to three small segments.
fn short_lists(to: &mut Sink) {
    const ROOMS: [i64; 5] = [-1_000, -1, 0, 1, 9];
    let small = small();
    whole(to, &[], &ROOMS);
    for a in &small {
        whole(to, slice::from_ref(a), &ROOMS);
        for b in &small {
            whole(to, &[a.clone(), b.clone()], &ROOMS);
            for c in &small {
                whole(to, &[a.clone(), b.clone(), c.clone()], &[0]);
            }
        }
    }
}

/// Many segments, and the largest path there is: 127 of the longest.
fn long_lists(to: &mut Sink) {
    for p in small() {
        for n in [4, 5, 126, 127, 128] {
            whole(to, &vec![p.clone(); n], &[-1, 0, 1]);
        }
    }
    for p in [plain(SYMBOL, 0, &text(255, 1)), plain(PORT, 15, &link(254, 1))] {
        let list = vec![p.clone(); 127];
        // one part of the pool stands for all: the line stays short, the output is 33 kB
        let segs = vec![Seg { kind: p.kind, number: p.number, start: 0, len: p.bytes.len() as u32 }; 127];
        over(to, &list, (p.bytes.clone(), segs), &[-1, 0, 1], true);
        whole(to, &list, &[0]);
    }
    // rooms and starts that take more than 16 bits
    let (pool, list) = end_to_end(&small()[..3]);
    for room in [65_535, 65_536, 65_537, 70_000] {
        ask(to, &Writer { op: 4, pool: pool.clone(), list: list.clone(), room });
    }
    let pool: Vec<u8> = (0..65_600).map(|i| b'a' + (i % 23) as u8).collect();
    for start in [65_534, 65_535, 65_536, 65_593] {
        for kind in [SYMBOL, PORT] {
            let seg = Seg { kind, number: 0, start, len: 7 };
            ask(to, &Writer { op: 1, pool: pool.clone(), list: vec![seg], room: 0 });
            ask(to, &Writer { op: 4, pool: pool.clone(), list: vec![seg], room: 12 });
        }
    }
}

/// A list, mostly in the crate's domain; every other one is read back.
pub fn random(rng: &mut Rng, to: &mut Sink) {
    let list = any_list(rng);
    let lent = scattered(rng, &list);
    let more = match rng.below(400) {
        0..=99 => -1,
        100..=149 => 1,
        150..=169 => rng.below(40) as i64,
        170..=179 => -(rng.below(40) as i64),
        180 if rng.once_in(20) => 70_000,
        180 => rng.below(1_000) as i64,
        _ => 0,
    };
    let back = rng.once_in(2);
    over(to, &list, lent, &[more], back);
}

pub fn random_segment(rng: &mut Rng, to: &mut Sink) {
    let list = [any_segment(rng)];
    let (pool, segs) = scattered(rng, &list);
    let size = written(&list[0]).len() as u32;
    let op = if rng.once_in(3) { 1 } else { 3 };
    let room = (size + rng.pick(&[0, 0, 0, 1, 2, 30])).saturating_sub(rng.pick(&[0, 0, 0, 0, 1, 2]));
    ask(to, &Writer { op, pool, list: segs, room: if op == 3 { room } else { 0 } });
}

// ---- past the limits ----

/// Starts and lengths of which the low bytes alone, or the sum with another, would lie in a short pool.
const FAR: [u32; 6] = [0x100, 0x1_0000, 0x100_0000, 0x8000_0000, u32::MAX - 1, u32::MAX];

/// The four functions on one segment; the writers with each room.
fn all_four(to: &mut Sink, pool: &[u8], seg: Seg, rooms: &[u32]) {
    for op in 1..=4 {
        for &room in if op < 3 { &[0][..] } else { rooms } {
            ask(to, &Writer { op, pool: pool.to_vec(), list: vec![seg], room });
        }
    }
}

/// Size and writer of a list, the writer with each room.
fn both(to: &mut Sink, pool: &[u8], list: &[Seg], rooms: &[u32]) {
    ask(to, &Writer { op: 2, pool: pool.to_vec(), list: list.to_vec(), room: 0 });
    for &room in rooms {
        ask(to, &Writer { op: 4, pool: pool.to_vec(), list: list.to_vec(), room });
    }
}

/// Segments that a pool of 300 bytes lets be judged 11, 3 and nothing, in that order of judging.
fn troubles() -> Vec<Seg> {
    const MAX: u32 = u32::MAX;
    let mut v = vec![class(1)];
    for kind in [SYMBOL, PORT] {
        for (start, len) in [
            (301, 0),
            (300, 1),
            (45, 256),
            (0, 301),
            (0, 256),
            (0, 300),
            (300, 0),
            (298, 2),
            (MAX, 0),
            (MAX, MAX),
            (0, MAX),
            (1, MAX),
        ] {
            v.push(part(kind, start, len));
        }
    }
    v.push(part(SYMBOL, 45, 255));
    v.push(part(PORT, 45, 255));
    v.push(part(PORT, 46, 255));
    v.push(part(PORT, 46, 254));
    v
}

/// Past the limits.
pub fn refused(to: &mut Sink) {
    // every place around the end of a short pool
    for n in 0..=4 {
        let pool = link(n, 9);
        for kind in [SYMBOL, PORT] {
            for start in (0..=5).chain(FAR) {
                for len in (0..=5).chain(FAR) {
                    all_four(to, &pool, part(kind, start, len), &[0, 1, 40]);
                }
            }
        }
    }
    // both sides of the limits on lengths, the pool long enough and one byte too short
    for len in 250..=260 {
        for pool in [len, len - 1, len + 1] {
            for kind in [SYMBOL, PORT] {
                all_four(to, &link(pool as usize, 4), part(kind, 0, len), &[0, 300]);
            }
        }
    }
    // which of several comes first
    let pool = link(300, 2);
    for a in troubles() {
        all_four(to, &pool, a, &[0, 2, 300]);
        for b in troubles() {
            both(to, &pool, &[a, b], &[0, 600]);
            both(to, &pool, &[class(300), a, b], &[5]);
        }
    }
    // the count before the segments, and before the room
    for count in [126, 127, 128, 129, 255, 256, 399, 400] {
        for s in [class(1), part(SYMBOL, 0, 0), part(SYMBOL, 1, 0), part(PORT, 0, 255)] {
            both(to, b"", &vec![s; count], &[0, 253, 254, 255]);
        }
    }
    // no byte of a longer output changes when the last segment is refused
    let mut long = vec![class(1); 127];
    long[126] = part(PORT, 0, 1);
    both(to, b"", &long, &[0, 256, 70_000]);
}

/// A good list with one or two of its segments spoilt, and a room that may be too small as well.
pub fn random_refusal(rng: &mut Rng, to: &mut Sink) {
    let mut plain = any_list(rng);
    if plain.len() > 12 && !rng.once_in(10) {
        plain.truncate(12);
    }
    let (mut pool, mut segs) = scattered(rng, &plain);
    if rng.once_in(8) {
        // bytes that no String holds, and room for parts that are too long
        pool.extend(rng.bytes(300));
    }
    for _ in 0..=rng.below(2) {
        if segs.is_empty() {
            segs.push(class(7));
        }
        let i = rng.below(segs.len() as u64) as usize;
        let end = pool.len() as u32;
        let kind = if rng.once_in(2) { SYMBOL } else { PORT };
        segs[i] = match rng.below(6) {
            0 => part(kind, end, 0),
            1 => part(kind, end + 1, 0),
            2 => part(kind, rng.below(u64::from(end) + 1) as u32, rng.below(8) as u32),
            3 => part(kind, rng.any() as u32, rng.below(3) as u32),
            4 => part(kind, rng.below(4) as u32, rng.pick(&[253, 254, 255, 256, 257, u32::MAX])),
            _ => part(kind, end.saturating_sub(2), 2),
        };
    }
    let op = 1 + rng.below(4) as u8;
    if op == 1 || op == 3 {
        segs.truncate(1);
    }
    let room = if op < 3 { 0 } else { rng.below(60) as u32 };
    ask(to, &Writer { op, pool, list: segs, room });
}
