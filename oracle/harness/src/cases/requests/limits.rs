//! What the writers of requests refuse, with which number and which comes first; lines of requests that are no case.

use super::*;
use crate::cases::asking::{judged, past_the_end};
use crate::cases::bytes::{link, text};
use crate::cases::paths::{class, part};

pub fn fixed(to: &mut Sink) {
    path_sizes(to);
    record_sizes(to);
    rooms(to);
    order(to);
    bad_fields(to);
    bad_lines(to);
}

/// Paths of exactly so many bytes: of small segments, of one or two long symbols, of a long link and small segments.
fn paths_of(bytes: usize) -> Vec<Vec<Plain>> {
    let small = |n: usize| vec![plain(CLASS, 1, b""); n / 2];
    let first = bytes.min(256);
    let mut symbols = vec![plain(SYMBOL, 0, &text(first - 2, 1))];
    if bytes > first {
        symbols.push(plain(SYMBOL, 0, &text(bytes - first - 2, 2)));
    }
    // escaped port: code, length, two bytes, link
    let links = [vec![plain(PORT, 300, &link(200, 3))], small(bytes - 204)].concat();
    vec![small(bytes), symbols, links]
}

fn path_sizes(to: &mut Sink) {
    for head in heads() {
        for bytes in [250, 252, 254, 256, 258, 260, 300, 508, 510, 512] {
            for list in paths_of(bytes) {
                whole(to, &head, &list, &[-1, 0, 1, 600]);
            }
        }
        // a symbol whose pad alone passes the limit, and the longest there is
        for len in [251, 252, 253, 254, 255] {
            whole(to, &head, &[plain(SYMBOL, 0, &vec![b'n'; len])], &[-1, 0, 400]);
        }
        for count in [126, 127, 128, 129, 255, 256, 399, 400] {
            for seg in [class(1), class(256), part(SYMBOL, 1, 0)] {
                for room in [0, 300, 600] {
                    ask(to, &Request { head: head.clone(), pool: vec![], list: vec![seg; count], room });
                }
            }
        }
    }
}

/// Records of 65,534, 65,535 and 65,536 bytes, and of some at which a 16-bit length would be short again. An
/// Unconnected Send has always an even length.
fn record_sizes(to: &mut Sink) {
    let long = vec![plain(CLASS, 1, b""); 127];
    for (list, path) in [(vec![], 0), (short_path(), 4), (long, 254)] {
        for size in [65_534, 65_535, 65_536] {
            whole(to, &some_message(&link(size - 2 - path, 1)), &list, &[-1, 0]);
        }
        for message in [65_526, 65_527, 65_528, 65_529] {
            let data = link(message - path - 2, 2);
            whole(to, &some_send(&[&[0x4C, 0][..], &data].concat()), &list, &[-1, 0]);
        }
    }
    for size in [65_537, 65_538, 65_540, 69_990, 131_070, 131_072, 131_076] {
        for room in [0, 60, 65_535, 70_000] {
            for head in [some_message(&link(size, 4)), some_send(&link(size, 4))] {
                ask(to, &Request { head, pool: vec![], list: vec![class(1)], room });
            }
        }
    }
}

/// Every room around the size of a record, and the largest.
fn rooms(to: &mut Sink) {
    for head in heads() {
        for list in [vec![], short_path(), vec![plain(SYMBOL, 0, b"Flow1")]] {
            whole(to, &head, &list, &[-70, -40, -20, -9, -4, -3, -2, -1, 0, 1, 2, 3, 8, 255, 256]);
            whole(to, &head, &list, &[65_000, 65_535, 65_536, 70_000]);
        }
    }
}

/// Two troubles at once. Each 11 is of a segment, each 3 of a count, a segment, the path, the whole or a size.
fn order(to: &mut Sink) {
    let pool = link(300, 2);
    let lists: [Vec<Seg>; 7] = [
        vec![class(1)],
        vec![part(SYMBOL, 300, 0)],
        vec![part(SYMBOL, 301, 0)],                                 // 11
        vec![part(PORT, 0, 255)],                                   // 3
        vec![part(PORT, 46, 255)],                                  // 11 before its 3
        [vec![class(1); 127], vec![part(PORT, 9, 999)]].concat(),   // 3 before the segment's 11
        [vec![class(256); 100], vec![part(PORT, 299, 2)]].concat(), // 11 before the path's 3
    ];
    let mut all = heads();
    all.extend([(512, 1), (1, 512), (513, 65_535), (511, 511)].map(|(a, b)| sized_open(a, b)));
    all.extend([some_message(&link(65_534, 1)), some_send(&link(65_536, 1))]);
    for head in all {
        for list in &lists {
            for room in [0, 10, 700] {
                ask(to, &Request { head: head.clone(), pool: pool.clone(), list: list.clone(), room });
            }
        }
    }
}

/// Fields past what a line may say.
fn bad_fields(to: &mut Sink) {
    let mut tried: Vec<Open> = vec![];
    for n in (2..=16).chain([127, 128, 255]) {
        let o = some_open(0);
        tried.extend([Open { large: n, ..o }, Open { direction: n, ..o }, Open { trigger: n, ..o }, Open { class: n, ..o }]);
        for second in [false, true] {
            for field in 0..4 {
                let mut p = if second { o.t_o } else { o.o_t };
                *[&mut p.variable, &mut p.priority, &mut p.kind, &mut p.owner][field] = n;
                tried.push(if second { Open { t_o: p, ..o } } else { Open { o_t: p, ..o } });
            }
        }
        judged(to, default_line(n, 7, 50));
        judged(to, Record { op: 0x19, large: n, input: vec![0; 40] }.line());
    }
    for o in tried {
        ask(to, &Request { head: Head::Open(o), pool: vec![], list: vec![class(1)], room: 60 });
    }
}

/// Rooms and lists past their limits, cut lines, lengths past the end, the longest lines.
fn bad_lines(to: &mut Sink) {
    for head in heads() {
        for room in [69_999, 70_000, 70_001, u32::MAX] {
            judged(to, Request { head: head.clone(), pool: vec![], list: vec![], room }.line());
        }
        for list in [vec![class(1); 401], vec![class(65_536)], [vec![class(1); 128], vec![part(6, 0, 0)]].concat()] {
            judged(to, Request { head: head.clone(), pool: vec![], list, room: 50 }.line());
        }
    }
    for room in [69_999, 70_000, 70_001, u32::MAX] {
        judged(to, default_line(0, 7, room));
    }
    for t in ["15", "150", "1500", "15000", "150000", "15F", "15 f3", "14", "1400", "18", "19", "1900", "1A", "1B"] {
        judged(to, t.as_bytes().to_vec());
    }
    past_the_end(to, &["1000", "130000", "18", "1900", "1901", "1A", "1B"], "00000000");
    let longest = some_message(&link(300_000 - 16, 1));
    for head in [longest, some_message(&link(300_000 - 15, 1)), some_send(&link(300_000 - 17, 1))] {
        judged(to, Request { head, pool: vec![], list: vec![], room: 3 }.line());
    }
}
