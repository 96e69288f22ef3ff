//! Operations 23 to 25 and 27: fields, limits, rooms, which refusal comes first, and lines that are no case.

use super::*;
use crate::cases::asking::{judged, past_the_end};
use crate::cases::bytes::link;

pub fn fixed(to: &mut Sink) {
    services(to);
    data_lengths(to);
    rooms(to);
    failure_fields(to);
    order(to);
    routing_errors(to);
    bad_fields(to);
    bad_lines(to);
}

fn services(to: &mut Sink) {
    for service in 0..=255 {
        for f in forwards() {
            whole(to, &Forward { service, ..f }, &[0]);
        }
    }
}

/// Every length of application data around its limit, odd and even, with room, with too little, and with the most.
fn data_lengths(to: &mut Sink) {
    let past = [513, 514, 1_020, 1_021, 1_024, 65_534, 65_535, 65_536, 65_537, 66_046, 131_072];
    for n in (0..=512).chain(past) {
        for f in [some_open(&link(n, 1)), some_close(&link(n, 1))] {
            if n <= 510 && n % 2 == 0 {
                whole(to, &f, &[-1, 0, 1]);
            }
            let rooms: &[u32] = if n < 600 { &[0, 29, 600] } else { &[0, 600, 70_000] };
            for room in rooms {
                ask_write(to, &f, *room);
            }
        }
    }
}

/// Every room around the size of a reply, and the largest.
fn rooms(to: &mut Sink) {
    for f in forwards() {
        for room in 0..50 {
            ask_write(to, &f, room);
        }
        whole(to, &f, &[-9, -4, -3, -2, -1, 0, 1, 2, 3, 8, 255, 256, 65_000, 65_536, 69_900]);
    }
}

/// Every general status, with and without a word and a remaining size; what is read and not used; 0 is refused.
fn failure_fields(to: &mut Sink) {
    for general in 0..=255 {
        for (words, word) in [(0, 0), (0, 0x0204), (0, 0xFFFF), (1, 0), (1, 0x0204), (1, 0x0315), (1, 0xA1B2)] {
            for (flag, remaining) in [(0, 0), (0, 9), (0, 255), (1, 0), (1, 9), (1, 255)] {
                let f = Forward {
                    service: 0xCE,
                    status: Status { general, words, word },
                    body: Body::Failure { ids: some_ids(), flag, remaining },
                };
                let size = 12 + 2 * u32::from(words) + u32::from(flag);
                for room in [size, size - 1, size + 2] {
                    ask_write(to, &f, room);
                }
            }
        }
    }
    for n in 0..=255 {
        let body = Body::Failure { ids: some_ids(), flag: 1, remaining: n };
        whole(to, &Forward { body, ..some_failure(4, None) }, &[0]);
    }
}

/// Too long and odd and no room; no failure and no room.
fn order(to: &mut Sink) {
    for n in [0, 1, 2, 509, 510, 511, 512, 513] {
        for f in [some_open(&link(n, 2)), some_close(&link(n, 2))] {
            for room in [0, 13, 14, 15, 29, 30, 31, 523, 524, 525, 539, 540, 541, 700] {
                ask_write(to, &f, room);
            }
        }
    }
    for word in [None, Some(0), Some(0x0204)] {
        let f = with(some_failure(2, None), status(0, word));
        for room in [0, 1, 11, 12, 13, 14, 15, 70_000] {
            ask_write(to, &f, room);
        }
    }
}

/// Every general status without a word, whatever stands there; every word behind 0 to 5; some behind the others.
fn routing_errors(to: &mut Sink) {
    let telling = [0, 1, 0x0203, 0x0204, 0x0205, 0x0304, 0x0310, 0x0311, 0x0312, 0x0313, 0x0315, 0x0402, 0x1103, 0xFFFF];
    for general in 0..=255 {
        for word in telling {
            ask_routing(to, &Status { general, words: 0, word });
            ask_routing(to, &Status { general, words: 1, word });
        }
    }
    for general in 0..=5 {
        for word in 0..=65_535 {
            ask_routing(to, &Status { general, words: 1, word });
        }
    }
}

/// Fields past what a line may say.
fn bad_fields(to: &mut Sink) {
    for n in (2..=16).chain([127, 128, 254, 255]) {
        judged(to, routing_line(&Status { general: 2, words: n, word: 0x0204 }));
        for op in [0x21, 0x22] {
            for f in forwards() {
                judged(to, Reply { op, routing: n, input: f.wire(0, 0) }.line());
            }
            judged(to, Reply { op, routing: n, input: vec![] }.line());
        }
        // a general status 0 and no room are not looked at in what is no case
        for general in [0, 1, 8] {
            for room in [0, 40] {
                let base = some_failure(1, Some(0x0204));
                judged(to, with(base.clone(), Status { general, words: n, word: 0 }).line(room));
                let body = Body::Failure { ids: some_ids(), flag: n, remaining: 3 };
                judged(to, Forward { body, ..with(base, status(general, None)) }.line(room));
            }
        }
    }
}

/// Rooms past the limit, cut lines, lengths past the end, the longest lines.
fn bad_lines(to: &mut Sink) {
    for f in forwards() {
        for room in [69_999, 70_000, 70_001, u32::MAX] {
            judged(to, f.line(room));
        }
    }
    // what is refused is no case all the same where its room is none
    judged(to, some_open(&link(511, 1)).line(70_001));
    judged(to, some_failure(0, None).line(70_001));
    for t in ["20", "21", "2100", "22", "23", "24", "25", "26", "27", "2700", "270000", "27000000", "2700000000", "270000000000"]
    {
        judged(to, t.as_bytes().to_vec());
    }
    past_the_end(to, &["20", "2100", "2101", "2200", "2201", "26", "24CE3412785678563412"], "00000000");
    for n in [299_994, 299_995, 299_996] {
        for op in [0x20, 0x21, 0x22, 0x26] {
            judged(to, Reply { op, routing: 0, input: vec![0; n] }.line());
        }
    }
    for f in [some_open(&link(299_966, 1)), some_open(&link(299_967, 1)), some_close(&link(299_982, 1))] {
        judged(to, f.line(3));
    }
}
