//! Lines: what is no case, and the freedoms a line has (blanks, letter case, comments), of every operation; and whole inputs.

use super::asking::{judged, past_the_end, Sink};
use super::paths::{self, any_list, scattered};
use super::{bodies, envelopes, frames, nested, replies, requests};
use crate::case::bodies::{Ask, Items, Join};
use crate::case::nested::line as nested_line;
use crate::case::replies::Reply;
use crate::case::requests::Request;
use crate::case::*;
use crate::rng::Rng;

/// Operations that are kept for nothing, so that these cases stay when others land.
const NO_OPERATION: [u8; 12] = [0x00, 0x08, 0x09, 0x0F, 0x16, 0x1F, 0x28, 0x2F, 0x3F, 0x7F, 0x80, 0xFF];

/// A good line of each operation, and of some two.
fn good_lines() -> Vec<Vec<u8>> {
    let of = [
        paths::good_lines,
        requests::good_lines,
        replies::good_lines,
        envelopes::good_lines,
        bodies::good_lines,
        nested::good_lines,
        frames::good_lines,
    ];
    of.into_iter().flat_map(|lines| lines()).collect()
}

/// A segment of 01 given as it stands, without a look at whether it is one.
fn segment_line(kind: u8, number: u32, start: u32, len: u32) -> Vec<u8> {
    Writer { op: 1, pool: vec![0xAB; 3], list: vec![Seg { kind, number, start, len }], room: 0 }.line()
}

pub fn fixed(to: &mut Sink) {
    for good in good_lines() {
        // every front of it: cut fields and odd digits; then something left over
        for n in 1..=good.len() {
            judged(to, good[..n].to_vec());
        }
        for more in [&b"0"[..], b"00", b"A5A5"] {
            judged(to, [&good[..], more].concat());
        }
        // every other character, in the middle and at the end
        for c in (0..=255u8).filter(|c| *c != b'\n') {
            judged(to, [&good[..6], &[c], &good[6..]].concat());
            judged(to, [&good[..], &[c]].concat());
            judged(to, [&good[..6], &[c], &good[7..]].concat());
        }
        judged(to, good.to_ascii_lowercase());
        judged(to, good.iter().flat_map(|c| [b' ', *c, b'\t']).collect());
        for op in NO_OPERATION {
            judged(to, [&digits(&[op])[..], &good[2..]].concat());
        }
    }
    for op in NO_OPERATION {
        judged(to, digits(&[op]));
    }
    // what a kind can't hold
    for kind in 0..=8 {
        for (number, start, len) in [
            (0, 0, 0),
            (1, 0, 0),
            (65_535, 0, 0),
            (65_536, 0, 0),
            (u32::MAX, 0, 0),
            (0, 1, 0),
            (0, 0, 1),
            (1, 1, 1),
            (0x0100_0000, 0, 0),
        ] {
            judged(to, segment_line(kind, number, start, len));
            let s = Seg { kind, number, start, len };
            judged(to, Writer { op: 4, pool: vec![1, 2, 3], list: vec![s; 3], room: 9 }.line());
            // past the list's places a segment has to be one all the same
            let mut list = vec![Seg { kind: CLASS, number: 1, start: 0, len: 0 }; 130];
            list[129] = s;
            judged(to, Writer { op: 2, pool: vec![1, 2, 3], list, room: 0 }.line());
        }
    }
    for count in [399u16, 400, 401, 402, 65_535] {
        let seg = Seg { kind: CLASS, number: 1, start: 0, len: 0 };
        for have in [count.min(500) as usize, count.min(500) as usize - 1] {
            let mut line = Writer { op: 2, pool: vec![], list: vec![seg; have], room: 0 }.line();
            line[10..14].copy_from_slice(&digits(&count.to_le_bytes()));
            judged(to, line);
        }
    }
    for room in [69_999, 70_000, 70_001, 131_072, u32::MAX] {
        judged(to, Writer { op: 3, pool: vec![], list: vec![Seg { kind: CLASS, number: 1, start: 0, len: 0 }], room }.line());
        judged(to, Writer { op: 4, pool: vec![], list: vec![], room }.line());
    }
    past_the_end(to, &["01", "02", "03", "04", "05", "06", "07"], "00000000");
    longest(to);
}

/// Around 600,000 digits, with and without blanks and a comment.
fn longest(to: &mut Sink) {
    let class = [plain(CLASS, 1, b"")];
    let (_, list) = end_to_end(&class);
    // a pool that makes the line exactly as long as a line may be
    let pool = vec![0x5A; 300_000 - 18];
    let full = Writer { op: 1, pool: pool.clone(), list: list.clone(), room: 0 }.line();
    assert_eq!(full.len(), 600_000);
    judged(to, full.clone());
    let input = [0x91, 1, b'A', 0].repeat(75_000);
    for n in [299_995, 299_996, 300_000] {
        for op in 5..=7 {
            judged(to, reader_line(op, &input[..n]));
        }
    }
    judged(to, [&full[..], b"0"].concat());
    judged(to, [&full[..], b"00"].concat());
    judged(to, full[..599_999].to_vec());
    // blanks and comments are not digits
    judged(to, [&b" ".repeat(700_000)[..], &full[..], &b"\t".repeat(10)[..]].concat());
    judged(to, full.iter().flat_map(|c| [b' ', *c]).collect());
    judged(to, [&full[..], &b" ".repeat(1_000_000)[..], b"0"].concat());
    judged(to, [&full[..], b"#", &b"0".repeat(1_000_000)[..]].concat());
    judged(to, [&full[..], &b"# no digit here ".repeat(65_536)[..]].concat());
    judged(to, b"0".repeat(1_200_000));
    judged(to, b"?".repeat(700_000));
    // after all of these a short line is answered as ever
    judged(to, b"0700000000".to_vec());
    // a part at the far end of the longest pool, and just past it
    let end = pool.len() as u32;
    for (start, len) in [(end - 2, 2), (end, 0), (end, 1), (end + 1, 0), (end - 256, 256)] {
        judged(to, Writer { op: 1, pool: pool.clone(), list: vec![Seg { kind: PORT, number: 1, start, len }], room: 0 }.line());
    }
}

/// A line written another way, which asks the same.
fn dressed(rng: &mut Rng, line: &[u8]) -> Vec<u8> {
    let mut v = vec![];
    for c in line {
        if rng.once_in(12) {
            v.extend(std::iter::repeat_n(rng.pick(b" \t"), 1 + rng.below(3) as usize));
        }
        v.push(if rng.once_in(2) { c.to_ascii_lowercase() } else { *c });
    }
    if rng.once_in(2) {
        v.extend(b" # 0G\r any text");
    }
    v
}

pub fn random(rng: &mut Rng, to: &mut Sink) {
    let mut plain = any_list(rng);
    plain.truncate(5);
    let (pool, list) = scattered(rng, &plain);
    let room = rng.below(50) as u32;
    let line = match rng.below(7) {
        0 => Writer { op: rng.pick(&[2, 4]), pool, list, room }.line(),
        1 | 2 => Request { head: requests::drawn::any_head(rng), pool, list, room }.line(),
        3 => {
            let items = bodies::drawn::any_replies(rng);
            let input = bodies::body(&items);
            match rng.below(5) {
                0 => Items::of(&items, room).line(),
                1 => Ask::Count.line(&input),
                2 => Ask::Item(rng.below(8)).line(&input),
                3 => Ask::Reply(rng.below(8)).line(&input),
                _ => Join { first: input, second: bodies::JOIN_SECOND.to_vec(), room }.line(),
            }
        }
        4 => nested_line(&nested::wire(&nested::drawn::any_tree(rng, 3))),
        5 => frames::drawn::any_call(rng).line(),
        _ => {
            let f = replies::drawn::any_forward(rng);
            match rng.below(4) {
                0 => f.line(room),
                op => Reply { op: 0x1F + op as u8, routing: rng.below(2) as u8, input: f.wire(0, 0) }.line(),
            }
        }
    };
    let at = rng.below(line.len() as u64) as usize;
    judged(
        to,
        match rng.below(8) {
            0..=2 => dressed(rng, &line),
            3 => line[..at.max(1)].to_vec(),
            4 => [&line[..], &digits(&rng.bytes(1))[..]].concat(),
            5 => {
                // a digit changed: mostly another case, sometimes none
                let mut l = line.clone();
                l[at.max(2)] = rng.pick(b"0123456789ABCDEF");
                l
            }
            6 => {
                let mut l = line.clone();
                l.remove(at);
                // of an operation that stands
                if l[..2] == line[..2] {
                    l
                } else {
                    line
                }
            }
            _ => {
                let mut l = line.clone();
                l[at] = rng.pick(b"GgxX-+.,\r\0\x0B\x0C\x7F\x80\xFF");
                l
            }
        },
    );
}

/// Whole inputs, each given to a fresh run of the program: lines that have no answer, ends of input.
pub fn whole_inputs() -> Vec<Vec<u8>> {
    let good = good_lines();
    let line = &good[4][..];
    let other = &good[1][..];
    let mut v: Vec<Vec<u8>> = vec![
        b"".to_vec(),
        b"\n".to_vec(),
        b"\n\n\n".to_vec(),
        b"# only a comment".to_vec(),
        b"# only a comment\n".to_vec(),
        b" \t \n\t\n #\n".to_vec(),
        b"\r".to_vec(),
        b"\r\n".to_vec(),
        b"#\r\n".to_vec(),
        b" \r\n".to_vec(),
        b"\0".to_vec(),
        b"0".to_vec(),
        b"07".to_vec(),
        b"0700000000".to_vec(),
        b"0700000000 #".to_vec(),
        b"0700000000\n#".to_vec(),
        b"0700000000\n ".to_vec(),
        b"0700000000\r\n0700000000\n".to_vec(),
        b"#0700000000\n0700000000#0700000000\n".to_vec(),
        b"# a\n\n0700000000\n\n# b\n0700000000 # c\n\n".to_vec(),
        b"0700\n000000\n".to_vec(),
        [line, b"\n", other].concat(),
        [line, b"\n", other, b"\n"].concat(),
        [line, b"\n\n#\n", other, b"\nbad\n", line].concat(),
        good.join(&b'\n'),
        good.join(&b"\n# between\n\t\n"[..]),
        // long lines that have no answer, or are bad, leave the next one alone
        [&b"#".repeat(1_048_576)[..], b"\n", line, b"\n"].concat(),
        [&b" ".repeat(1_048_576)[..], b"\n", line, b"\n"].concat(),
        [&b" ".repeat(1_048_576)[..], line].concat(),
        [&b"0".repeat(600_001)[..], b"\n", line, b"\n"].concat(),
        [&b"0".repeat(600_002)[..], b"\n", line].concat(),
        [&b"0".repeat(2_000_000)[..], b"#\n", line].concat(),
        [&b"0 ".repeat(600_002)[..], b"\n", line].concat(),
        [&b"!".repeat(2_000_000)[..], b"\n", line].concat(),
        b"0".repeat(600_002),
    ];
    // lines that end around the places where a program's buffers end
    for size in [255, 256, 4_095, 4_096, 4_097, 8_192, 65_535, 65_536, 65_537, 131_072] {
        let pad = b" ".repeat(size - 11);
        v.push([&b"0700000000"[..], &pad, b"\n0700000000\n"].concat());
        v.push([&b"# "[..], &pad, b"        \n0700000000"].concat());
        v.push([&b"0700000000\n".repeat(size / 11 + 2)[..], line].concat());
    }
    v
}
