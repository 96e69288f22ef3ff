//! Bodies, 30 to 34: what the files below share.

pub mod drawn;
pub mod joins;
pub mod reads;
pub mod writes;

use super::asking::{Case, Sink, Truth};
use crate::ask_crate::bodies::{encoded, join_answer, write_answer, Says, Walked};
use crate::case::bodies::{Ask, Items, Join};
use crate::refused::Beside;

/// Document 01's card, row B1 of docs/DIFFERENCES.md: item 0 has two words.
pub const TWO_WORDS: [u8; 22] = [2, 0, 6, 0, 14, 0, 0x8E, 0, 1, 2, 0, 0, 0, 0, 0x8E, 0, 0, 0, 0, 0, 0x48, 0x42];

/// Document 01's card of a join.
pub const JOIN_FIRST: [u8; 5] = [1, 0, 4, 0, 0xAA];
pub const JOIN_SECOND: [u8; 6] = [1, 0, 4, 0, 0xBB, 0xCC];

/// Rows B1 to B8 of docs/DIFFERENCES.md, and what else the crate's walk does past its edges.
pub const NAMED: [(&str, &[u8]); 17] = [
    ("B1, error 1, document 01's card: item 0 has two words", &TWO_WORDS),
    ("B2, error 1: item 0 failed, with data", &[2, 0, 6, 0, 11, 0, 0x8E, 0, 8, 0, 0x0F, 0x8E, 0, 0, 0]),
    ("B3, error 1: an item of one byte before the next", &[2, 0, 6, 0, 7, 0, 0x8E, 0x8E, 0, 0]),
    ("B4, error 5: the one item is missing", &[1, 0, 4, 0]),
    ("B5: the first offset lies outside", &[1, 0, 0xFF, 0xFF, 0x8E, 0, 0, 0]),
    ("B6: a byte left over behind no item", &[0, 0, 0xAA]),
    ("B7: the table is cut short, and its first offset is no good either", &[2, 0, 6, 0]),
    ("B8: the third offset is not larger", &[3, 0, 8, 0, 12, 0, 12, 0, 0x8E, 0, 0, 0, 0xAA]),
    ("no bytes", &[]),
    ("one byte", &[1]),
    ("a count and no table", &[2, 0]),
    ("half an offset", &[2, 0, 6]),
    ("error 5: the last of two items is missing", &[2, 0, 6, 0, 14, 0, 0x8E, 0, 0, 0, 1, 2, 3, 4]),
    ("equal offsets", &[2, 0, 6, 0, 6, 0, 0x8E, 0, 0, 0, 1, 2, 3, 4]),
    ("the second offset lies outside", &[2, 0, 6, 0, 0xFF, 0, 0x8E, 0, 0, 0, 1, 2, 3, 4]),
    ("item 0 has three bytes", &[2, 0, 6, 0, 9, 0, 0x8E, 0, 0, 0x8E, 0, 0, 0]),
    ("two items of four bytes, and a third offset that is not larger", &[3, 0, 8, 0, 12, 0, 12, 0, 0x8E, 0, 0, 0, 0x8E, 0, 0, 0]),
];

/// A body as it lies: any count, any offsets, and what follows them.
pub fn raw(count: usize, offsets: &[usize], behind: &[u8]) -> Vec<u8> {
    let two = |n: &usize| (*n as u16).to_le_bytes();
    [two(&count).to_vec(), offsets.iter().flat_map(two).collect(), behind.to_vec()].concat()
}

/// What the crate writes of items; for a list that it can't write, nothing.
pub fn body(items: &[Vec<u8>]) -> Vec<u8> {
    encoded(&items.iter().map(|i| &i[..]).collect::<Vec<_>>()).unwrap_or_default()
}

/// So many items of one byte, of which the eighth has so many more.
pub fn ones(n: usize, more: usize) -> Vec<Vec<u8>> {
    (0..n).map(|k| vec![k as u8; if k == 7 { 1 + more } else { 1 }]).collect()
}

/// Replies of every kind that is in the domain: data of several lengths, a word, failures without data.
pub fn replies() -> Vec<Vec<u8>> {
    vec![
        vec![0x8E, 0, 0, 0, 1, 2, 3, 4],
        vec![0xCC, 7, 0, 0],
        vec![0xD4, 0, 1, 1, 4, 2],
        vec![0x8F, 0, 0, 1, 0x55, 0x66, 9],
        vec![0x90, 0xFF, 8, 0],
        vec![0x91, 0, 0, 0, 0xAB],
    ]
}

/// Bodies to be damaged.
pub fn samples() -> Vec<Vec<u8>> {
    let all = replies();
    let mut v = vec![vec![0, 0], JOIN_FIRST.to_vec(), JOIN_SECOND.to_vec(), body(&[vec![0xAA], vec![0xBB, 0xCC]])];
    v.extend(NAMED[..3].iter().map(|(_, b)| b.to_vec()));
    v.extend([body(&all[..1]), body(&all[..2]), body(&all[2..5])]);
    v
}

/// Indices around the number of items, and those that are one of them again in 8, 16 or 32 bits, or doubled in 16, 32
/// or 64.
pub fn indices(n: u64) -> Vec<u64> {
    let mut v = vec![n.wrapping_sub(1), n, n + 1, n + 2, u64::MAX, u64::MAX - 1];
    for bit in [0, 7, 8, 15, 16, 17, 31, 32, 33, 62, 63] {
        let p = 1u64 << bit;
        v.extend([p - 1, p, p + 1, p + n - 1]);
    }
    v.sort_unstable();
    v.dedup();
    v
}

/// How many items the table is said to have.
pub fn count_of(input: &[u8]) -> u64 {
    input.get(..2).map_or(0, |b| u16::from_le_bytes([b[0], b[1]]).into())
}

/// A good line of each operation.
pub fn good_lines() -> Vec<Vec<u8>> {
    let mut v = vec![Items::of(&[vec![0xAA], vec![0xBB, 0xCC]], 10).line()];
    v.extend([Ask::Count, Ask::Item(1), Ask::Reply(1)].map(|a| a.line(&TWO_WORDS)));
    v.push(Join { first: JOIN_FIRST.to_vec(), second: JOIN_SECOND.to_vec(), room: 12 }.line());
    v
}

/// A case of 30: the crate's where it is in the domain and has room, else the judge's.
pub fn ask_write(to: &mut Sink, i: &Items) {
    let truth = match write_answer(i) {
        Ok(line) => Truth::Crate(line),
        Err(Some(beside)) => Truth::Beside(Beside::Body(beside)),
        Err(None) => Truth::Judge,
    };
    to(Case { line: i.line(), truth });
}

/// An input for 31, and for 32 and 33 with each of the indices.
pub fn ask_at(to: &mut Sink, input: &[u8], indices: impl IntoIterator<Item = u64>) {
    let walked = Walked::new(input);
    let mut ask = |a: Ask| {
        let truth = match walked.says(a) {
            Says::Line(line) => Truth::Crate(line),
            Says::Status(s) => Truth::Failed(s),
            Says::Beside(b) => Truth::Beside(Beside::Body(b)),
            Says::Nothing => Truth::Judge,
        };
        to(Case { line: a.line(input), truth });
    };
    ask(Ask::Count);
    for k in indices {
        ask(Ask::Item(k));
        ask(Ask::Reply(k));
    }
}

/// The same with the first index, the last, and one more.
pub fn ask_ends(to: &mut Sink, input: &[u8]) {
    let n = count_of(input);
    let last = n.saturating_sub(1);
    ask_at(to, input, [0, last, n].into_iter().take(if last == 0 { 2 } else { 3 }));
}

/// A case of 34: the crate's where both are in the domain and it has room, else the judge's.
pub fn ask_join(to: &mut Sink, first: &[u8], second: &[u8], room: usize) {
    let j = Join { first: first.to_vec(), second: second.to_vec(), room: room as u32 };
    to(Case { line: j.line(), truth: join_answer(&j).map_or(Truth::Judge, Truth::Crate) });
}

/// Items written into each of the rooms (added to their size), and read back, each by each.
pub fn whole(to: &mut Sink, items: &[Vec<u8>], more: &[i64]) {
    let wire = body(items);
    for m in more {
        ask_write(to, &Items::of(items, (wire.len() as i64 + m).clamp(0, 70_000) as u32));
    }
    ask_at(to, &wire, 0..items.len() as u64);
}
