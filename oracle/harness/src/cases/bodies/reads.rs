//! Operations 31 to 33 on inputs of every kind: good bodies, with one thing changed, with two, offsets around every
//! rule, every index, and the longest.

use super::*;
use crate::cases::asking::{judged, past_the_end};
use crate::cases::bytes::{edges, every_change, every_pair, link, Fault};

pub fn fixed(to: &mut Sink) {
    for (_, input) in NAMED {
        ask_at(to, input, 0..count_of(input) + 2);
    }
    short(to);
    for good in samples() {
        every_change(&good, |d| ask_ends(to, d));
        for more in [&[0][..], &[0xFF], &[0, 0], &[0x8E, 0, 0, 0]] {
            ask_ends(to, &[&good[..], more].concat());
        }
        every_pair(&faults(&good), &good, |d| ask_ends(to, d));
        ask_at(to, &good, indices(count_of(&good)));
    }
    counts(to);
    offsets(to);
    replies_of_items(to);
    long(to);
    many(to);
    bad_lines(to);
}

/// Every input of up to one byte, every count alone, and one item with every offset.
fn short(to: &mut Sink) {
    ask_at(to, &[], [0, 1]);
    for a in 0..=255 {
        ask_at(to, &[a], [0]);
    }
    for n in 0..=65_535 {
        ask_at(to, &raw(n, &[], &[]), []);
        ask_at(to, &raw(1, &[n], &[0x8E, 0, 0, 0, 7]), []);
    }
    for n in 0..40 {
        for byte in [0, 1, 2, 0xFF] {
            ask_ends(to, &vec![byte; n]);
        }
    }
}

/// What can be wrong with a body: its table, its end, and the first bytes of its first and last item.
pub fn faults(good: &[u8]) -> Vec<Fault> {
    use Fault::*;
    let n = count_of(good) as usize;
    let (first, end) = (2 + 2 * n, good.len());
    // the low byte of a number at a place
    let set = |at: usize, n: usize| Set(at, n as u8);
    let mut v = vec![Cut(end), Cut(end - 1), Cut(1), Cut(2), Cut(3), Cut(end - 2), More];
    v.extend([0, 1, 2, 3, n + 1, n.saturating_sub(1)].map(|count| set(0, count)));
    v.extend([Set(1, 1), Set(1, 0x80), Set(3, 1), Set(2, 0), set(2, first - 1), set(2, first + 1)]);
    if n > 0 {
        let last = 2 * n;
        v.extend([Cut(end - last), Cut(end - last - 1), Cut(end - first), Set(last + 1, 1)]);
        v.extend([first, first - 1, end - 1, end, end + 1].map(|offset| set(last, offset)));
        v.extend([0, 1, 2, 128].map(|words| Set(first + 3, words)));
        v.push(Set(first + 2, 8));
    }
    v
}

/// Every count before a table that is long enough for a few of them, and for none.
fn counts(to: &mut Sink) {
    for n in 0..=260usize {
        for table in [n, n + 1, n.saturating_sub(1), 2, 0] {
            let first = 2 + 2 * n;
            let offsets: Vec<usize> = (0..table).map(|k| first + k).collect();
            ask_ends(to, &raw(n, &offsets, &link(n, 3)));
            ask_ends(to, &raw(n, &offsets, &[]));
        }
    }
    for n in edges(65_535) {
        for first in [0, 2, 2 + 2 * n as usize, 65_534] {
            ask_at(to, &raw(n as usize, &[first], &link(30, 1)), [0]);
        }
    }
}

/// Offsets around every rule: one off the first, equal, falling, at the end and around it; each with a table cut behind
/// it.
fn offsets(to: &mut Sink) {
    for len in 6..=12 {
        for a in 0..=13 {
            for b in 0..=13 {
                ask_ends(to, &raw(2, &[a, b], &link(len - 6, 1)));
            }
        }
    }
    for len in 8..=14 {
        for a in 7..=9 {
            for b in 6..=14 {
                for c in 6..=15 {
                    ask_at(to, &raw(3, &[a, b, c], &link(len - 8, 1)), [2]);
                }
            }
        }
    }
    let good: Vec<usize> = (0..6).map(|k| 14 + 4 * k).collect();
    for at in 0..6 {
        let near = |k: usize| [good[k] - 1, good[k], good[k] + 1];
        let others = [0, 1, 2, 13, 14, 15, 36, 37, 38, 39, 255, 256, 270, 0x0E00, 0x7FFF, 0x8000, 0xFFFF];
        for offset in near(at).into_iter().chain(near(at.saturating_sub(1))).chain(near((at + 1).min(5))).chain(others) {
            let mut table = good.clone();
            table[at] = offset;
            for behind in [24, 22, 21, 20, 0] {
                ask_at(to, &raw(6, &table, &link(behind, 2)), [0, at as u64, 5]);
            }
            // the table is cut: what stands before the cut is judged, and a later fault is not
            for cut in 2..=12 {
                ask_at(to, &raw(6, &table, &[])[..cut + 2], []);
            }
        }
    }
}

/// Items of every length from 1 to 10 before and behind others, with 0, 1, 2 and 128 words, failed or not; each item's
/// header is judged by itself.
fn replies_of_items(to: &mut Sink) {
    for len in 1..=10 {
        for words in [0, 1, 2, 3, 127, 128, 129, 255] {
            for general in [0, 8] {
                let mut item = [0x8E, 0, general, words, 4, 2, 7, 8, 9, 10][..len].to_vec();
                for all in
                    [vec![item.clone()], vec![item.clone(), vec![0xCC, 0, 0, 0, 5]], vec![vec![0xCC, 0, 0, 0, 5], item.clone()]]
                {
                    ask_at(to, &body(&all), 0..all.len() as u64 + 1);
                }
                // with all the words that it counts
                item.resize(4 + 2 * usize::from(words), 0x33);
                ask_at(to, &body(&[item.clone(), vec![0xCC, 0, 0, 0, 5]]), 0..2);
                item.pop();
                ask_at(to, &body(&[item, vec![0xCC, 0, 0, 0, 5]]), 0..2);
            }
        }
    }
    for n in 0..=255 {
        let failed = [vec![0x8E, 0, n, 0], vec![n, !n, n, 1, !n, n], vec![0x8E, n, 0, 0, n]];
        ask_at(to, &body(&failed), 0..3);
        ask_at(to, &body(&vec![vec![n, 0, 0, 0]; 1 + n as usize]), [0, 1, u64::from(n) / 2, u64::from(n)]);
    }
    // items whose data passes every 256 bytes
    for n in [0, 1, 250, 251, 252, 255, 256, 257, 500, 65_000] {
        let item = |salt| [vec![0x8E, 0, 0, 0], link(n, salt)].concat();
        let all: Vec<Vec<u8>> = if n < 1_000 { (1..=4).map(item).collect() } else { vec![vec![0xCC, 0, 8, 0], item(1)] };
        ask_at(to, &body(&all), 0..all.len() as u64);
    }
}

/// Whole inputs around the limit, which comes before everything else; past it, lengths that are short again in 16 bits.
fn long(to: &mut Sink) {
    for size in [65_534, 65_535, 65_536, 65_537] {
        for table in [
            raw(1, &[4], &[]),
            raw(2, &[6, 10], &[]),
            raw(2, &[6, 65_533], &[]),
            raw(2, &[6, 65_534], &[]),
            raw(2, &[6, 65_535], &[]),
            raw(1, &[5], &[]),
            raw(0, &[], &[]),
        ] {
            let mut d = table;
            d.resize(size, 0);
            ask_at(to, &d, [count_of(&d).saturating_sub(1)]);
        }
    }
    for good in samples().iter().step_by(3) {
        ask_at(to, &[&good[..], &vec![0; 65_536]].concat(), [0]);
    }
}

/// 20,000 items in 65,535 bytes; 21,844, the most that fit; tables that fill a whole body, and counts whose table's end
/// is small again in 16 bits.
fn many(to: &mut Sink) {
    for (n, more) in [(20_000, 5_533), (21_844, 0), (21_844, 1)] {
        let mut items = ones(n, 0);
        items[0].resize(1 + more, 0);
        let good = body(&items);
        let n = count_of(&good);
        ask_at(to, &good, [0, 256, n / 2, n - 2, n - 1, n, 65_536]);
        let mut last = good.clone();
        let at = 2 * n as usize;
        // the last offset is the one before it, or the length
        last.copy_within(at - 2..at, at);
        ask_at(to, &last, [0]);
        last[at..at + 2].copy_from_slice(&(good.len() as u16).to_le_bytes());
        ask_at(to, &last, [n - 1]);
        ask_at(to, &good[..at + 1], [0]);
    }
    // replies of four bytes, every one a success
    let four = body(&(0..10_922).map(|k| vec![k as u8, 0, 0, 0]).collect::<Vec<_>>());
    ask_at(to, &four, [0, 5_000, 10_921, 10_922]);
    for n in [32_765, 32_766, 32_767, 32_768, 32_769, 65_535] {
        for first in [2 + 2 * n, 0] {
            for len in [65_534, 65_535] {
                let offsets: Vec<usize> = (0..n).map(|k| first + k).collect();
                let mut d = raw(n, &offsets, &[]);
                d.resize(len, 0);
                ask_at(to, &d, [0]);
            }
        }
    }
}

fn bad_lines(to: &mut Sink) {
    for op in [31, 32, 33] {
        for t in ["", "00", "00000000", "0000000000000000", "000000000000000000000000", "00000000000000000000000000"] {
            judged(to, format!("{op}{t}").into_bytes());
        }
    }
    past_the_end(to, &["31", "32", "33"], "0000000000000000");
    for n in [299_986, 299_987, 299_988, 299_994, 299_995, 299_996] {
        for ask in [Ask::Count, Ask::Item(0), Ask::Reply(1)] {
            judged(to, ask.line(&vec![0; n]));
        }
    }
}
