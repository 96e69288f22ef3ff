//! Bodies by chance: written, read back, every reply asked, joined; damaged copies; spoilt ones.

use super::reads::faults;
use super::*;
use crate::cases::bytes::{damaged, number, put_any};
use crate::rng::Rng;

/// Mostly a few; seldom so many, or so long, that offsets have two bytes.
fn any_count(rng: &mut Rng) -> u64 {
    match rng.below(100) {
        0 => rng.below(150),
        1..=8 => rng.below(20),
        _ => rng.below(6),
    }
}

fn any_length(rng: &mut Rng) -> u64 {
    match rng.below(200) {
        0 => rng.below(600),
        1..=10 => rng.below(40),
        _ => rng.below(8),
    }
}

/// Items of any bytes, none of them empty.
fn any_items(rng: &mut Rng) -> Vec<Vec<u8>> {
    let any = |rng: &mut Rng| {
        let n = 1 + any_length(rng);
        rng.bytes(n as usize)
    };
    (0..any_count(rng)).map(|_| any(rng)).collect()
}

/// A reply of the domain: a failed one has no data.
fn any_reply(rng: &mut Rng) -> Vec<u8> {
    let failed = rng.once_in(4);
    let general = if failed { 1 + rng.below(255) as u8 } else { 0 };
    let words = if failed { rng.below(2) } else { u64::from(rng.once_in(6)) };
    let mut b = vec![rng.byte(), rng.byte(), general, words as u8];
    if words == 1 {
        b.extend((number(rng, 16) as u16).to_le_bytes());
    }
    if !failed {
        let n = any_length(rng);
        b.extend(rng.bytes(n as usize));
    }
    b
}

pub fn any_replies(rng: &mut Rng) -> Vec<Vec<u8>> {
    (0..any_count(rng)).map(|_| any_reply(rng)).collect()
}

/// Items of any bytes written, into a room that fits, mostly, and with some bytes to spare.
pub fn random_write(rng: &mut Rng, to: &mut Sink) {
    let items = any_items(rng);
    write(rng, to, &items);
}

fn write(rng: &mut Rng, to: &mut Sink, items: &[Vec<u8>]) {
    let size = 2 + items.iter().map(|i| 2 + i.len() as u64).sum::<u64>();
    let room = match rng.below(16) {
        0 => size.saturating_sub(1 + rng.below(4)),
        1..=3 => size + rng.below(30),
        4 => rng.below(60),
        _ => size,
    };
    let mut i = Items::of(items, room as u32);
    if rng.once_in(4) {
        let spare = rng.below(5) as usize;
        i.lent.extend(rng.bytes(spare));
    }
    ask_write(to, &i);
}

/// Replies of the domain: every other list is written; every reply and every item asked; now and then joined with
/// others, on either side.
pub fn random(rng: &mut Rng, to: &mut Sink) {
    let mut items = any_replies(rng);
    if rng.once_in(2) {
        write(rng, to, &items);
    }
    if rng.once_in(16) && !items.is_empty() {
        // an item past the domain: those before it are in it still
        let at = rng.below(items.len() as u64) as usize;
        let n = 1 + any_length(rng);
        items[at] = rng.bytes(n as usize);
    }
    let wire = body(&items);
    ask_at(to, &wire, 0..items.len() as u64);
    if rng.once_in(3) {
        let other = if rng.once_in(2) { any_items(rng) } else { any_replies(rng) };
        let other = body(&other);
        let size = wire.len() + other.len() - 2;
        let room = rng.pick(&[size, size, size, size - 1, size + 3, 0]);
        if rng.once_in(2) {
            ask_join(to, &wire, &other, room);
        } else {
            ask_join(to, &other, &wire, room);
        }
    }
}

/// A damaged copy, read at some index; now and then joined.
pub fn random_read(rng: &mut Rng, to: &mut Sink) {
    let items = if rng.once_in(2) { any_items(rng) } else { any_replies(rng) };
    let good = body(&items);
    let mut input = good.clone();
    match rng.below(8) {
        0 | 1 => put_any(rng, &faults(&good), &mut input),
        2..=4 if !items.is_empty() => {
            // an offset, close to what it should be
            let at = 2 + 2 * rng.below(items.len() as u64) as usize;
            let offset = u16::from_le_bytes([good[at], good[at + 1]]);
            let near = offset.wrapping_add(rng.pick(&[1, 2, 4, 255, 256, 65_280, 65_535, 65_534]));
            input[at..at + 2].copy_from_slice(&near.to_le_bytes());
        }
        5 => {
            let n = rng.below(12) as usize;
            input = [raw(rng.below(4) as usize, &[], &[]), rng.bytes(n).iter().map(|b| b % 16 * (b / 16 % 2)).collect()].concat();
        }
        _ => input = damaged(rng, &good),
    }
    let n = count_of(&input);
    let index = match rng.below(4) {
        0 => rng.pick(&[n.wrapping_sub(1), n, n + 1, 1 << 32, u64::MAX]),
        _ => rng.below(n.clamp(1, 100)),
    };
    if rng.once_in(4) {
        let (a, b) = if rng.once_in(2) { (&input, &good) } else { (&good, &input) };
        ask_join(to, a, b, rng.pick(&[0, 40, 400]));
    }
    ask_at(to, &input, [index]);
}

/// What the writer refuses, and a room that may be too small as well.
pub fn random_refusal(rng: &mut Rng, to: &mut Sink) {
    let mut i = Items::of(&any_items(rng), rng.pick(&[0, 2, 10, 40, 400]));
    for _ in 0..1 + rng.below(2) {
        let spoilt = match rng.below(4) {
            0 | 1 => 0,
            2 => 1 + rng.below(9),
            _ => rng.any() >> rng.below(64),
        };
        let at = rng.below(i.lengths.len() as u64 + 1) as usize;
        if at < i.lengths.len() && rng.once_in(2) {
            i.lengths[at] = spoilt;
        } else {
            i.lengths.insert(at, spoilt);
        }
    }
    ask_write(to, &i);
}
