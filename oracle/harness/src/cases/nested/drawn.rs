//! Nested messages by chance: trees as the crate writes them, now and then too deep, and damaged copies.

use super::reads::near_paths;
use super::*;
use crate::case::nested::{manager, router};
use crate::cases::bytes::damaged;
use crate::cases::paths::any_segment;
use crate::cases::requests::drawn::any_path;
use crate::rng::Rng;

/// Mostly a few segments, often just those of what is opened, or nearly.
fn path(rng: &mut Rng) -> Vec<Plain> {
    match rng.below(12) {
        0 => router(),
        1 => manager(),
        2 => {
            let mut p = if rng.once_in(2) { router() } else { manager() };
            p.insert(rng.below(3) as usize, any_segment(rng));
            p
        }
        3 => any_path(rng),
        _ => (0..rng.below(4)).map(|_| plain(1 + rng.below(4) as u8, rng.below(12) as u32, b"")).collect(),
    }
}

fn data(rng: &mut Rng) -> Vec<u8> {
    let n = match rng.below(2_000) {
        0 => rng.below(3_000),
        1..=40 => rng.below(300),
        _ => rng.below(7),
    };
    rng.bytes(n as usize)
}

/// One that is not opened: where it would be, with the reply bit.
fn leaf(rng: &mut Rng) -> Message {
    let (path, data) = (path(rng), data(rng));
    let service = if rng.once_in(3) { rng.pick(&[0x0A, 0x52]) } else { rng.byte() };
    let opened = service == 0x0A && path == router() || service == 0x52 && path == manager();
    Message::Plain { service: if opened { service | 0x80 } else { service }, path, data }
}

fn any_count(rng: &mut Rng) -> u64 {
    match rng.below(200) {
        0 => rng.below(60),
        1..=10 => rng.below(10),
        _ => rng.below(4),
    }
}

/// A tree that goes at most so much deeper.
pub fn any_tree(rng: &mut Rng, deeper: u64) -> Message {
    match rng.below(5) {
        0 | 1 if deeper > 0 => Message::Packet((0..any_count(rng)).map(|_| any_tree(rng, deeper - 1)).collect()),
        2 | 3 if deeper > 0 => any_send(rng, deeper),
        // an empty packet holds nothing that could be too deep
        4 if rng.once_in(3) => Message::Packet(vec![]),
        _ => leaf(rng),
    }
}

fn any_send(rng: &mut Rng, deeper: u64) -> Message {
    let route = if rng.once_in(4) { path(rng) } else { (0..rng.below(3)).map(|k| plain(PORT, 1 + k as u32, &[0])).collect() };
    Message::Send { prio: rng.below(16) as u8, ticks: rng.byte(), message: Box::new(any_tree(rng, deeper - 1)), route }
}

/// The outermost one holds others, mostly.
fn whole(rng: &mut Rng) -> Message {
    let deeper = if rng.once_in(25) { 4 + rng.below(2) } else { 3 };
    match rng.below(10) {
        0 => any_tree(rng, deeper),
        1..=4 => any_send(rng, deeper),
        _ => Message::Packet((0..1 + any_count(rng)).map(|_| any_tree(rng, deeper - 1)).collect()),
    }
}

/// A tree of the crate's domain, mostly.
pub fn random(rng: &mut Rng, to: &mut Sink) {
    let tree = whole(rng);
    ask_tree(to, &tree);
}

/// A damaged copy, alone or within others; now and then one of several messages is refused, or a path nearly opened.
pub fn random_read(rng: &mut Rng, to: &mut Sink) {
    let tree = whole(rng);
    let good = wire(&tree);
    let input = match rng.below(8) {
        0 => {
            let mut items: Vec<Vec<u8>> = (0..1 + rng.below(4)).map(|_| wire(&any_tree(rng, 2))).collect();
            for _ in 0..1 + rng.below(2) {
                let at = rng.below(items.len() as u64) as usize;
                let all = refused();
                items[at] = all[rng.below(all.len() as u64) as usize].clone();
            }
            packet(&items)
        }
        1 => {
            let all = near_paths();
            let path = &all[rng.below(all.len() as u64) as usize];
            let inner = message(rng.pick(&[0x0A, 0x52]), path, good.get(6..).unwrap_or_default());
            if rng.once_in(2) {
                packet(&[inner])
            } else {
                inner
            }
        }
        2 | 3 => {
            let wrap = rng.pick(&[In::Packet, In::Three, In::Send]);
            within(&[wrap], &damaged(rng, &good))
        }
        _ => damaged(rng, &good),
    };
    ask(to, &input);
}
