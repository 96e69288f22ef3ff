//! Requests by chance: records of the crate's domain, spoilt ones, damaged copies.

use super::*;
use crate::ask_crate::paths::list as path_written;
use crate::cases::bytes::{damaged, number};
use crate::cases::paths::{any_segment, class, part, scattered};
use crate::rng::Rng;

/// Seldom with a reserved bit.
fn prio(rng: &mut Rng) -> u8 {
    if rng.once_in(8) {
        rng.byte()
    } else {
        rng.below(16) as u8
    }
}

fn par(rng: &mut Rng, large: u8) -> Par {
    let size = number(rng, if large == 1 { 16 } else { 9 }) as u16;
    let mut below = |n| rng.below(n) as u8;
    Par { size, variable: below(2), priority: below(4), kind: below(3), owner: below(2) }
}

fn any_open(rng: &mut Rng) -> Open {
    let large = rng.below(2) as u8;
    Open {
        large,
        prio: prio(rng),
        ticks: rng.byte(),
        o_t_id: number(rng, 32),
        t_o_id: number(rng, 32),
        serial: number(rng, 16) as u16,
        vendor: number(rng, 16) as u16,
        originator: number(rng, 32),
        multiplier: rng.byte(),
        o_t_rpi: number(rng, 32),
        o_t: par(rng, large),
        t_o_rpi: number(rng, 32),
        t_o: par(rng, large),
        direction: rng.below(2) as u8,
        trigger: rng.below(3) as u8,
        class: rng.below(7) as u8,
    }
}

fn any_close(rng: &mut Rng) -> Close {
    let (prio, ticks) = (prio(rng), rng.byte());
    Close { prio, ticks, serial: number(rng, 16) as u16, vendor: number(rng, 16) as u16, originator: number(rng, 32) }
}

fn any_data(rng: &mut Rng) -> Vec<u8> {
    let n = match rng.below(30_000) {
        0 => 65_000 + rng.below(600),
        1..=60 => rng.below(2_000),
        61..=1_000 => rng.below(300),
        _ => rng.below(9),
    };
    rng.bytes(n as usize)
}

/// For an Unconnected Send: mostly what the crate writes as a message, else its layout with any path, else any bytes.
fn any_message(rng: &mut Rng) -> Vec<u8> {
    let (service, data) = (rng.byte(), any_data(rng));
    match rng.below(20) {
        0 => rng.bytes(service as usize % 6),
        1 | 2 => {
            let words = rng.below(if data.is_empty() { 128 } else { 5 }) as u8;
            let path = rng.bytes(2 * words as usize);
            [vec![service, words], path, data].concat()
        }
        _ => {
            let list = any_path(rng);
            written(&Head::Message { service, data }, &list)
        }
    }
}

pub fn any_head(rng: &mut Rng) -> Head {
    match rng.below(4) {
        0 => Head::Message { service: rng.byte(), data: any_data(rng) },
        1 => Head::Open(any_open(rng)),
        2 => Head::Close(any_close(rng)),
        _ => Head::Send { prio: prio(rng), ticks: rng.byte(), message: any_message(rng) },
    }
}

/// Mostly a few segments; now and then around 254 bytes, of small segments or of one that fills up.
pub fn any_path(rng: &mut Rng) -> Vec<Plain> {
    let mut list: Vec<Plain> = (0..rng.below(5)).map(|_| any_segment(rng)).collect();
    if rng.once_in(40) {
        let small = |rng: &mut Rng| plain(rng.pick(&[CLASS, INSTANCE, ATTRIBUTE, ELEMENT]), rng.below(256) as u32, b"");
        let target = 248 + 2 * rng.below(6);
        let have = path_written(&list).and_then(Result::ok).map_or(0, |b| b.len() as u64);
        let missing = target.saturating_sub(have);
        if rng.once_in(2) {
            list.extend((0..missing / 2).map(|_| small(rng)));
        } else if missing > 2 {
            let text = vec![b'a' + rng.below(26) as u8; (missing - 2 - rng.below(2)) as usize];
            list.insert(rng.below(list.len() as u64 + 1) as usize, plain(SYMBOL, 0, &text));
        }
    }
    list
}

/// A record in the crate's domain, mostly; every other one is read back.
pub fn random(rng: &mut Rng, to: &mut Sink) {
    let (head, list) = (any_head(rng), any_path(rng));
    let lent = scattered(rng, &list);
    let more = match rng.below(40) {
        0..=3 => -1,
        4..=7 => 1,
        8 => -(rng.below(60) as i64),
        9 => rng.below(60) as i64,
        _ => 0,
    };
    let back = rng.once_in(2);
    over(to, &head, &list, lent, &[more], back);
}

pub fn random_default(rng: &mut Rng, to: &mut Sink) {
    let large = rng.below(2) as u8;
    ask_default(to, large, number(rng, 16) as u16, 38 + rng.below(16) as u32);
}

/// One or two things that a writer refuses, and a room that may be too small as well.
pub fn random_refusal(rng: &mut Rng, to: &mut Sink) {
    let (mut head, list) = (any_head(rng), any_path(rng));
    let (mut pool, mut segs) = scattered(rng, &list);
    for _ in 0..=rng.below(2) {
        let at = rng.below(segs.len() as u64 + 1) as usize;
        let end = pool.len() as u32;
        let kind = rng.pick(&[SYMBOL, PORT]);
        match rng.below(6) {
            0 => segs.insert(at, part(kind, end + 1, 0)),
            1 => segs.insert(at, part(kind, rng.below(3) as u32, rng.pick(&[254, 255, 256, u32::MAX]))),
            2 => segs.extend(vec![class(rng.below(256) as u32); 120 + rng.below(9) as usize]),
            3 => pool.extend(rng.bytes(260)),
            _ => match &mut head {
                Head::Open(o) if rng.once_in(2) => o.o_t.size = number(rng, 16) as u16,
                Head::Open(o) => o.t_o.size = number(rng, 16) as u16,
                // around the limit on the whole, but seldom: the lines are long
                Head::Message { data, .. } | Head::Send { message: data, .. } if rng.once_in(400) => {
                    data.resize(65_500 + rng.below(60) as usize, 0)
                }
                _ => segs.insert(at, part(kind, end, 0)),
            },
        }
    }
    ask(to, &Request { head, pool, list: segs, room: rng.below(90) as u32 });
}

/// A damaged copy of what the crate wrote for its reader, seldom for another one; or a few bytes of any kind.
pub fn random_read(rng: &mut Rng, to: &mut Sink) {
    let head = any_head(rng);
    let Some(Ok(good)) = record(&head, &any_path(rng)) else { return };
    let mut input = if rng.once_in(20) { rng.bytes(1 + good.len() % 60) } else { damaged(rng, &good) };
    if good.len() > 40 && rng.once_in(4) && input.len() >= good.len() {
        // where a Forward Open's words, its codes and its size byte stand
        let at = 19 + rng.below(21) as usize;
        input[at] = if rng.once_in(2) { good[at] ^ 1 << rng.below(8) } else { rng.byte() };
    }
    let r = Record::of(&head, &input);
    if rng.once_in(16) {
        ask_reader(to, 0x18 + rng.below(4) as u8, rng.below(2) as u8, &input);
    } else {
        ask_reader(to, r.op, r.large, &input);
    }
}
