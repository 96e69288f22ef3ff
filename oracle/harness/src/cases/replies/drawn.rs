//! Replies by chance: of the crate's domain, damaged copies, spoilt ones.

use super::reads::faults;
use super::*;
use crate::cases::bytes::{damaged, number, put_any};
use crate::rng::Rng;

/// Half of them routing errors.
fn any_failed(rng: &mut Rng) -> Status {
    let word = match rng.below(4) {
        0 => None,
        1 => Some(rng.pick(&[0x0204, 0x0311, 0x0312, 0x0315])),
        _ => Some(number(rng, 16) as u16),
    };
    let general = match rng.below(4) {
        0 => rng.pick(&[1, 1, 2, 4]),
        1 => rng.below(20) as u8,
        _ => rng.byte(),
    };
    status(general.max(1), word)
}

fn any_ids(rng: &mut Rng) -> Ids {
    Ids { serial: number(rng, 16) as u16, vendor: number(rng, 16) as u16, originator: number(rng, 32) }
}

/// An even number of bytes, mostly few.
fn any_data(rng: &mut Rng) -> Vec<u8> {
    let words = match rng.below(200) {
        0 => 255 - rng.below(3),
        1..=6 => rng.below(256),
        _ => rng.below(6),
    };
    rng.bytes(2 * words as usize)
}

/// A reply that a writer can be given. A failure has a remaining path size where the crate has one.
pub fn any_forward(rng: &mut Rng) -> Forward {
    let (service, ids) = (rng.byte(), any_ids(rng));
    match rng.below(3) {
        0 => {
            let mut id = || number(rng, 32);
            let (o_t_id, t_o_id, o_t_api, t_o_api) = (id(), id(), id(), id());
            Forward { service, status: NO_ERROR, body: Body::Open { o_t_id, t_o_id, ids, o_t_api, t_o_api, data: any_data(rng) } }
        }
        1 => Forward { service, status: NO_ERROR, body: Body::Close { ids, data: any_data(rng) } },
        _ => {
            let status = any_failed(rng);
            let flag = routing(&status);
            Forward { service, status, body: Body::Failure { ids, flag, remaining: rng.byte() * flag } }
        }
    }
}

/// Its bytes with any byte in the ignored places, now and then a word beside success, and some bytes behind it.
fn any_wire(rng: &mut Rng, f: &Forward) -> Vec<u8> {
    let mut f = f.clone();
    if f.status.general == 0 && rng.once_in(4) {
        f.status = status(0, Some(number(rng, 16) as u16));
    }
    let mut wire = f.wire(rng.byte(), rng.byte());
    if rng.once_in(3) {
        let n = if rng.once_in(2_000) { 65_535 - wire.len() as u64 } else { rng.below(5) };
        wire.extend(rng.bytes(n as usize));
    }
    wire
}

/// A reply of the domain, given to its own readers and mostly to the header's; every other one is written.
pub fn random(rng: &mut Rng, to: &mut Sink) {
    let f = any_forward(rng);
    let wire = any_wire(rng, &f);
    if !rng.once_in(4) {
        ask(to, 0x20, 0, &wire);
    }
    let told = if f.status.general == 0 { rng.below(2) as u8 } else { routing(&f.status) };
    for op in f.readers() {
        ask(to, *op, told, &wire);
    }
    if rng.once_in(2) {
        random_write(rng, to, f);
    }
}

/// Into a room that fits, mostly; what a FLAG 0 or 0 words leave unused is any.
fn random_write(rng: &mut Rng, to: &mut Sink, mut f: Forward) {
    let size = f.wire(0, 0).len() as u64;
    let room = match rng.below(8) {
        0 => size.saturating_sub(1 + rng.below(4)),
        1 => size + rng.below(30),
        2 => rng.below(50),
        _ => size,
    };
    if f.status.words == 0 && rng.once_in(2) {
        f.status.word = number(rng, 16) as u16;
    }
    if let Body::Failure { flag: 0, remaining, .. } = &mut f.body {
        *remaining = rng.byte();
    }
    ask_write(to, &f, room as u32);
}

/// What a writer refuses, and a room that may be too small as well; a failure that the crate would read otherwise.
pub fn random_refusal(rng: &mut Rng, to: &mut Sink) {
    let mut f = any_forward(rng);
    match &mut f.body {
        Body::Open { data, .. } | Body::Close { data, .. } => {
            let n = rng.pick(&[1, 3, 5, 509, 510, 511, 512, 513, 1_000]);
            data.resize(n, 0x5A);
        }
        Body::Failure { flag, .. } => {
            if rng.once_in(2) {
                f.status.general = 0;
            }
            *flag = rng.below(2) as u8;
        }
    }
    let room = rng.pick(&[0, 11, 12, 13, 14, 15, 20, 29, 30, 40, 600]);
    ask_write(to, &f, room);
}

/// A damaged copy, told either way, for any of the three; or a short input whose header is likely.
pub fn random_read(rng: &mut Rng, to: &mut Sink) {
    let f = any_forward(rng);
    let mut input = any_wire(rng, &f);
    match rng.below(8) {
        0 => {
            let n = rng.below(14) as usize;
            input = [vec![rng.byte(), rng.byte(), rng.below(5) as u8, rng.below(3) as u8], rng.bytes(n)].concat();
            input.truncate(n);
        }
        1 | 2 => put_any(rng, &faults(&input), &mut input),
        3 => {
            let n = rng.below(4) as usize;
            input.truncate(input.len() - n);
        }
        4 => input[3] = rng.byte(),
        _ => input = damaged(rng, &input),
    }
    ask(to, 0x20 + rng.below(3) as u8, rng.below(2) as u8, &input);
}

pub fn random_routing(rng: &mut Rng, to: &mut Sink) {
    let s = any_failed(rng);
    ask_routing(to, &Status { words: rng.below(2) as u8, ..s });
}
