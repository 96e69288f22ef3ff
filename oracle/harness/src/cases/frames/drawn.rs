//! Frames by chance: streams cut anywhere and driven, states, and calls that are not quite those of a driver.

use super::*;
use crate::cases::bytes::{damaged, number};
use crate::rng::Rng;

/// Mostly few bytes.
fn any_data(rng: &mut Rng) -> usize {
    let most = rng.pick(&[1, 4, 30]);
    let n = match rng.below(20_000) {
        0 => 65_535 - rng.below(3),
        1..=200 => rng.below(600),
        _ => rng.below(most),
    };
    n as usize
}

/// A header of any bytes but for its length.
fn any_frame(rng: &mut Rng, data: usize) -> Vec<u8> {
    let mut f = rng.bytes(HEADER + data);
    f[2..4].copy_from_slice(&(data as u16).to_le_bytes());
    f
}

/// A stream and a buffer, which mostly fits it; now and then the stream ends within a frame.
fn any_stream(rng: &mut Rng) -> (Vec<u8>, usize) {
    let data: Vec<usize> = (0..1 + rng.below(5)).map(|_| any_data(rng)).collect();
    let longest = HEADER + data.iter().max().unwrap_or(&0);
    let room = match rng.below(8) {
        0 => longest - 1,
        1 => HEADER + rng.below(20) as usize,
        2 => longest + rng.below(30) as usize,
        _ => longest,
    };
    let mut stream: Vec<u8> = data.into_iter().flat_map(|n| any_frame(rng, n)).collect();
    if rng.once_in(4) {
        let left = rng.below(30) as usize;
        stream.truncate(stream.len().saturating_sub(left));
    }
    (stream, room)
}

/// Scraps of sizes up to one that is drawn first, some of them empty.
fn cut<'a>(rng: &mut Rng, stream: &'a [u8]) -> Vec<&'a [u8]> {
    // a long stream in few scraps, for the sake of time
    let most = rng.pick(&[3, 10, 30, 60, 200]).max(stream.len() as u64 / 20);
    let mut scraps = vec![];
    let mut rest = stream;
    while !rest.is_empty() {
        let n = rng.below(most + 1).min(rest.len() as u64) as usize;
        let (scrap, behind) = rest.split_at(n);
        scraps.push(scrap);
        rest = behind;
    }
    scraps
}

fn any_drive(rng: &mut Rng, ask: &mut Ask) {
    let (stream, room) = any_stream(rng);
    drive(room, &cut(rng, &stream), ask);
}

/// One call of a stream that is driven.
pub fn any_call(rng: &mut Rng) -> Call {
    let mut calls = vec![Call { state: RESET, buffer: rng.bytes(HEADER), scrap: vec![] }];
    any_drive(rng, &mut |c| calls.push(c.clone()));
    let at = rng.below(calls.len() as u64) as usize;
    calls.swap_remove(at)
}

/// A whole stream.
pub fn random(rng: &mut Rng, to: &mut Sink) {
    any_drive(rng, &mut |c| judged(to, c.line()));
}

/// A state around the limits, over a buffer that says a short frame or a long one.
pub fn random_state(rng: &mut Rng, to: &mut Sink) {
    let mut any = || match rng.below(6) {
        0 => 0,
        1 => number(rng, 32),
        2 => 20 + rng.below(8) as u32,
        _ => rng.below(40) as u32,
    };
    let (held, length) = (any(), any());
    let state = match rng.below(4) {
        0 => state(held, length, rng.below(2) as u8),
        1 => state(held % 24, 0, rng.below(2) as u8),
        _ => state(held.max(24), held.max(24).saturating_add(length.max(1)), 0),
    };
    let room = match rng.below(4) {
        0 => rng.below(40),
        1 => u64::from(state.length.min(300)) + rng.below(3),
        _ => 24 + rng.below(60),
    };
    let (mut buffer, mut scrap) = (rng.bytes(room as usize), Vec::new());
    if rng.once_in(2) {
        if let Some(said) = buffer.get_mut(2..4) {
            said.copy_from_slice(&[rng.below(40) as u8, 0]);
        }
    }
    if !rng.once_in(8) {
        let n = rng.below(70) as usize;
        scrap = rng.bytes(n);
    }
    judged(to, Call { state, buffer, scrap }.line());
}

/// A driver's call with one thing changed.
pub fn random_damaged(rng: &mut Rng, to: &mut Sink) {
    let mut call = any_call(rng);
    let near = |rng: &mut Rng, n: u32| n.wrapping_add(rng.pick(&[1, 2, 24, u32::MAX, u32::MAX - 1]));
    let State { held, length, refused } = call.state;
    match rng.below(6) {
        0 => call.state.held = near(rng, held),
        1 => call.state.length = near(rng, length),
        2 => call.state.refused = 1 - refused,
        3 => call.buffer = damaged(rng, &call.buffer),
        4 => {
            let n = rng.below(call.buffer.len() as u64 + 1) as usize;
            call.buffer.truncate(n);
        }
        _ => call.scrap = damaged(rng, &call.scrap),
    }
    judged(to, call.line());
}
