//! Operation 50 by its state: those that no calls leave, refused ones, known lengths, and what is said first.

use super::*;

pub fn fixed(to: &mut Sink) {
    let ask: &mut Ask = &mut |c| judged(to, c.line());
    all_numbers(ask);
    small(ask);
    large(ask);
    known(ask);
    empty(ask);
}

/// Held and length around every limit, and far past them.
fn numbers() -> Vec<u32> {
    let near =
        [0, 1, 2, 3, 22, 23, 24, 25, 26, 47, 48, 65_534, 65_535, 65_536, 65_557, 65_558, 65_559, 65_560, 65_561, 65_583, 70_000];
    let far = [1u64 << 31, 1 << 32].into_iter().flat_map(|p| [p - 24, p - 2, p - 1, p, p + 24]);
    near.into_iter().chain(far.filter_map(|n| u32::try_from(n).ok())).collect()
}

/// No bytes, one, a header that says too much, a whole frame and more.
fn scraps() -> [Vec<u8>; 4] {
    [vec![], vec![7], header(65_535, 1), [frame(0, 1), frame(1, 2)].concat()]
}

/// Each of those numbers with each, over short buffers: 11 and each 2, alone and together.
fn all_numbers(ask: &mut Ask) {
    for held in numbers() {
        for length in numbers() {
            for refused in [0, 1] {
                for room in [0, 1, 23, 24, 25, 48] {
                    every_scrap(state(held, length, refused), room, ask);
                }
            }
        }
    }
}

fn every_scrap(state: State, room: usize, ask: &mut Ask) {
    for scrap in scraps() {
        ask(&Call { state, buffer: link(room, 1), scrap });
    }
}

/// Every small state over every small buffer.
fn small(ask: &mut Ask) {
    for held in 0..=27 {
        for length in 0..=28 {
            for refused in [0, 1] {
                for room in 22..=29 {
                    for n in 0..=2 {
                        ask(&Call { state: state(held, length, refused), buffer: link(room, 1), scrap: link(n, 2) });
                    }
                }
            }
        }
    }
    for held in 0..=HEADER as u32 {
        for room in 0..=40 {
            every_scrap(state(held, 0, 1), room, ask);
        }
    }
}

/// Around the longest frame, over buffers around it.
fn large(ask: &mut Ask) {
    for (held, length) in [(24, 65_559), (65_558, 65_559), (65_557, 65_558), (65_559, 65_560), (65_559, 65_559), (65_558, 65_560)]
    {
        for room in [65_557, 65_558, 65_559, 65_560] {
            for scrap in [&[][..], &[1], &[3; 30]] {
                ask(&Call { state: state(held, length, 0), buffer: link(room, 1), scrap: scrap.to_vec() });
            }
        }
    }
}

/// A known length counts, whatever the buffer says of it.
fn known(ask: &mut Ask) {
    for (held, length) in [(24, 25), (24, 26), (25, 26), (24, 30), (27, 30), (29, 30), (24, 281), (280, 281), (100, 281)] {
        for said in [0, 1, 2, 5, 6, 7, 256, 257, 258, 0x0600, 0x7FFF, 0xFFE8, 0xFFFF] {
            for room in [length, length + 1, length + 30] {
                let left = (length - held) as usize;
                for n in [0, 1, left - 1, left, left + 1, left + HEADER, left + HEADER + 5] {
                    ask(&over(said, state(held, length, 0), room as usize, link(n, 2)));
                }
            }
        }
    }
}

/// A call over a buffer that says so many bytes of data.
fn over(said: u16, state: State, room: usize, scrap: Vec<u8>) -> Call {
    let mut buffer = link(room, 1);
    buffer[2..4].copy_from_slice(&said.to_le_bytes());
    Call { state, buffer, scrap }
}

/// An empty scrap in every kind of state, over buffers that say a frame that is whole, longer, and too long.
fn empty(ask: &mut Ask) {
    for said in [0, 1, 6, 7, 65_535] {
        for room in [24, 30, 31] {
            for held in 0..HEADER as u32 {
                ask(&over(said, state(held, 0, 0), room, vec![]));
                ask(&over(said, state(held, 0, 1), room, vec![]));
            }
            for held in 24..30 {
                ask(&over(said, state(held, 30, 0), room, vec![]));
            }
        }
    }
}
