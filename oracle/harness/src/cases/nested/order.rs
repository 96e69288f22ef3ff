//! Operation 40 with two things wrong at once: a body or an Unconnected Send is judged whole, then what it holds in
//! order, and the first refusal met is the answer.

use super::*;
use crate::cases::bodies::reads::faults;
use crate::cases::bytes::{every_pair, Fault};
use std::slice;

/// Where the faulty one stands.
const PLACES: [&[In]; 5] = [&[], &[In::Send], &[In::Packet], &[In::Send, In::Three], &[In::Packet, In::Three, In::Send]];

pub fn fixed(to: &mut Sink) {
    items(to);
    tables(to);
    routes(to);
    depths(to);
    pairs(to);
}

fn in_places(to: &mut Sink, m: &[u8]) {
    for place in PLACES {
        ask(to, &within(place, m));
    }
}

/// Item j and item k: every two that are refused, with good ones before, between and behind.
fn items(to: &mut Sink) {
    let good = GET.to_vec();
    for a in refused() {
        for b in refused() {
            in_places(to, &packet(&[a.clone(), b.clone()]));
            ask(to, &packet(&[good.clone(), a.clone(), good.clone(), b.clone(), good.clone()]));
            // each in a packet or an Unconnected Send of its own
            ask(to, &packet(&[send(&a), packet(&[good.clone(), b.clone()])]));
            ask(to, &packet(&[packet(slice::from_ref(&a)), send(&b)]));
            ask(to, &send(&packet(&[packet(&[good.clone(), a.clone()]), b.clone()])));
        }
    }
}

/// A bad table before its items, of which one is refused or all are good.
fn tables(to: &mut Sink) {
    for item in refused().into_iter().chain([LEAST.to_vec(), GET.to_vec(), packet(&[])]) {
        let good = table(&[item.clone(), GET.to_vec()]);
        let end = good.len();
        let near = [5, 6, 7, 6 + item.len() - 1, 6 + item.len() + 1, end - 1, end, end + 1, 0, 0xFFFF];
        for at in [2, 4] {
            for offset in near {
                let mut d = good.clone();
                d[at..at + 2].copy_from_slice(&(offset as u16).to_le_bytes());
                in_places(to, &message(0x0A, &ROUTER, &d));
            }
        }
        for count in [0, 1, 3, 0x0200] {
            let mut d = good.clone();
            d[..2].copy_from_slice(&(count as u16).to_le_bytes());
            in_places(to, &message(0x0A, &ROUTER, &d));
        }
        for n in 0..8.min(end) {
            in_places(to, &message(0x0A, &ROUTER, &good[..n]));
        }
        // the last of three offsets is judged before the first item
        let three = table(&[item.clone(), GET.to_vec(), LEAST.to_vec()]);
        for offset in [0, 8 + item.len(), 8 + item.len() - 1, three.len(), three.len() + 1] {
            let mut d = three.clone();
            d[6..8].copy_from_slice(&(offset as u16).to_le_bytes());
            in_places(to, &message(0x0A, &ROUTER, &d));
        }
        // no items, and bytes left over
        in_places(to, &message(0x0A, &ROUTER, &[&[0, 0], &item[..]].concat()));
    }
}

/// Everything of an Unconnected Send is judged before its message: each of its faults with each message.
fn routes(to: &mut Sink) {
    for inner in refused().into_iter().chain([vec![], LEAST.to_vec(), GET.to_vec(), packet(&[])]) {
        let good = send(&inner);
        let words = good.len() - 4;
        let mut all = vec![good.clone(), [&good[..], &[0]].concat(), [&good[..], &[0x0E, 0]].concat()];
        let mut put = |at: usize, byte: u8| {
            let mut d = good.clone();
            d[at] = byte;
            all.push(d);
        };
        for (at, byte) in [(6, 0x10), (6, 0xF3), (9, 0xFF), (words, 0), (words, 2), (words, 127), (words, 128), (words, 255)] {
            put(at, byte);
        }
        for (at, byte) in [(words + 1, 1), (words + 2, 0xFF), (words + 2, 0x21), (words + 2, 0x11), (words - 1, 1)] {
            put(at, byte);
        }
        all.extend((1..=5).map(|n| good[..good.len() - n].to_vec()));
        for m in all {
            in_places(to, &m);
        }
    }
}

/// At depth 3: about to read a message of depth 4 is 9, whatever it is, and comes in order with what is refused before
/// it and behind it; a body is judged whole before.
fn depths(to: &mut Sink) {
    let threes = mixes([In::Packet, In::Send], 3);
    let bad = refused();
    for m in &bad {
        let deep = [packet(slice::from_ref(m)), send(m), packet(&[LEAST.to_vec(), m.clone()])];
        for d in &deep {
            for three in &threes {
                ask(to, &within(three, d));
            }
        }
        // three messages of depth 3, of which one holds what is too deep, and another is refused
        for d in &deep {
            for list in [[m, d, &bad[0]], [d, m, &bad[0]], [&LEAST.to_vec(), d, m], [m, &LEAST.to_vec(), d]] {
                let at_three = packet(&list.map(Clone::clone));
                ask(to, &packet(&[packet(slice::from_ref(&at_three))]));
                ask(to, &send(&send(&at_three)));
                ask(to, &packet(&[GET.to_vec(), send(&at_three), m.clone()]));
                ask(to, &packet(&[m.clone(), send(&at_three)]));
            }
        }
    }
    // a body at depth 3 with each fault of its table, one item in it or none
    for item in [LEAST.to_vec(), vec![0x0E], packet(&[])] {
        let good = packet(&[item]);
        for fault in faults(&good[6..]) {
            let mut d = good[6..].to_vec();
            fault.put(&mut d);
            for three in &threes {
                ask(to, &within(three, &message(0x0A, &ROUTER, &d)));
            }
        }
    }
    for data in [&[0, 0][..], &[0, 0, 0], &[0, 0, 0x0E, 0], &[0], &[]] {
        for three in &threes {
            ask(to, &within(three, &message(0x0A, &ROUTER, data)));
        }
    }
}

/// Every pair of changes at the places where something is judged.
fn pairs(to: &mut Sink) {
    for (_, tree) in named() {
        let good = wire(&tree);
        let step = 1 + good.len() / 40;
        let mut faults = vec![Fault::Cut(1), Fault::Cut(2), Fault::More];
        for at in (0..good.len()).step_by(step) {
            faults.extend([Fault::Xor(at, 1), Fault::Set(at, 0x80)]);
        }
        every_pair(&faults, &good, |d| ask(to, d));
    }
}
