//! Operation 40 on inputs of every kind: good ones with one thing changed, all short ones, paths and services that are
//! nearly those that are opened.

use super::*;
use crate::cases::asking::{judged, past_the_end};
use crate::cases::bytes::every_change;

pub fn fixed(to: &mut Sink) {
    for (_, tree) in named() {
        ask_tree(to, &tree);
        changed(to, &wire(&tree));
    }
    // refused with 9 as it stands: a change may close what holds the message of depth 4
    changed(to, &within(&[In::Packet, In::Send, In::Packet, In::Send], &GET));
    short(to);
    near(to);
    services(to);
    sends(to);
    bad_lines(to);
}

/// Every change of one byte, every front, a few bytes more.
fn changed(to: &mut Sink, good: &[u8]) {
    ask(to, good);
    every_change(good, |d| ask(to, d));
    for more in [&[0][..], &[0xFF], &[0, 0], &[0x0E, 0], &[0x0E, 3, 0x20]] {
        ask(to, &[good, more].concat());
    }
}

/// Every input of up to two bytes; all zeros and all ones of every small length.
fn short(to: &mut Sink) {
    ask(to, &[]);
    for a in 0..=255 {
        ask(to, &[a]);
        for b in 0..=255 {
            ask(to, &[a, b]);
        }
    }
    for n in 3..40 {
        for byte in [0, 1, 2, 0x0A, 0x20, 0x52, 0xFF] {
            ask(to, &vec![byte; n]);
        }
    }
}

/// Paths that are nearly just class 2 instance 1, or class 6: another number, a third segment, the other order, other
/// kinds, wide forms, and fewer words.
pub fn near_paths() -> Vec<Vec<u8>> {
    let mut v = vec![vec![], vec![0x24, 1], vec![0x20, 1, 0x24, 1], vec![0x20, 0, 0x24, 1], vec![0x20, 8, 0x24, 1]];
    for c in [2, 6] {
        let just = [0x20, c, 0x24, 1];
        v.extend([just.to_vec(), vec![0x20, c], vec![0x24, 1, 0x20, c], vec![0x20, c, 0x20, c, 0x24, 1]]);
        // a third segment, behind and before
        for third in [&[0x30, 1][..], &[0x30, 0], &[0x28, 0], &[0x24, 1], &[0x20, c], &[0, 0], &[0x91, 0], &[0x20, c, 0x24, 1]] {
            v.push([&just, third].concat());
            v.push([third, &just].concat());
        }
        // another number or kind
        v.extend([[0x20, c, 0x24, 0], [0x20, c, 0x24, 2], [0x20, c, 0x24, c], [0x20, c, 0x24, 0xFF]].map(Vec::from));
        v.extend([[0x28, c, 0x24, 1], [0x30, c, 0x24, 1], [0x24, c, 0x24, 1], [0x20, c, 0x28, 1]].map(Vec::from));
        v.extend([[0x20, c, 0x30, 1], [0x20, c, 0x20, 1], [c, c, 0x24, 1], [0x91, 2, c, 1], [0x20, c, 1, 0]].map(Vec::from));
        // wide forms: of these numbers they are 5, of others good
        v.extend([[0x21, 0, c, 0, 0x24, 1], [0x20, c, 0x25, 0, 1, 0], [0x21, 0, c, 1, 0x24, 1]].map(Vec::from));
        v.extend([[0x20, c, 0x25, 0, 1, 1], [0x21, c, 0x24, 1, 0, 0], [0x21, 0, 0, c, 0x24, 1]].map(Vec::from));
        v.push([0x21, 0, c, 0, 0x25, 0, 1, 0].to_vec());
    }
    v
}

/// Data that is a body, an Unconnected Send, or neither.
fn some_data() -> Vec<Vec<u8>> {
    let of = |m: Vec<u8>| m[6..].to_vec();
    vec![
        vec![],
        vec![0, 0],
        of(packet(&[GET.to_vec()])),
        of(packet(&[LEAST.to_vec(), GET.to_vec()])),
        of(send(&GET)),
        of(send(&[&GET[..], &[5]].concat())),
        // a message that is refused, in either
        of(packet(&[vec![0x0E]])),
        of(send(&[0x0E])),
        vec![0, 0, 1],
        vec![1, 0, 5, 0, 7],
        vec![0x1F; 9],
        vec![0xFF; 3],
    ]
}

/// Every such path with both services, their reply bits, and others; alone and within others, as deep as may be.
fn near(to: &mut Sink) {
    let wraps: [&[In]; 6] =
        [&[], &[In::Packet], &[In::Send], &[In::Three, In::Send], &[In::Send, In::Packet, In::Three], &[In::Packet; 4]];
    for path in near_paths() {
        for service in [0x0A, 0x52, 0x8A, 0xD2, 0x0E, 0x00] {
            for data in some_data() {
                let m = message(service, &path, &data);
                for w in wraps {
                    ask(to, &within(w, &m));
                }
            }
        }
    }
    // the size byte says 0 to 4 words, and the path and the data lie there all the same
    for (service, path) in [(0x0A, ROUTER), (0x52, MANAGER), (0x52, ROUTER), (0x0A, MANAGER)] {
        for data in some_data() {
            for words in 0..=4 {
                let mut m = message(service, &path, &data);
                m[1] = words;
                ask(to, &m);
                ask(to, &packet(&[m]));
            }
        }
    }
}

/// Every service byte with the two paths.
fn services(to: &mut Sink) {
    for service in 0..=255 {
        for path in [ROUTER, MANAGER] {
            for data in some_data() {
                let m = message(service, &path, &data);
                ask(to, &m);
                ask(to, &send(&m));
            }
        }
        ask(to, &packet(&[message(service, &[], &[service]), message(!service, &[0x20, service], &[])]));
    }
}

/// Unconnected Sends of every small message, odd and even, with each pad and size; routes of several lengths.
fn sends(to: &mut Sink) {
    for n in 0..=24usize {
        let long = [&GET[..], &[0x77; 20]].concat();
        for inner in [&long[..n], &[&LEAST[..], &vec![0x55; n]].concat()] {
            let good = send(inner);
            ask(to, &good);
            ask(to, &packet(&[good.clone(), GET.to_vec()]));
            // behind the message, or its pad
            for at in 10 + inner.len()..good.len() {
                for byte in [0, 1, 2, 0x20, 0x80, 0xFF] {
                    let mut d = good.clone();
                    d[at] = byte;
                    ask(to, &d);
                }
            }
            for size in [inner.len() + 1, inner.len().saturating_sub(1), inner.len() + 2, 0, 256 + inner.len(), 0xFFFF] {
                let mut d = good.clone();
                d[8..10].copy_from_slice(&(size as u16).to_le_bytes());
                ask(to, &d);
            }
            for route in [&[][..], &[0x20, 6], &[0x20, 6, 0x24, 1], &[0x21, 0, 5, 0], &[0xFF, 0], &[0x0F, 0, 0x0F, 5]] {
                ask(to, &send_by(inner, route));
            }
        }
    }
}

fn bad_lines(to: &mut Sink) {
    for t in
        ["", "00", "00000000", "0000000000", "0100000000", "01000000", "02000000000E", "020000000E0000", "020000000E00A5A5A5A5"]
    {
        judged(to, format!("40{t}").into_bytes());
    }
    past_the_end(to, &["40"], "0E00");
    for n in [299_994, 299_995, 299_996] {
        judged(to, line(&vec![0; n]));
    }
}
