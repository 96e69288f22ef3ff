//! Operation 40 at its limits: depths 0 to 5 and far deeper, through packets, Unconnected Sends and every mix of them, with
//! what is innermost good, empty, or refused; the longest inputs, the most messages that fit, and paths and data of many
//! lengths.

use super::*;
use crate::cases::bytes::link;
use std::slice;

pub fn fixed(to: &mut Sink) {
    mixed(to);
    trees(to);
    siblings(to);
    deep(to);
    lengths(to);
    long(to);
    most(to);
    many(to);
}

fn mixed(to: &mut Sink) {
    for depth in 0..=5 {
        for of in [[In::Packet, In::Send], [In::Three, In::Send]] {
            for mix in mixes(of, depth) {
                for m in innermost() {
                    ask(to, &within(&mix, &m));
                }
            }
        }
    }
}

/// Good ones, empty packets, and one of each refusal that a message, a body or an Unconnected Send can have.
fn innermost() -> Vec<Vec<u8>> {
    let mut v =
        vec![LEAST.to_vec(), GET.to_vec(), EXAMPLE.to_vec(), packet(&[]), send(&LEAST), message(0x0A, &MANAGER, &[1, 2, 3])];
    v.extend(refused());
    v
}

/// Trees of every mix, each level with messages before and behind, as the crate writes them.
fn trees(to: &mut Sink) {
    for depth in 0..=5 {
        for bits in 0..1 << depth {
            for empty in [false, true] {
                let inner = if empty { Message::Packet(vec![]) } else { bare(0x4B, &[1, 2, 3]) };
                let tree = (0..depth).fold(inner, |m, k| match bits >> k & 1 {
                    0 => Message::Packet(vec![get(k), m, bare(k as u8, &vec![0x33; k as usize])]),
                    _ => sent(m),
                });
                ask_tree(to, &tree);
            }
        }
    }
}

/// Packets of up to four, of which each is a plain message, an empty packet, one of one, or one that is too deep.
fn siblings(to: &mut Sink) {
    let kinds = [bare(1, &[1]), Message::Packet(vec![]), Message::Packet(vec![get(2)]), sent(bare(2, &[]))];
    let mut lists: Vec<Vec<Message>> = vec![vec![]];
    for _ in 0..4 {
        lists = lists.iter().flat_map(|l| kinds.iter().map(move |k| [&l[..], slice::from_ref(k)].concat())).collect();
        for l in &lists {
            let tree = Message::Packet(l.clone());
            ask_tree(to, &tree);
            ask_tree(to, &sent(tree.clone()));
            ask_tree(to, &Message::Packet(vec![get(1), Message::Packet(vec![tree.clone()]), get(2)]));
            if l.len() < 4 {
                ask_tree(to, &sent(sent(sent(tree))));
            }
        }
    }
}

/// Far deeper: what counts the depth in a byte, or goes down as far as there are bytes.
fn deep(to: &mut Sink) {
    for depth in (6..=20).chain([127, 128, 254, 255, 256, 257, 258, 259, 260, 511, 512, 1_000]) {
        for of in [[In::Packet; 2], [In::Send; 2], [In::Packet, In::Send]] {
            let mix: Vec<In> = (0..depth).map(|k| of[k % 2]).collect();
            ask(to, &within(&mix, &LEAST));
        }
    }
}

/// Data and paths of every length around a byte's end, in each kind; every number of segments.
fn lengths(to: &mut Sink) {
    for n in (0..=20).chain(250..=260).chain([510, 511, 512, 513, 1_000]) {
        let m = bare(0x4C, &link(n, 1));
        for tree in
            [m.clone(), Message::Packet(vec![m.clone(), get(1), m.clone()]), sent(m.clone()), sent(Message::Packet(vec![m]))]
        {
            ask_tree(to, &tree);
        }
    }
    for n in 0..=128 {
        let of = |segment: &[u8]| message(0x0E, &segment.repeat(n), &[n as u8]);
        for m in [of(&[0x20, 1]), of(&[0x24, 1])] {
            ask(to, &m);
            ask(to, &packet(&[LEAST.to_vec(), m.clone()]));
            ask(to, &send(&m));
        }
        ask(to, &send_by(&GET, &[1, 0].repeat(n)));
    }
    for n in (0..=8).chain([252, 253, 254, 255]) {
        let symbol = Message::Plain { service: 0x4C, path: vec![plain(SYMBOL, 0, &vec![b'n'; n])], data: vec![1, 0] };
        ask_tree(to, &Message::Packet(vec![symbol.clone(), symbol]));
    }
    // a symbol that no String holds, a link of 254 bytes and one of 255
    for path in [&[0x91, 1, 0x80, 0][..], &[0x91, 2, 0xC3, 0x28], &[&[0x11, 250][..], &link(250, 1)].concat(), &[0x11, 255]] {
        let m = message(0x4C, path, &[1]);
        ask(to, &m);
        ask(to, &packet(&[m.clone(), GET.to_vec()]));
        ask(to, &send(&packet(&[m])));
        ask(to, &send_by(&GET, path));
    }
}

/// The last byte of the data of the innermost message is repeated until the whole has so many bytes.
fn filled(wraps: &[In], size: usize) -> Vec<u8> {
    let bare = within(wraps, &LEAST).len();
    let mut more = size.saturating_sub(bare);
    // an odd message has a pad
    while within(wraps, &message(0x0E, &[], &vec![0x5A; more])).len() > size {
        more -= 1;
    }
    within(wraps, &message(0x0E, &[], &vec![0x5A; more]))
}

/// Whole inputs around the limit, which comes before everything else.
fn long(to: &mut Sink) {
    let wraps: [&[In]; 6] =
        [&[], &[In::Packet], &[In::Send], &[In::Send, In::Packet], &[In::Three, In::Send, In::Packet], &[In::Packet; 4]];
    for size in [65_530, 65_531, 65_532, 65_533, 65_534, 65_535, 65_536, 65_537] {
        for w in wraps {
            let mut d = filled(w, size);
            ask(to, &d);
            // with nothing good in front
            d[0] = 0xFF;
            d[1] = 0xFF;
            ask(to, &d);
        }
        for byte in [0, 0xFF, 0x0A] {
            ask(to, &vec![byte; size]);
        }
        for front in [&EXAMPLE[..], &packet(&[]), &send(&GET)] {
            let mut d = front.to_vec();
            d.resize(size, 0);
            ask(to, &d);
        }
    }
    for n in [65_536, 70_000, 131_072, 140_000] {
        ask(to, &[&EXAMPLE[..], &vec![0; n]].concat());
        ask(to, &[&packet(&[])[..], &vec![0; n]].concat());
    }
}

/// So many messages of two bytes in a packet; the last one has the bytes to spare as data.
fn twos(n: usize, spare: usize) -> Vec<Vec<u8>> {
    (0..n).map(|k| [&[k as u8, 0][..], &vec![0x77; if k + 1 == n { spare } else { 0 }]].concat()).collect()
}

/// 16,382 messages in 65,535 bytes, and as many as fit one and two levels down; one too many; the last of them refused.
fn most(to: &mut Sink) {
    for (n, spare) in [(16_381, 3), (16_381, 2), (16_381, 0), (16_381, 4), (16_382, 0), (16_380, 7)] {
        ask(to, &packet(&twos(n, spare)));
    }
    for n in [16_376, 16_377, 16_378, 16_379, 16_380] {
        for w in [&[In::Packet][..], &[In::Send], &[In::Send, In::Packet], &[In::Packet, In::Send, In::Packet]] {
            ask(to, &within(w, &packet(&twos(n, 0))));
        }
    }
    for bad in
        [&[0x0E][..], &[0x0E, 1], &[0x0E, 0x80], &[0x0E, 1, 0xFF, 0], &packet(&[])[..7], &[0x0A, 2, 0x20, 2, 0x24, 1, 0, 0]]
    {
        for at in [0, 1, 255, 256, 8_000, 15_998, 15_999] {
            let mut items = twos(16_000, 0);
            items[at] = bad.to_vec();
            ask(to, &packet(&items));
        }
    }
    // one byte each: the first is refused, after the whole table is judged
    for n in [20_000, 21_841, 21_842] {
        ask(to, &packet(&vec![vec![0x0E]; n]));
    }
}

/// Many at each depth.
fn many(to: &mut Sink) {
    for n in [40, 127, 128, 255, 256, 257, 1_000] {
        ask(to, &packet(&twos(n, 1)));
        ask(to, &packet(&vec![packet(&[]); n]));
        ask(to, &packet(&vec![send(&LEAST); n]));
        ask(to, &packet(&vec![packet(&twos(3, 1)); n]));
    }
    for (a, b, c) in [(20, 20, 20), (5, 50, 20), (100, 10, 3), (2, 2, 2_000)] {
        let inner = packet(&vec![packet(&twos(c, 1)); b]);
        ask(to, &packet(&vec![inner; a]));
    }
}
