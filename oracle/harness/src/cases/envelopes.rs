//! Operation 26, the envelope: the judge alone.

use super::asking::{judged, Sink};
use super::bytes::{damaged, edges, every_change, every_pair, link, put_any, Fault};
use crate::case::reader_line;
use crate::rng::Rng;

/// An envelope as it lies: item count, then type, length and bytes of each item, and what is left over.
#[derive(Clone)]
struct Envelope {
    count: u16,
    items: [(u16, Vec<u8>); 2],
    after: Vec<u8>,
}

impl Envelope {
    fn wire(&self) -> Vec<u8> {
        let mut b = self.count.to_le_bytes().to_vec();
        for (kind, bytes) in &self.items {
            b.extend(kind.to_le_bytes());
            b.extend((bytes.len() as u16).to_le_bytes());
            b.extend(bytes);
        }
        b.extend(&self.after);
        b
    }
}

/// Null address and B2.
fn unconnected(address: &[u8], data: &[u8]) -> Envelope {
    Envelope { count: 2, items: [(0, address.to_vec()), (0xB2, data.to_vec())], after: vec![] }
}

/// A1 and B1, whose data begins with a count.
fn connected(address: &[u8], data: &[u8]) -> Envelope {
    Envelope { count: 2, items: [(0xA1, address.to_vec()), (0xB1, data.to_vec())], after: vec![] }
}

/// A good reply, and one behind a count.
const REPLY: [u8; 5] = [0x8E, 0, 0, 0, 0xAA];
const COUNTED: [u8; 7] = [0x2A, 0x01, 0x8E, 0, 0, 0, 0xAA];

fn samples() -> Vec<Envelope> {
    let id = [0x44, 0x33, 0x22, 0x11];
    vec![
        unconnected(&[], &REPLY),
        unconnected(&[0xEE, 0xEF], &REPLY),
        unconnected(&[], &[]),
        connected(&id, &COUNTED),
        connected(&[], &COUNTED[..3]),
        connected(&id, &COUNTED[..2]),
    ]
}

/// A good line of either form.
pub fn good_lines() -> Vec<Vec<u8>> {
    samples().iter().skip(1).step_by(2).map(|e| reader_line(0x26, &e.wire())).collect()
}

fn ask(to: &mut Sink, input: &[u8]) {
    judged(to, reader_line(0x26, input));
}

pub fn fixed(to: &mut Sink) {
    for n in 0..=24 {
        for byte in [0, 1, 2, 0xFF] {
            ask(to, &vec![byte; n]);
        }
    }
    for good in samples() {
        let wire = good.wire();
        one_change(to, &wire);
        every_pair(&faults(&wire), &wire, |d| ask(to, d));
        numbers(to, &good);
        lengths(to, &good);
    }
    long(to);
}

/// Every change of one byte, every front, some bytes more.
fn one_change(to: &mut Sink, good: &[u8]) {
    every_change(good, |d| ask(to, d));
    for more in [&[][..], &[0], &[0xFF], &[0, 0], &[0xB2, 0, 0, 0], &[0; 4]] {
        ask(to, &[good, more].concat());
    }
}

/// What can be wrong with an envelope. The second item's place is known where the first one's length is good.
fn faults(good: &[u8]) -> Vec<Fault> {
    use Fault::*;
    let second = 6 + usize::from(good[4]);
    let mut v = vec![Cut(0), Cut(1), Cut(2), Cut(5), Cut(good.len() - 1), Cut(good.len() - 2), Cut(good.len() - 4), More];
    v.extend([0, 1, 3].map(|count| Set(0, count)));
    v.extend([Set(1, 1), Set(3, 1), Set(5, 1), Set(second + 1, 1), Set(second + 3, 1)]);
    v.extend([0, 0xA1, 0xB1, 0xB2, 0xFF].map(|kind| Set(2, kind)));
    v.extend([0, 1, 2, 4, 0xFF].map(|len| Set(4, len)));
    v.extend([0, 0xA1, 0xB1, 0xB2, 0xFF].map(|kind| Set(second, kind)));
    v.extend([0, 1, 2, 3, 0xFF].map(|len| Set(second + 2, len)));
    v
}

/// Other counts and types, high byte first ones among them, each alone and before a fault behind it.
fn numbers(to: &mut Sink, good: &Envelope) {
    let known = [0x0002, 0x0200, 0xA100, 0xB100, 0xB200, 0x00A1, 0x00B1, 0x00B2, 0x8000, 0x8001, 0x8002];
    for n in edges(65_535).into_iter().map(|n| n as u16).chain(known) {
        for after in [vec![], vec![0]] {
            let mut e = Envelope { after, ..good.clone() };
            e.items[0].0 = n;
            ask(to, &e.wire());
            e.items[1].0 = n;
            ask(to, &e.wire());
            e.items[0].0 = good.items[0].0;
            ask(to, &e.wire());
            ask(to, &Envelope { count: n, ..e }.wire());
            ask(to, &Envelope { count: n, ..good.clone() }.wire());
        }
    }
}

/// Address and data of many lengths, each with bytes missing, with all of them, and with some left over.
fn lengths(to: &mut Sink, good: &Envelope) {
    for first in [0, 1, 2, 3, 4, 5, 16, 255, 256, 257] {
        for second in [0, 1, 2, 3, 4, 5, 255, 256, 257] {
            for after in 0..3 {
                let mut e = good.clone();
                e.items[0].1 = link(first, 1);
                e.items[1].1 = link(second, 2);
                e.after = link(after, 3);
                let wire = e.wire();
                ask(to, &wire);
                for short in [1, 2, second, second + 1, second + 2, second + 3, second + 4, second + 5] {
                    ask(to, &wire[..wire.len().saturating_sub(short)]);
                }
            }
        }
    }
}

/// The longest items, and an envelope that is longer than any reply: it has no limit on the whole.
fn long(to: &mut Sink) {
    for make in [unconnected, connected] {
        for (first, second) in [(65_535, 0), (65_535, 7), (0, 65_535), (4, 65_530), (65_535, 65_535), (65_534, 32_768)] {
            let mut e = make(&link(first, 1), &link(second, 2));
            let wire = e.wire();
            ask(to, &wire);
            ask(to, &wire[..wire.len() - 1]);
            e.after = vec![7];
            ask(to, &e.wire());
        }
        ask(to, &[make(&[], &COUNTED).wire(), vec![0; 140_000]].concat());
    }
}

/// Good ones, some with bytes left over, and damaged copies.
pub fn random(rng: &mut Rng, to: &mut Sink) {
    let make = rng.pick(&[unconnected as fn(&[u8], &[u8]) -> Envelope, connected]);
    let len = |rng: &mut Rng| rng.pick(&[0, 0, 1, 2, 3, 4, 4, 7, 12, 40]);
    let (first, second) = (len(rng), len(rng));
    let good = make(&rng.bytes(first), &rng.bytes(second));
    let mut wire = good.wire();
    match rng.below(4) {
        0 => {}
        1 => put_any(rng, &faults(&wire), &mut wire),
        _ => wire = damaged(rng, &wire),
    }
    ask(to, &wire);
}
