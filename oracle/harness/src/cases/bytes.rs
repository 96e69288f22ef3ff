//! What all cases are made of: numbers, bytes, and good inputs with one thing changed, or two.

use crate::rng::Rng;

/// Around each place where a number's form changes, and each place where a byte of it does.
pub fn edges(most: u64) -> Vec<u32> {
    let mut v: Vec<u64> = vec![0, 14, 15, 16, 3_840, 3_854, 3_855, 3_856, 65_280, 65_281];
    for bit in 0..=32 {
        let p = 1u64 << bit;
        v.extend([p - 1, p, p + 1]);
    }
    v.retain(|n| *n <= most);
    v.sort_unstable();
    v.dedup();
    v.into_iter().map(|n| n as u32).collect()
}

/// Text of exactly n bytes, a few letters outside ASCII among it.
pub fn text(n: usize, salt: usize) -> Vec<u8> {
    let letters = ["a", "B", "7", "_", "é", "Ω", "€", "漢", "𝄞", "z"];
    let mut t = String::new();
    let mut i = salt;
    while t.len() < n {
        let c = letters[(i * 7 + salt) % letters.len()];
        t.push_str(if t.len() + c.len() <= n { c } else { "x" });
        i += 1;
    }
    t.into_bytes()
}

pub fn link(n: usize, salt: usize) -> Vec<u8> {
    (0..n).map(|i| (i * 31 + salt * 17 + n) as u8).collect()
}

/// Small, around a bit, or any.
pub fn number(rng: &mut Rng, bits: u64) -> u32 {
    let most = (1u64 << bits) - 1;
    match rng.below(4) {
        0 => rng.below(300).min(most) as u32,
        1 => ((1u64 << rng.below(bits + 1)) + rng.below(3)).saturating_sub(1).min(most) as u32,
        _ => (rng.any() & most) as u32,
    }
}

// ---- good inputs, changed ----

/// One thing that is wrong with a record.
#[derive(Clone, Copy)]
pub enum Fault {
    Xor(usize, u8),
    Set(usize, u8),
    Cut(usize),
    More,
}

impl Fault {
    pub fn put(self, d: &mut Vec<u8>) {
        match self {
            Fault::Xor(at, x) if at < d.len() => d[at] ^= x,
            Fault::Set(at, x) if at < d.len() => d[at] = x,
            Fault::Cut(n) => d.truncate(d.len().saturating_sub(n)),
            Fault::More => d.push(0x77),
            _ => {}
        }
    }
}

/// Every byte as every other, taken out and doubled; every front.
pub fn every_change(good: &[u8], to: impl FnMut(&[u8])) {
    let all: Vec<u8> = (1..=255).collect();
    every_change_by(&all, good, to);
}

/// The same, with the bits of a byte turned in these ways alone.
pub fn every_change_by(ways: &[u8], good: &[u8], mut to: impl FnMut(&[u8])) {
    for i in 0..good.len() {
        for x in ways {
            let mut d = good.to_vec();
            d[i] ^= x;
            to(&d);
        }
        to(&[&good[..i], &good[i + 1..]].concat());
        to(&[&good[..=i], &good[i..]].concat());
        to(&good[..i]);
    }
}

/// Every fault, and every pair of them: which is said?
pub fn every_pair(faults: &[Fault], good: &[u8], mut to: impl FnMut(&[u8])) {
    for a in faults {
        for b in faults {
            let mut d = good.to_vec();
            a.put(&mut d);
            b.put(&mut d);
            to(&d);
        }
    }
}

/// One or two of the faults, by chance.
pub fn put_any(rng: &mut Rng, faults: &[Fault], d: &mut Vec<u8>) {
    for _ in 0..1 + rng.below(2) {
        rng.pick(faults).put(d);
    }
}

/// First bytes of segments that a reader knows, ports aside, and of one that it does not.
pub const KNOWN: [u8; 11] = [0x20, 0x21, 0x24, 0x25, 0x28, 0x29, 0x2A, 0x30, 0x31, 0x91, 0x2B];

/// A copy that is not quite the same.
pub fn damaged(rng: &mut Rng, good: &[u8]) -> Vec<u8> {
    let mut d = good.to_vec();
    for _ in 0..=rng.below(8) / 7 {
        let at = rng.below(d.len() as u64 + 1) as usize;
        match rng.below(10) {
            0 => d.truncate(at),
            1 => {
                d.pop();
            }
            2 => d.insert(at, rng.pick(&[0, 0, 1, 2, 0x20, 0x91])),
            3 => {
                let n = 1 + rng.below(2) as usize;
                d.extend(rng.bytes(n));
            }
            4 if at < d.len() => {
                d.remove(at);
            }
            5 if at + 1 < d.len() => d.swap(at, at + 1),
            6 if at < d.len() => d[at] = rng.pick(&KNOWN),
            7 if at < d.len() => d[at] = rng.pick(&[0, 1, 2, 14, 15, 254, 255]),
            8 if at < d.len() => d[at] ^= 1 << rng.below(8),
            _ if at < d.len() => d[at] = rng.byte(),
            _ => {}
        }
    }
    d
}
