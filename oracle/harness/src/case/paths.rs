//! Segments and paths as values, and the lines that ask about them: 01 to 07.

use super::fields::{digits, put_run, whole, Take};

pub const SYMBOL: u8 = 0;
pub const CLASS: u8 = 1;
pub const INSTANCE: u8 = 2;
pub const ATTRIBUTE: u8 = 3;
pub const ELEMENT: u8 = 4;
pub const PORT: u8 = 5;

/// A segment as a value: two are the same when kind, number and bytes are.
#[derive(Clone, PartialEq, Eq, Debug)]
pub struct Plain {
    pub kind: u8,
    pub number: u32,
    pub bytes: Vec<u8>,
}

pub fn plain(kind: u8, number: u32, bytes: &[u8]) -> Plain {
    Plain { kind, number, bytes: bytes.to_vec() }
}

/// A segment as a line has it: the bytes lie in a pool.
#[derive(Clone, Copy, PartialEq, Eq, Debug)]
pub struct Seg {
    pub kind: u8,
    pub number: u32,
    pub start: u32,
    pub len: u32,
}

impl Seg {
    pub fn put(&self, b: &mut Vec<u8>) {
        b.push(self.kind);
        b.extend([self.number, self.start, self.len].map(u32::to_le_bytes).concat());
    }
    pub fn take(t: &mut Take) -> Option<Seg> {
        Some(Seg { kind: t.u8()?, number: t.u32()?, start: t.u32()?, len: t.u32()? })
    }
    /// A list behind its count.
    pub fn put_list(b: &mut Vec<u8>, list: &[Seg]) {
        b.extend((list.len() as u16).to_le_bytes());
        list.iter().for_each(|s| s.put(b));
    }
    pub fn take_list(t: &mut Take) -> Option<Vec<Seg>> {
        (0..t.u16()?).map(|_| Seg::take(t)).collect()
    }
}

/// A case of 01 to 04. `list` has one segment for 01 and 03; 01 and 02 have no room.
#[derive(Clone, Debug)]
pub struct Writer {
    pub op: u8,
    pub pool: Vec<u8>,
    pub list: Vec<Seg>,
    pub room: u32,
}

impl Writer {
    pub fn one_segment(&self) -> bool {
        self.op == 1 || self.op == 3
    }
    pub fn has_room(&self) -> bool {
        self.op == 3 || self.op == 4
    }
    pub fn line(&self) -> Vec<u8> {
        let mut b = vec![self.op];
        put_run(&mut b, &self.pool);
        match self.one_segment() {
            true => self.list[0].put(&mut b),
            false => Seg::put_list(&mut b, &self.list),
        }
        if self.has_room() {
            b.extend(self.room.to_le_bytes());
        }
        digits(&b)
    }
    /// The case of a line that `line` made; None for every other line.
    pub fn of_line(line: &[u8]) -> Option<Writer> {
        whole(line, |op, t| {
            let pool = t.run().filter(|_| (1..=4).contains(&op))?;
            let mut w = Writer { op, pool, list: vec![], room: 0 };
            w.list = if w.one_segment() { vec![Seg::take(t)?] } else { Seg::take_list(t)? };
            if w.has_room() {
                w.room = t.u32()?;
            }
            Some(w)
        })
    }
}

/// A line that gives an operation one run of bytes: 05, 06, 07.
pub fn reader_line(op: u8, input: &[u8]) -> Vec<u8> {
    let mut b = vec![op];
    put_run(&mut b, input);
    digits(&b)
}

/// The list over a pool in which its bytes lie end to end.
pub fn end_to_end(list: &[Plain]) -> (Vec<u8>, Vec<Seg>) {
    let mut pool = vec![];
    let segs = list
        .iter()
        .map(|p| {
            // a kind without bytes has start 0: another start is no case
            let start = if p.kind == SYMBOL || p.kind == PORT { pool.len() as u32 } else { 0 };
            pool.extend(&p.bytes);
            Seg { kind: p.kind, number: p.number, start, len: p.bytes.len() as u32 }
        })
        .collect();
    (pool, segs)
}

/// What a segment stands for over a pool; None where its part does not lie there.
pub fn meaning(pool: &[u8], s: &Seg) -> Option<Plain> {
    let start = s.start as usize;
    let bytes = pool.get(start..start + s.len as usize)?;
    Some(plain(s.kind, s.number, bytes))
}
