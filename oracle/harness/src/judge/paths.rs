//! The judge on segments and paths: operations 01 to 07.

use super::fields::{answer, low_first, writer, Fields, Judged, Reader};

const MOST_SEGMENTS: usize = 127;
const LONGEST_SYMBOL: u32 = 255;
const LONGEST_LINK: u32 = 254;
/// How many segments a LIST of a line may have. More than `MOST_SEGMENTS`, so that the limit can be asked.
const MOST_IN_A_LINE: u16 = 400;

#[derive(Clone, Copy)]
enum Kind {
    Symbol,
    Class,
    Instance,
    Attribute,
    Element,
    Port,
}
use Kind::*;
const KINDS: [Kind; 6] = [Symbol, Class, Instance, Attribute, Element, Port];

pub struct Seg {
    kind: Kind,
    number: u32,
    start: u32,
    len: u32,
}

pub fn case(op: u8, f: &mut Fields) -> Option<Vec<u8>> {
    // 01 to 04 are lent a pool, 05 to 07 an input: each a run of bytes in front
    let bytes = f.run()?;
    let done = match op {
        1 => {
            let s = seg(f)?;
            answer(one(&s, bytes).map(size))
        }
        2 => {
            let l = list(f)?;
            answer(all(&l, bytes).map(size))
        }
        3 => {
            let s = seg(f)?;
            writer(one(&s, bytes), f.room()?)
        }
        4 => {
            let l = list(f)?;
            writer(all(&l, bytes), f.room()?)
        }
        5 => answer(read_all(bytes).map(|l| {
            let count = l.len() as u16;
            [count.to_le_bytes().to_vec(), l.iter().flat_map(fields).collect()].concat()
        })),
        6 => answer(read_one(bytes).map(|(s, n)| [fields(&s), low_first(n as u32)].concat())),
        _ => answer(read_all(bytes).map(|l| low_first(l.len() as u32))),
    };
    f.end()?;
    Some(done)
}

fn size(b: Vec<u8>) -> Vec<u8> {
    low_first(b.len() as u32)
}

// ---- the fields of a line ----

fn seg(f: &mut Fields) -> Option<Seg> {
    let kind = *KINDS.get(f.u8()? as usize)?;
    let (number, start, len) = (f.u32()?, f.u32()?, f.u32()?);
    let most = match kind {
        Symbol => 0,
        Class | Instance | Attribute | Port => 65_535,
        Element => u32::MAX,
    };
    let has_bytes = matches!(kind, Symbol | Port);
    (number <= most && (has_bytes || start == 0 && len == 0)).then_some(Seg { kind, number, start, len })
}

/// Every segment has to be one, those past the list's places too.
pub fn list(f: &mut Fields) -> Option<Vec<Seg>> {
    let count = f.u16()?;
    if count > MOST_IN_A_LINE {
        return None;
    }
    (0..count).map(|_| seg(f)).collect()
}

fn fields(s: &Seg) -> Vec<u8> {
    [vec![s.kind as u8], low_first(s.number), low_first(s.start), low_first(s.len)].concat()
}

// ---- sizes and writers ----

/// 11 before 3.
fn one(s: &Seg, pool: &[u8]) -> Judged<Vec<u8>> {
    let end = u64::from(s.start) + u64::from(s.len);
    if end > pool.len() as u64 {
        return Err(11);
    }
    let most = if matches!(s.kind, Symbol) { LONGEST_SYMBOL } else { LONGEST_LINK };
    if s.len > most {
        return Err(3);
    }
    Ok(encoding(s, &pool[s.start as usize..end as usize]))
}

/// The count, then the segments first to last.
pub fn all(l: &[Seg], pool: &[u8]) -> Judged<Vec<u8>> {
    if l.len() > MOST_SEGMENTS {
        return Err(3);
    }
    let mut out = vec![];
    for s in l {
        out.extend(one(s, pool)?);
    }
    Ok(out)
}

fn encoding(s: &Seg, bytes: &[u8]) -> Vec<u8> {
    let mut b = match s.kind {
        Class => logical(0x20, s.number),
        Instance => logical(0x24, s.number),
        Element => logical(0x28, s.number),
        Attribute => logical(0x30, s.number),
        Symbol => [&[0x91, bytes.len() as u8], bytes].concat(),
        Port => {
            let far = s.number > 14;
            let long = bytes.len() > 1;
            let mut b = vec![if far { 15 } else { s.number as u8 } + if long { 16 } else { 0 }];
            if long {
                b.push(bytes.len() as u8);
            }
            if far {
                b.extend([(s.number / 256) as u8, s.number as u8]);
            }
            b.extend(bytes);
            b
        }
    };
    if b.len() % 2 != 0 {
        b.push(0);
    }
    b
}

/// Code, or code + 1 or + 2 for two and four bytes with a zero before them.
fn logical(code: u8, number: u32) -> Vec<u8> {
    let low = low_first(number);
    match number {
        0..=255 => vec![code, low[0]],
        256..=65_535 => vec![code + 1, 0, low[0], low[1]],
        _ => [vec![code + 2, 0], low].concat(),
    }
}

// ---- the strict reader ----

/// A bare path has no limit on its bytes (DECISIONS 6). The 128th segment is 3 when its first byte is met.
pub fn read_all(input: &[u8]) -> Judged<Vec<Seg>> {
    let mut l = vec![];
    let mut at = 0;
    while at < input.len() {
        if l.len() == MOST_SEGMENTS {
            return Err(3);
        }
        let (mut s, n) = read_one(&input[at..])?;
        if matches!(s.kind, Symbol | Port) {
            s.start += at as u32;
        }
        l.push(s);
        at += n;
    }
    Ok(l)
}

/// The segment at the front and its size. Fields in wire order, each present (1) before it is judged.
fn read_one(t: &[u8]) -> Judged<(Seg, usize)> {
    let mut r = Reader { t, at: 0 };
    let code = r.byte()?;
    let s = match code {
        0x20 | 0x24 | 0x28 | 0x30 => number(logical_kind(code), r.number(1)?),
        // the zero after the first byte is a field of its own (DECISIONS 6)
        0x21 | 0x25 | 0x29 | 0x31 => {
            r.zeros(1)?;
            number(logical_kind(code - 1), above(255, r.number(2)?)?)
        }
        0x2A => {
            r.zeros(1)?;
            number(Element, above(65_535, r.number(4)?)?)
        }
        0x91 => {
            let len = u32::from(r.byte()?);
            part(Symbol, 0, &mut r, len)?
        }
        0x00..=0x1F => {
            // length byte, port (high byte first), link, pad: the order of DECISIONS 6
            let len = if code & 0x10 == 0 { 1 } else { link_length(r.byte()?)? };
            let near = u32::from(code & 0x0F);
            let port = if near < 15 { near } else { above(14, 256 * u32::from(r.byte()?) + u32::from(r.byte()?))? };
            part(Port, port, &mut r, len)?
        }
        _ => return Err(4),
    };
    if !r.at.is_multiple_of(2) {
        r.zeros(1)?;
    }
    Ok((s, r.at))
}

fn logical_kind(code: u8) -> Kind {
    match code {
        0x20 => Class,
        0x24 => Instance,
        0x28 => Element,
        _ => Attribute,
    }
}

fn number(kind: Kind, number: u32) -> Seg {
    Seg { kind, number, start: 0, len: 0 }
}

/// A wide form is for what the narrower one can't hold.
fn above(narrow: u32, n: u32) -> Judged<u32> {
    if n > narrow {
        Ok(n)
    } else {
        Err(5)
    }
}

fn link_length(n: u8) -> Judged<u32> {
    match u32::from(n) {
        0 | 1 => Err(5),
        n if n > LONGEST_LINK => Err(3),
        n => Ok(n),
    }
}

fn part(kind: Kind, number: u32, r: &mut Reader, len: u32) -> Judged<Seg> {
    let start = r.part(len as usize)?.start as u32;
    Ok(Seg { kind, number, start, len })
}
