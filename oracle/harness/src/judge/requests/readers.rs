//! The judge's readers of requests, 18 to 1B. Fields in wire order, each present (1) before its content is judged;
//! reserved bits (5) before codes (4); what is left over (8) last. Which bits are reserved, and which bytes are one
//! field, is in DECISIONS 2 to 5.

use crate::judge::fields::{Judged, Part, Reader};
use crate::judge::paths::read_all;

/// A path behind a size byte.
pub const LONGEST_PATH: usize = 254;

/// The two forms of a Forward Open's parameter words.
#[derive(Clone, Copy, PartialEq)]
pub enum Form {
    Small,
    Large,
}

pub fn message(input: &[u8]) -> Judged<Vec<u8>> {
    let (service, path, data) = message_parts(input)?;
    Ok([vec![service], path.fields(), data.fields()].concat())
}

/// Service, size in words, path, and the rest is data.
pub fn message_parts(input: &[u8]) -> Judged<(u8, Part, Part)> {
    let mut r = Reader::new(input)?;
    let service = r.byte()?;
    let size = r.path_size()?;
    let path = r.path(size)?;
    Ok((service, path, r.rest()))
}

pub fn open(form: Form, input: &[u8]) -> Judged<Vec<u8>> {
    let mut r = Reader::new(input)?;
    // as in the record: priority, ticks, two ids, serial, vendor, originator, multiplier
    let mut out = vec![r.priority()?];
    out.extend(r.plain(1 + 4 + 4 + 2 + 2 + 4 + 1)?);
    r.zeros(3)?;
    for _ in 0..2 {
        out.extend(r.plain(4)?);
        out.extend(match form {
            Form::Small => small(r.number(2)?)?,
            Form::Large => large(r.number(4)?)?,
        });
    }
    let byte = r.number(1)?;
    let (direction, trigger, class) = (byte / 128, byte / 16 % 8, byte % 16);
    if trigger > 2 || class > 6 {
        return Err(4);
    }
    out.extend([direction, trigger, class].map(|n| n as u8));
    let size = r.path_size()?;
    out.extend(r.path(size)?.fields());
    r.end()?;
    Ok(out)
}

/// Bits 0-8 size, 9 variable, 10-11 priority, 12 reserved, 13-14 type, 15 owner.
fn small(word: u32) -> Judged<Vec<u8>> {
    if bits(word, 12, 1) != 0 {
        return Err(5);
    }
    par(bits(word, 0, 9), bits(word, 9, 1), bits(word, 10, 2), bits(word, 13, 2), bits(word, 15, 1))
}

/// Bits 0-15 size, 16-24 reserved, 25 variable, 26-27 priority, 28 reserved, 29-30 type, 31 owner.
fn large(word: u32) -> Judged<Vec<u8>> {
    if bits(word, 16, 9) != 0 || bits(word, 28, 1) != 0 {
        return Err(5);
    }
    par(bits(word, 0, 16), bits(word, 25, 1), bits(word, 26, 2), bits(word, 29, 2), bits(word, 31, 1))
}

fn bits(word: u32, from: u32, how_many: u32) -> u32 {
    word >> from & ((1 << how_many) - 1)
}

fn par(size: u32, variable: u32, priority: u32, kind: u32, owner: u32) -> Judged<Vec<u8>> {
    if kind == 3 {
        return Err(4);
    }
    let size = [size % 256, size / 256];
    Ok([size[0], size[1], variable, priority, kind, owner].map(|n| n as u8).to_vec())
}

pub fn close(input: &[u8]) -> Judged<Vec<u8>> {
    let mut r = Reader::new(input)?;
    // priority, ticks, serial, vendor, originator
    let mut out = vec![r.priority()?];
    out.extend(r.plain(1 + 2 + 2 + 4)?);
    let size = r.path_size()?;
    r.zeros(1)?;
    out.extend(r.path(size)?.fields());
    r.end()?;
    Ok(out)
}

pub fn send(input: &[u8]) -> Judged<Vec<u8>> {
    let (head, message, path) = send_parts(input)?;
    Ok([head, message.fields(), path.fields()].concat())
}

/// Priority and ticks, the message, the route. The message is plain bytes of any length; the pad after an odd one is a
/// field.
pub fn send_parts(input: &[u8]) -> Judged<(Vec<u8>, Part, Part)> {
    let mut r = Reader::new(input)?;
    let mut out = vec![r.priority()?];
    out.extend(r.plain(1)?);
    let len = r.number(2)? as usize;
    let message = r.part(len)?;
    if !len.is_multiple_of(2) {
        r.zeros(1)?;
    }
    let size = r.path_size()?;
    r.zeros(1)?;
    let path = r.path(size)?;
    r.end()?;
    Ok((out, message, path))
}

impl Reader<'_> {
    fn priority(&mut self) -> Judged<u8> {
        let byte = self.byte()?;
        if byte > 15 {
            Err(5)
        } else {
            Ok(byte)
        }
    }
    /// The size byte is a field that stands before the path: over the limit it is 3 whatever follows.
    fn path_size(&mut self) -> Judged<usize> {
        let size = 2 * self.number(1)? as usize;
        if size > LONGEST_PATH {
            Err(3)
        } else {
            Ok(size)
        }
    }
    /// The path is read with its part as its whole input.
    fn path(&mut self, len: usize) -> Judged<Part> {
        let p = self.part(len)?;
        read_all(&self.t[p.start..self.at])?;
        Ok(p)
    }
}
