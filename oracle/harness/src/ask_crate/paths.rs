//! The crate on segments and paths; and what the files beside this one share: its limits, what it wrote, what it did.

use crate::case::{digits, meaning, Plain, Writer, ATTRIBUTE, CLASS, ELEMENT, INSTANCE, PORT, SYMBOL};
use crate::{both_ways, Encode, OracleError};
use bytes::Bytes;
use rseip_cip::epath::{EPath, PortSegment, Segment};

/// Document 01's domain of the Rust: what is accepted there, with symbols that its `String` can hold.
const MOST_SEGMENTS: usize = 127;
const LONGEST_SYMBOL: usize = 255;
const LONGEST_LINK: usize = 254;
pub const LONGEST_PATH: usize = 254;
pub const LONGEST_RECORD: usize = 65_535;

/// None: not in the domain.
pub fn segment(p: &Plain) -> Option<Segment> {
    Some(match p.kind {
        SYMBOL if p.bytes.len() <= LONGEST_SYMBOL => Segment::Symbol(String::from_utf8(p.bytes.clone()).ok()?),
        CLASS => Segment::Class(p.number.try_into().ok()?),
        INSTANCE => Segment::Instance(p.number.try_into().ok()?),
        ATTRIBUTE => Segment::Attribute(p.number.try_into().ok()?),
        ELEMENT => Segment::Element(p.number),
        PORT if p.bytes.len() <= LONGEST_LINK => {
            Segment::Port(PortSegment { port: p.number.try_into().ok()?, link: Bytes::from(p.bytes.clone()) })
        }
        _ => return None,
    })
}

/// What the crate did with an input, by kind.
#[derive(Clone, Copy, PartialEq, Eq, PartialOrd, Ord, Debug)]
pub enum Did {
    Accepted,
    /// its error that has a failed status
    Failed,
    /// its error for too few bytes
    TooShort,
    /// its error for a value
    BadValue,
    OtherError,
    /// a walk that says there is no more
    Ended,
    Panicked,
}

impl Did {
    pub fn of(e: &OracleError) -> Did {
        match e {
            OracleError::Short { .. } => Did::TooShort,
            OracleError::InvalidValue(_) => Did::BadValue,
            OracleError::Custom(_) => Did::OtherError,
        }
    }
}

/// What the crate wrote; Err where it is not at one with itself, or panicked.
pub type Wrote = Result<Vec<u8>, String>;

/// By reference, by value, and the count: all three have to agree.
pub fn wrote<E: Encode>(v: E) -> Wrote {
    match both_ways(v) {
        Ok((by_ref, by_value, _)) if by_ref[..] != by_value[..] => Err("the crate's encode and encode_by_ref differ".into()),
        Ok((by_ref, _, count)) if count != by_ref.len() => {
            Err(format!("the crate wrote {} bytes and counted {count}", by_ref.len()))
        }
        Ok((by_ref, ..)) => Ok(by_ref),
        Err(p) => Err(format!("the crate panicked: {p}")),
    }
}

pub fn one(p: &Plain) -> Option<Wrote> {
    Some(wrote(segment(p)?))
}

/// A path of the domain.
pub fn epath(l: &[Plain]) -> Option<EPath> {
    if l.len() > MOST_SEGMENTS {
        return None;
    }
    let segments: Option<Vec<Segment>> = l.iter().map(segment).collect();
    Some(EPath::from(segments?))
}

pub fn list(l: &[Plain]) -> Option<Wrote> {
    Some(wrote(epath(l)?))
}

/// The answer line for a case of 01 to 04, made from the crate's bytes and its count. None where the case is not in
/// the domain, or has too little room: the crate's buffer grows.
pub fn answer(w: &Writer) -> Option<Vec<u8>> {
    let plain: Option<Vec<Plain>> = w.list.iter().map(|s| meaning(&w.pool, s)).collect();
    let wrote = if w.one_segment() { one(&plain?[0])? } else { list(&plain?)? };
    writer_answer(&wrote, w.has_room().then_some(w.room))
}

/// The size, and where there is a room the bytes and what is left of it. An Err of the crate's is its text, which no
/// program answers, so it is counted as differing.
pub fn writer_answer(wrote: &Wrote, room: Option<u32>) -> Option<Vec<u8>> {
    let bytes = match wrote {
        Ok(b) => b,
        Err(text) => return Some(text.clone().into_bytes()),
    };
    let mut a = vec![0];
    a.extend((bytes.len() as u32).to_le_bytes());
    if let Some(room) = room {
        let spare = (room as usize).checked_sub(bytes.len())?;
        a.extend(bytes);
        a.extend(std::iter::repeat_n(0xA5, spare));
    }
    Some(digits(&a))
}
