//! What is measured: each operation is set up only when it is asked for, and its two answers are compared then.
use crate::place;
use bytes::BytesMut;
use rseip_core::codec::Encode;
use std::fmt::Debug;
use std::hint::black_box;

pub mod bodies;
pub mod frames;
pub mod paths;
pub mod replies;
pub mod requests;

/// What our writers answer.
pub type Wrote<'o> = barkcushion::Result<&'o [u8]>;

/// Runs so many calls.
pub type Side = Box<dyn FnMut(u64)>;

pub struct Operation {
    /// bytes that it writes or reads
    pub bytes: usize,
    pub ours: Side,
    /// None: the crate has no such thing
    pub theirs: Option<Side>,
    /// a copy of as many bytes
    pub floor: Side,
    /// the goal: so many times the floor, and 20 ns; None where it is another
    pub within: Option<f64>,
}

/// The goal of all that document 01 asks for.
const WITHIN: Option<f64> = Some(3.0);

/// Name for the command line, name for the table, and how it is set up.
pub type Entry = (&'static str, &'static str, fn() -> Operation);

pub fn all() -> Vec<Entry> {
    [paths::ALL, requests::ALL, bodies::WRITES, replies::ALL, bodies::READS, frames::ALL].concat()
}

pub const ROOM: usize = 4096;
const UNTOUCHED: u8 = 0xA5;

pub fn repeated(mut one: impl FnMut() + 'static) -> Side {
    Box::new(move |calls| {
        for _ in 0..calls {
            one()
        }
    })
}

fn floor(bytes: &[u8]) -> Side {
    let from = place::input(bytes);
    let to = place::output(from.len());
    repeated(move || {
        black_box(&mut *to).copy_from_slice(black_box(from));
        black_box(&*to);
    })
}

/// Ours writes into a lent buffer and answers the written bytes; the crate appends to a buffer that was cleared.
pub fn writer(mut ours: impl FnMut(&mut [u8]) -> Wrote<'_> + 'static, theirs: impl FnMut(&mut BytesMut) + 'static) -> Operation {
    let mut theirs = theirs;
    let mut buf = place::buffer(ROOM);
    theirs(&mut buf);
    let wrote = our_bytes(&mut ours);
    assert_eq!(wrote, buf[..], "ours and the crate's bytes");
    buf.clear();
    let theirs = repeated(move || {
        buf.clear();
        theirs(black_box(&mut buf));
        black_box(&buf[..]);
    });
    Operation { bytes: wrote.len(), floor: floor(&wrote), ours: our_writes(ours), theirs: Some(theirs), within: WITHIN }
}

/// The crate has none; `expected` is what has to be written.
pub fn our_writer(mut ours: impl FnMut(&mut [u8]) -> Wrote<'_> + 'static, expected: &[u8]) -> Operation {
    let wrote = our_bytes(&mut ours);
    assert_eq!(wrote, expected, "our bytes and what has to be written");
    Operation { bytes: wrote.len(), floor: floor(&wrote), ours: our_writes(ours), theirs: None, within: WITHIN }
}

fn our_bytes(ours: &mut impl FnMut(&mut [u8]) -> Wrote<'_>) -> Vec<u8> {
    let mut out = vec![UNTOUCHED; ROOM];
    let n = ours(&mut out).expect("not refused").len();
    assert!(out[n..].iter().all(|b| *b == UNTOUCHED), "bytes behind those written");
    out.truncate(n);
    out
}

fn our_writes(mut ours: impl FnMut(&mut [u8]) -> Wrote<'_> + 'static) -> Side {
    let out = place::output(ROOM);
    repeated(move || {
        black_box(ours(black_box(&mut *out)).unwrap());
    })
}

/// Both tell what they read of the same input.
pub fn reader<T: PartialEq + Debug>(
    input: &[u8],
    mut ours: impl FnMut() -> T + 'static,
    mut theirs: impl FnMut() -> T + 'static,
) -> Operation {
    assert_eq!(ours(), theirs(), "what ours and the crate read");
    let theirs = repeated(move || {
        black_box(theirs());
    });
    Operation { theirs: Some(theirs), ..our_reader(input, ours) }
}

pub fn our_reader<T>(input: &[u8], mut ours: impl FnMut() -> T + 'static) -> Operation {
    let ours = repeated(move || {
        black_box(ours());
    });
    Operation { bytes: input.len(), floor: floor(input), ours, theirs: None, within: WITHIN }
}

/// The crate's writer of a value that stands ready.
pub fn by_ref<E: Encode + 'static>(value: E) -> impl FnMut(&mut BytesMut) {
    let mut e = crate::theirs::enc();
    move |buf| black_box(&value).encode_by_ref(buf, &mut e).unwrap()
}

pub fn crate_bytes(value: &impl Encode) -> Vec<u8> {
    let mut buf = BytesMut::new();
    value.encode_by_ref(&mut buf, &mut crate::theirs::enc()).unwrap();
    buf.to_vec()
}
