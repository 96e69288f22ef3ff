//! Paths of 1, 3 and 12 segments.
use super::{by_ref, crate_bytes, our_reader, writer, Entry, Operation, Wrote};
use crate::theirs::enc;
use barkcushion::{check_path, read_path, write_path, write_rows, PathBuilder, Segment};
use bytes::{Bytes, BytesMut};
use rseip_cip::epath::{self, EPath, PortSegment};
use rseip_core::codec::Encode;
use std::hint::black_box;

pub const ALL: &[Entry] = &[
    ("path-1", "path of 1, from a list", || writer(ready(&our_1()), by_ref(their_1()))),
    ("path-3", "path of 3, from a list", || writer(ready(&our_3()), by_ref(their_3()))),
    ("path-12", "path of 12, from a list", || writer(ready(&our_12()), by_ref(their_12()))),
    ("path-1-anew", "path of 1, list built anew", || writer(|out| write_path(&our_1(), out), anew(their_1))),
    ("path-3-anew", "path of 3, list built anew", || writer(|out| write_path(&our_3(), out), anew(their_3))),
    ("path-12-anew", "path of 12, list built anew", || writer(|out| write_path(&our_12(), out), anew(their_12))),
    ("path-1-check", "path of 1, judged", || check(crate_bytes(&their_1()), 1)),
    ("path-3-check", "path of 3, judged", || check(crate_bytes(&their_3()), 3)),
    ("path-12-check", "path of 12, judged", || check(crate_bytes(&their_12()), 12)),
    ("path-1-read", "path of 1, read", || read(crate_bytes(&their_1()), &our_1())),
    ("path-3-read", "path of 3, read", || read(crate_bytes(&their_3()), &our_3())),
    ("path-12-read", "path of 12, read", || read(crate_bytes(&their_12()), &our_12())),
];

#[inline(always)]
fn our_1() -> [Segment<'static>; 1] {
    [Segment::Symbol(black_box(b"Flow1"))]
}
#[inline(always)]
fn their_1() -> EPath {
    EPath::new().with_symbol(black_box("Flow1"))
}

#[inline(always)]
pub fn our_3() -> [Segment<'static>; 3] {
    [Segment::Port { port: black_box(1), link: black_box(&[0]) }, Segment::Class(black_box(2)), Segment::Instance(black_box(1))]
}
#[inline(always)]
pub fn their_3() -> EPath {
    EPath::new().with_port(black_box(1)).with_class(black_box(2)).with_instance(black_box(1))
}

#[inline(always)]
fn our_12() -> [Segment<'static>; 12] {
    [
        Segment::Port { port: black_box(1), link: black_box(&[0]) },
        Segment::Port { port: black_box(2), link: black_box(b"10.0.0.7") },
        Segment::Class(black_box(2)),
        Segment::Instance(black_box(1)),
        Segment::Attribute(black_box(7)),
        Segment::Class(black_box(0x1234)),
        Segment::Instance(black_box(0x0105)),
        Segment::Symbol(black_box(b"Flow1")),
        Segment::Element(black_box(255)),
        Segment::Symbol(black_box(b"Tank")),
        Segment::Element(black_box(256)),
        Segment::Element(black_box(65_536)),
    ]
}
#[inline(always)]
fn their_12() -> EPath {
    let mut p = EPath::new().with_port(black_box(1));
    p.push(epath::Segment::Port(PortSegment { port: black_box(2), link: Bytes::from_static(black_box(b"10.0.0.7")) }));
    p.with_class(black_box(2))
        .with_instance(black_box(1))
        .with_attribute(black_box(7))
        .with_class(black_box(0x1234))
        .with_instance(black_box(0x0105))
        .with_symbol(black_box("Flow1"))
        .with_element(black_box(255))
        .with_symbol(black_box("Tank"))
        .with_element(black_box(256))
        .with_element(black_box(65_536))
}

/// A list that stands ready.
pub fn list(segments: &[Segment<'_>]) -> Box<PathBuilder> {
    let mut list = Box::new(PathBuilder::new());
    list.fill(segments).unwrap();
    list
}

fn ready(segments: &[Segment<'_>]) -> impl FnMut(&mut [u8]) -> Wrote<'_> {
    let list = list(segments);
    move |out| black_box(&*list).write(out)
}

fn anew(path: impl Fn() -> EPath) -> impl FnMut(&mut BytesMut) {
    let mut e = enc();
    move |buf| path().encode(buf, &mut e).unwrap()
}

fn check(path: Vec<u8>, segments: usize) -> Operation {
    assert_eq!(check_path(&path), Ok(segments));
    let input = path.clone();
    our_reader(&input, move || check_path(black_box(&path)).unwrap())
}

fn read(path: Vec<u8>, segments: &[Segment<'_>]) -> Operation {
    let mut rows = vec![0u32; 4 * barkcushion::MAX_SEGMENTS];
    let read = read_path(&path, &mut rows).unwrap();
    let mut again = vec![0; path.len()];
    assert_eq!(write_rows(read.rows(), &path, &mut again), Ok(&path[..]), "what was read, written again");
    assert!(read.eq(segments.iter().copied()), "what was read, and the list that was written");
    let input = path.clone();
    our_reader(&input, move || {
        let n = read_path(black_box(&path), black_box(&mut rows[..])).unwrap().len();
        black_box(&rows[..]);
        n
    })
}
