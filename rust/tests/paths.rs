//! Paths at their limits, and read back.
mod common;
use barkcushion::*;
use common::{every_room, refused};

#[test]
fn rooms() {
    for (size, segments) in [
        (0, &[][..]),
        (2, &[Segment::Class(255)]),
        (4, &[Segment::Attribute(256)]),
        (6, &[Segment::Element(65536)]),
        (2, &[Segment::Symbol(b"")]),
        (258, &[Segment::Symbol(&[7; 255])]),
        (258, &[Segment::Port { port: 15, link: &[7; 254] }]),
        (12, &[Segment::Symbol(b"Flow1"), Segment::Class(1), Segment::Instance(1)]),
        (254, &[Segment::Class(1); 127]),
        (127 * 258, &[Segment::Symbol(&[7; 255]); 127]),
    ] {
        assert_eq!(path_size(segments), Ok(size));
        let bytes = every_room(size, |out| write_path(segments, out));
        assert_eq!(check_path(&bytes), Ok(segments.len()));
    }
}

#[test]
fn limits() {
    refused(Error::Limit, |out| write_path(&[Segment::Class(1); 128], out));
    refused(Error::Limit, |out| write_path(&[Segment::Symbol(&[7; 256])], out));
    refused(Error::Limit, |out| write_path(&[Segment::Port { port: 1, link: &[7; 255] }], out));
    assert_eq!(path_size(&[Segment::Symbol(&[7; 256])]), Err(Error::Limit));
    assert_eq!(check_path(&[0x20; 2 * 127]), Ok(127));
    assert_eq!(check_path(&[0x20; 2 * 127 + 1]), Err(Error::Limit)); // the 128th, at its first byte
    assert_eq!(check_path(&[0x20]), Err(Error::Short));
    assert_eq!(check_path(&[0xFF, 0]), Err(Error::Code));
    assert_eq!(check_path(b"\x91\x01a\x01"), Err(Error::Form));
}

#[test]
fn rows_of_the_caller() {
    let pool = b"Flow1";
    every_room(8, |out| write_rows(&[0, 0, 0, 5], pool, out));
    every_room(8, |out| write_rows(&[0, 9, 0, 5, 1, 2, 3], pool, out)); // a symbol's number, and a row that is not whole
    every_room(0, |out| write_rows(&[], &[], out));
    every_room(2, |out| write_rows(&[0, 0, 5, 0], pool, out)); // at the pool's end
    refused(Error::Code, |out| write_rows(&[6, 0, 0, 0], pool, out));
    refused(Error::Limit, |out| write_rows(&[1, 65536, 0, 0], pool, out));
    refused(Error::Limit, |out| write_rows(&[5, 65536, 0, 0], pool, out));
    refused(Error::Outside, |out| write_rows(&[0, 0, 0, 6], pool, out));
    refused(Error::Outside, |out| write_rows(&[0, 0, 6, 0], pool, out));
    refused(Error::Outside, |out| write_rows(&[0, 0, u32::MAX, u32::MAX], pool, out));
    refused(Error::Outside, |out| write_rows(&[0, 0, 0, 256], pool, out)); // before the limit
    refused(Error::Limit, |out| write_rows(&[0, 0, 0, 256], &[7; 256], out));
    refused(Error::Limit, |out| write_rows(&[6; 4 * 128], pool, out)); // before any segment
    assert_eq!(rows_size(&[6, 0, 0, 0], pool), Err(Error::Code));
}

/// Segment by segment, as the header says: what a later one has does not matter.
#[test]
fn rows_in_order() {
    let pool = b"Flow1";
    refused(Error::Outside, |out| write_rows(&[0, 0, 0, 6, 6, 0, 0, 0], pool, out));
    refused(Error::Outside, |out| write_rows(&[0, 0, 0, 6, 1, 65536, 0, 0], pool, out));
    refused(Error::Limit, |out| write_rows(&[1, 65536, 0, 0, 6, 0, 0, 0], pool, out));
    refused(Error::Limit, |out| write_rows(&[5, 65536, 9, 9], pool, out)); // the number before the part
    every_room(2, |out| write_rows(&[1, 2, 7, 9], pool, out)); // a class has no part
}

#[test]
fn builder() {
    let mut path = PathBuilder::new();
    assert!(path.is_empty());
    every_room(0, |out| path.write(out));
    path.push(Segment::Symbol(b"Flow1")).unwrap().push(Segment::Port { port: 2, link: b"10" }).unwrap();
    assert_eq!((path.len(), path.size()), (2, Ok(12)));
    assert_eq!(path.push(Segment::Symbol(&[7; 256])).err(), Some(Error::Limit));
    assert_eq!(path.push(Segment::Port { port: 1, link: &[7; 255] }).err(), Some(Error::Limit));
    assert_eq!(path.len(), 2);
    assert_eq!(every_room(12, |out| path.write(out)), *b"\x91\x05Flow1\0\x12\x0210");
    assert_eq!(format!("{path:?}"), "[Symbol([70, 108, 111, 119, 49]), Port { port: 2, link: [49, 48] }]");
    let most = [Segment::Symbol(&[7; 255]); 127];
    assert!(path.fill(&most).unwrap().segments().eq(most));
    assert_eq!(path.push(Segment::Class(1)).err(), Some(Error::Limit));
    assert_eq!(path.len(), 127);
    assert_eq!(path.fill(&[Segment::Class(1), Segment::Symbol(&[7; 256])]).err(), Some(Error::Limit));
    assert!(path.is_empty());
}

/// Every kind, at both sides of every step of its width.
fn kinds() -> Vec<Segment<'static>> {
    let mut all = Vec::new();
    for n in [0, 1, 14, 15, 16, 255, 256, 65535] {
        all.extend([Segment::Class(n), Segment::Instance(n), Segment::Attribute(n), Segment::Element(n.into())]);
        all.extend([&[0][..], &[5], b"10", b"10.", &[7; 253], &[7; 254]].map(|link| Segment::Port { port: n, link }));
    }
    all.extend([65536, u32::MAX].map(Segment::Element));
    all.extend([&b""[..], b"F", b"Fl", &[0xFF; 254], &[0; 255]].map(Segment::Symbol));
    all
}

#[test]
fn read_back() {
    let all = kinds();
    let (mut out, mut rows) = ([0; 33000], [0; 4 * 127]);
    assert!(all.len() <= 127);
    let path = write_path(&all, &mut out).unwrap();
    let segments = read_path(path, &mut rows).unwrap();
    assert_eq!(segments.len(), all.len());
    let mut again = [0; 33000];
    assert_eq!(write_rows(segments.rows(), path, &mut again), Ok(path));
    for (got, want) in segments.zip(&all) {
        match (got, *want) {
            // These two are one on the wire: the same bytes, written or read.
            (Segment::Port { port, link: [] | [0] }, Segment::Port { port: wanted, link: [0] }) => {
                assert_eq!(port, wanted)
            }
            (got, want) => assert_eq!(got, want),
        }
    }
}

#[test]
fn read_rooms() {
    for path in [&[][..], &[0x20, 6, 0x24, 1, 0x30, 7], &[0x20; 2 * 127]] {
        let count = check_path(path).unwrap();
        for room in [0, 4 * count, (4 * count).saturating_sub(1), 4 * count + 3] {
            let mut rows = [0xA5A5_A5A5; 600];
            let got = read_path(path, &mut rows[..room]).map(|segments| segments.len());
            let filled = if room < 4 * count { 0 } else { 4 * count };
            assert_eq!(got, if room < 4 * count { Err(Error::Room) } else { Ok(count) });
            assert!(rows[..filled].iter().all(|n| *n != 0xA5A5_A5A5), "not filled");
            assert!(rows[filled..].iter().all(|n| *n == 0xA5A5_A5A5), "changed behind or though refused");
        }
    }
    let mut rows = [0xA5A5_A5A5; 4];
    assert_eq!(read_path(&[0x21, 0, 5, 0], &mut rows).err(), Some(Error::Form));
    assert_eq!(read_path(&[0x20, 5, 0x20], &mut rows).err(), Some(Error::Short));
    assert_eq!(rows, [0xA5A5_A5A5; 4]);
}
