//! Document 01's cards, through the public functions.
use barkcushion::*;

fn path(segments: &[Segment<'_>]) -> Vec<u8> {
    let mut out = [0; 600];
    let bytes = write_path(segments, &mut out).unwrap();
    assert_eq!(path_size(segments), Ok(bytes.len()));
    bytes.to_vec()
}

#[test]
fn ports() {
    let port = |port, link| path(&[Segment::Port { port, link }]);
    assert_eq!(port(14, &[5]), [0x0E, 5]);
    assert_eq!(port(15, &[5]), [0x0F, 0, 0x0F, 5]);
    assert_eq!(port(1, &[]), [1, 0]);
    assert_eq!(port(1, &[0]), [1, 0]);
    assert_eq!(port(2, b"10.0.0.7"), *b"\x12\x0810.0.0.7");
}

#[test]
fn elements_and_symbols() {
    let element = |n| path(&[Segment::Element(n)]);
    assert_eq!(element(255), [0x28, 0xFF]);
    assert_eq!(element(256), [0x29, 0, 0, 1]);
    assert_eq!(element(65535), [0x29, 0, 0xFF, 0xFF]);
    assert_eq!(element(65536), [0x2A, 0, 0, 0, 1, 0]);
    assert_eq!(path(&[Segment::Symbol(b"Flow1")]), [0x91, 5, 0x46, 0x6C, 0x6F, 0x77, 0x31, 0]);
    assert_eq!(check_path(&[0x21, 0, 5, 0]), Err(Error::Form));
}

#[test]
fn default_forward_open() {
    let route = path(&[Segment::Port { port: 1, link: &[] }, Segment::Class(2), Segment::Instance(1)]);
    let mut out = [0; 64];
    let open = ForwardOpen::new(Form::Small, 0x1234, &route);
    let small = open.write(&mut out).unwrap();
    assert_eq!(small.len(), 42);
    assert_eq!(small[10..12], [0x34, 0x12]);
    assert_eq!((&small[26..28], &small[32..34], small[34]), (&[0xF8, 0x45][..], &[0xF8, 0x45][..], 0xA3));
    assert_eq!(open.transport.class, TransportClass::Class3);
    assert_eq!(open.o_t.connection_type, ConnectionType::PointToPoint);
    let large = ForwardOpen::new(Form::Large, 0x1234, &route).write(&mut out).unwrap();
    assert_eq!(large.len(), 46);
    assert_eq!((&large[26..30], &large[34..38]), (&[0xF8, 1, 0, 0x44][..], &[0xF8, 1, 0, 0x44][..]));
    assert_eq!(large[38], 0xA3);
}

#[test]
fn replies_and_bodies() {
    assert_eq!(Reply::read(&[0x8E, 0, 8, 1, 3, 0]).unwrap().status, Status { general: 8, extended: Some(3) });
    assert_eq!(Reply::read(&[0x8E, 0, 8, 1, 3]), Err(Error::Short));

    let bytes = [2, 0, 6, 0, 14, 0, 0x8E, 0, 1, 2, 0, 0, 0, 0, 0x8E, 0, 0, 0, 0, 0, 0x48, 0x42];
    let body = Body::read(&bytes).unwrap();
    let replies: Vec<_> = body.replies().collect();
    assert_eq!(replies[0], Err(Error::Words));
    assert_eq!(replies[1].unwrap().data, [0, 0, 0x48, 0x42]);
    assert_eq!((replies.len(), body.replies().len(), body.items().len()), (2, 2, 2));
    assert_eq!(body.item(1), Ok(&bytes[14..]));

    let mut out = [0; 9];
    let joined = join_bodies(&[1, 0, 4, 0, 0xAA], &[1, 0, 4, 0, 0xBB, 0xCC], &mut out).unwrap();
    assert_eq!(joined, [2, 0, 6, 0, 7, 0, 0xAA, 0xBB, 0xCC]);
}

#[test]
fn dump() {
    let message = [
        0x0A, 2, 0x20, 2, 0x24, 1, 2, 0, 6, 0, 0x0E, 0, 0x0E, 3, 0x20, 1, 0x24, 1, 0x30, 7, 0x0E, 3, 0x20, 1, 0x24, 1,
        0x30, 6,
    ];
    let mut numbers = [0; 64];
    let rows = read_nested(&message, &mut numbers).unwrap();
    assert_eq!(rows.len(), 3);
    assert_eq!(rows.map(|row| row.to_string()).collect::<Vec<_>>(), ["0 0A 4 22", "1 0E 6 0", "1 0E 6 0"]);
}

#[test]
fn refusals() {
    for (i, e) in Error::ALL.into_iter().enumerate() {
        assert_eq!(usize::from(e.number()), i + 1);
        assert_eq!(Error::from_number(e.number()), Some(e));
        assert!(e.to_string().starts_with(&format!("refused {}: ", i + 1)));
    }
    assert_eq!((Error::from_number(0), Error::from_number(12)), (None, None));
    let _: Box<dyn std::error::Error> = Box::new(Error::Short);
}
