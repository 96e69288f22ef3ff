//! Bodies and nested messages at their limits.
mod common;
use barkcushion::*;
use common::{every_room, refused};

#[test]
fn written() {
    assert_eq!(every_room(2, |out| write_body(&[], &[], out)), [0, 0]);
    assert_eq!(every_room(5, |out| write_body(&[9], &[1], out)), [1, 0, 4, 0, 9]);
    every_room(9, |out| write_body(&[1, 2, 3, 4], &[1, 2], out)); // one byte behind the items
    refused(Error::Outside, |out| write_body(&[1, 2], &[1, 2], out));
    refused(Error::Outside, |out| write_body(&[1, 2], &[usize::MAX], out));
    refused(Error::Offset, |out| write_body(&[1, 2], &[1, 0, 9], out)); // the first that breaks a rule
    let items = vec![7; 65532];
    every_room(65535, |out| write_body(&items, &[65531], out));
    refused(Error::Limit, |out| write_body(&items, &[65532], out));
}

#[test]
fn read() {
    assert_eq!(Body::read(&[0, 0]).map(|b| b.len()), Ok(0));
    for (why, bytes) in [
        (Error::Short, &[][..]),
        (Error::Short, &[1]),
        (Error::Short, &[1, 0, 4]),
        (Error::Leftover, &[0, 0, 1]),
        (Error::Offset, &[1, 0, 4, 0]),
        (Error::Offset, &[1, 0, 5, 0, 9, 9]),
        (Error::Offset, &[2, 0, 6, 0, 6, 0, 9]),
        (Error::Offset, &[2, 0, 6, 0, 8, 0, 9, 9]),
    ] {
        assert_eq!(Body::read(bytes), Err(why), "{bytes:?}");
    }
    assert_eq!(Body::read(&[0; 65536]), Err(Error::Limit));
}

#[test]
fn walked() {
    let n = 21844; // the most: 2 + 2n + n bytes
    let lengths = vec![1; n];
    let items: Vec<u8> = (0..n).map(|i| i as u8).collect();
    refused(Error::Limit, |out| write_body(&[7; 21845], &[1; 21845], out));
    let mut out = vec![0; 65535];
    let body = Body::read(write_body(&items, &lengths, &mut out).unwrap()).unwrap();
    assert_eq!((body.len(), body.is_empty(), body.items().len()), (n, false, n));
    assert!(body.items().eq(items.chunks(1)));
    assert_eq!(body.item(n - 1), Ok(&items[n - 1..]));
    for index in [n, n + 1, usize::MAX] {
        assert_eq!(body.item(index), Err(Error::Outside));
        assert_eq!(body.reply(index), Err(Error::Outside));
    }
    // One byte is no reply: every item is refused, and the walk goes on to the last.
    assert_eq!(body.replies().filter(|r| *r == Err(Error::Short)).count(), n);
    let mut left = body.replies();
    left.next();
    assert_eq!(left.len(), n - 1);
}

#[test]
fn built() {
    let (mut bytes, mut lengths) = ([0xA5; 5], [0; 2]);
    let mut body = BodyBuilder::new(&mut bytes, &mut lengths);
    every_room(2, |out| body.write(out));
    assert_eq!(body.push(&[]).err(), Some(Error::Offset));
    assert_eq!(body.push(&[1; 6]).err(), Some(Error::Room));
    assert!(body.is_empty());
    body.push(&[1, 2, 3]).unwrap();
    assert_eq!(body.push(&[1, 2, 3]).err(), Some(Error::Room)); // one byte too many
    body.push_message(&Message { service: 9, path: &[], data: &[] }).unwrap(); // exactly full
    assert_eq!(body.push(&[1]).err(), Some(Error::Room)); // no length left, and no byte
    assert_eq!(body.len(), 2);
    assert_eq!(every_room(11, |out| body.write(out)), [2, 0, 6, 0, 9, 0, 1, 2, 3, 9, 0]);
    assert_eq!(body.fill(&[&[1], &[]]).err(), Some(Error::Offset));
    assert!(body.is_empty());
    assert_eq!(body.fill(&[&[1], &[2], &[3]]).err(), Some(Error::Room));
    body.fill(&[&[1], &[2]]).unwrap();
    let path = Message { service: 9, path: &[0xFF, 0], data: &[] };
    body.clear();
    assert_eq!(body.push_message(&path).err(), Some(Error::Code));
    assert!(body.is_empty());
}

#[test]
fn joined() {
    let (first, second) = ([1, 0, 4, 0, 0xAA], [1, 0, 4, 0, 0xBB, 0xCC]);
    every_room(9, |out| join_bodies(&first, &second, out));
    every_room(2, |out| join_bodies(&[0, 0], &[0, 0], out));
    assert_eq!(every_room(5, |out| join_bodies(&first, &[0, 0], out)), first);
    refused(Error::Short, |out| join_bodies(&[1], &[0, 0, 1], out)); // the first's own first
    refused(Error::Leftover, |out| join_bodies(&first, &[0, 0, 1], out));
    let mut out = vec![0; 65535];
    let long = write_body(&[7; 65531], &[65528], &mut out).unwrap();
    every_room(65535, |out| join_bodies(long, &first, out));
    refused(Error::Limit, |out| join_bodies(long, &second, out));
}

/// A message to the message router that holds these bytes as the one item of its body.
fn packet(item: &[u8]) -> Vec<u8> {
    [&[0x0A, 2, 0x20, 2, 0x24, 1, 1, 0, 4, 0], item].concat()
}

#[test]
fn nested() {
    let three = packet(&packet(&packet(&[0x0E, 0])));
    let mut numbers = [0xA5A5; 20];
    let rows: Vec<Row> = read_nested(&three, &mut numbers[..16]).unwrap().collect();
    assert_eq!(rows.iter().map(|r| r.depth).collect::<Vec<_>>(), [0, 1, 2, 3]);
    assert_eq!(rows[3], Row { depth: 3, service: 0x0E, path_bytes: 0, data_bytes: 0 });
    assert_eq!(numbers[16..], [0xA5A5; 4]);

    for room in [0, 1, 15] {
        let mut numbers = [0xA5A5; 20];
        assert_eq!(read_nested(&three, &mut numbers[..room]).err(), Some(Error::Room));
        assert_eq!(numbers, [0xA5A5; 20]);
    }
    let mut numbers = [0xA5A5; 4 * 20];
    assert_eq!(read_nested(&packet(&three), &mut numbers).err(), Some(Error::Depth));
    assert_eq!(read_nested(&packet(&[0x0E]), &mut numbers).err(), Some(Error::Short));
    assert_eq!(read_nested(&[], &mut numbers).err(), Some(Error::Short));
    assert_eq!(numbers, [0xA5A5; 4 * 20]);
}
