//! What the tests share.
use barkcushion::{Error, Result};

/// A writer at every room around the size that it should write: refused and nothing changed below it, written and nothing
/// changed behind it from there on. Answers the bytes.
pub fn every_room(size: usize, write: impl Fn(&mut [u8]) -> Result<&[u8]>) -> Vec<u8> {
    let mut rooms = vec![0, 1, size / 2, size.saturating_sub(1), size, size + 1, size + 100];
    rooms.sort();
    let mut bytes = Vec::new();
    for room in rooms {
        let mut lent = vec![0xA5; room + 16];
        match write(&mut lent[..room]) {
            Ok(written) => {
                assert!(room >= size, "{size} bytes in a room of {room}");
                assert_eq!(written.len(), size);
                bytes = written.to_vec();
                assert_eq!(lent[..size], bytes);
                assert!(lent[size..].iter().all(|b| *b == 0xA5), "changed behind {size}");
            }
            Err(e) => {
                assert_eq!((e, room < size), (Error::Room, true), "room {room}, size {size}");
                assert!(lent.iter().all(|b| *b == 0xA5), "changed though refused");
            }
        }
    }
    bytes
}

/// A writer that has all the room that it could want is refused, with nothing changed; and so it is with no room, because
/// room is judged last.
pub fn refused(why: Error, write: impl Fn(&mut [u8]) -> Result<&[u8]>) {
    for room in [70_000, 0] {
        let mut lent = vec![0xA5; room];
        assert_eq!(write(&mut lent), Err(why));
        assert!(lent.iter().all(|b| *b == 0xA5), "changed though refused");
    }
}
