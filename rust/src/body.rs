//! Bodies: the data of Multiple Service Packets.
use crate::answer::{answer, filled, part, refused, written};
use crate::error::{Error, Result};
use crate::limits::REPLY_ROW;
use crate::message::Message;
use crate::reply::Reply;
use crate::sys;
use core::iter::FusedIterator;
use core::ops::Range;

/// A body that was read: every offset of its table is judged.
///
/// ```
/// use barkcushion::{Body, Error};
/// let bytes = [
///     2, 0, 6, 0, 14, 0, // two items, at 6 and at 14
///     0x8E, 0, 1, 2, 0, 0, 0, 0, // two words of extended status
///     0x8E, 0, 0, 0, 0, 0, 0x48, 0x42,
/// ];
/// let body = Body::read(&bytes)?;
/// assert_eq!(body.len(), 2);
/// assert_eq!(body.reply(0), Err(Error::Words));
/// assert_eq!(body.reply(1)?.data, [0, 0, 0x48, 0x42]); // what item 0 is touches no other
/// assert_eq!(body.reply(2), Err(Error::Outside));
/// let lengths: Vec<usize> = body.items().map(<[u8]>::len).collect();
/// assert_eq!(lengths, [8, 8]);
/// # Ok::<(), Error>(())
/// ```
#[derive(Clone, Copy, Debug, PartialEq, Eq, Hash)]
pub struct Body<'a> {
    bytes: &'a [u8],
    len: usize,
}

impl<'a> Body<'a> {
    /// Reads a body. Refused: `Limit`, `Short`, `Offset`, `Leftover`.
    #[inline]
    pub fn read(s: &'a [u8]) -> Result<Self> {
        answer(sys::read_body(s)).map(|len| Body { bytes: s, len })
    }

    /// How many items it has.
    #[inline]
    pub fn len(&self) -> usize {
        self.len
    }

    /// Whether it has none.
    #[inline]
    pub fn is_empty(&self) -> bool {
        self.len == 0
    }

    /// All its bytes.
    #[inline]
    pub fn as_bytes(&self) -> &'a [u8] {
        self.bytes
    }

    /// The bytes of an item. Refused: `Outside` no such index.
    #[inline]
    pub fn item(&self, index: usize) -> Result<&'a [u8]> {
        filled(|f| sys::walk_item(self.bytes, self.len, index, f)).map(|f| part(self.bytes, f[0], f[1]))
    }

    /// The reply in an item, read from that item's bytes alone. Refused: `Outside` no such index, then as
    /// [`Reply::read`].
    #[inline]
    pub fn reply(&self, index: usize) -> Result<Reply<'a>> {
        filled(|f| sys::walk_reply(self.bytes, self.len, index, f)).map(|f| Reply::of_fields(&f, self.bytes))
    }

    /// The items, first to last.
    #[inline]
    pub fn items(&self) -> Items<'a> {
        Items { body: *self, left: 0..self.len }
    }

    /// The replies in the items, first to last. One that is refused does not end the walk.
    #[inline]
    pub fn replies(&self) -> Replies<'a> {
        Replies { body: *self, left: 0..self.len }
    }
}

/// The items of a body, first to last.
#[derive(Clone, Debug)]
pub struct Items<'a> {
    body: Body<'a>,
    left: Range<usize>,
}

impl<'a> Iterator for Items<'a> {
    type Item = &'a [u8];

    #[inline]
    fn next(&mut self) -> Option<&'a [u8]> {
        // Never a quiet end where an item is missing.
        self.left.next().map(|i| self.body.item(i).expect("a body that was read has all its items"))
    }

    #[inline]
    fn size_hint(&self) -> (usize, Option<usize>) {
        self.left.size_hint()
    }
}

impl ExactSizeIterator for Items<'_> {}
impl FusedIterator for Items<'_> {}

/// The replies in a body's items, first to last.
#[derive(Clone, Debug)]
pub struct Replies<'a> {
    body: Body<'a>,
    left: Range<usize>,
}

impl<'a> Iterator for Replies<'a> {
    type Item = Result<Reply<'a>>;

    #[inline]
    fn next(&mut self) -> Option<Result<Reply<'a>>> {
        self.left.next().map(|i| self.body.reply(i))
    }

    #[inline]
    fn size_hint(&self) -> (usize, Option<usize>) {
        self.left.size_hint()
    }
}

impl ExactSizeIterator for Replies<'_> {}
impl FusedIterator for Replies<'_> {}

/// Reads a body and the replies in all its items in one call, which is quicker than one by one where there are many.
///
/// `rows` has [`REPLY_ROW`](crate::REPLY_ROW) numbers for each item. A refused item is one of the answers and ends
/// nothing. Refused: as [`Body::read`], then `Room`.
///
/// ```
/// use barkcushion::{read_replies, Error, REPLY_ROW};
/// let body = [2, 0, 6, 0, 14, 0, 0x8E, 0, 1, 2, 0, 0, 0, 0, 0x8E, 0, 0, 0, 0, 0, 0x48, 0x42];
/// let mut rows = [0; 2 * REPLY_ROW];
/// let mut replies = read_replies(&body, &mut rows)?;
/// assert_eq!(replies.next(), Some(Err(Error::Words)));
/// assert_eq!(replies.next().unwrap()?.data, [0, 0, 0x48, 0x42]);
/// assert_eq!(replies.next(), None);
/// assert_eq!(read_replies(&body, &mut [0; 2 * REPLY_ROW - 1]).err(), Some(Error::Room));
/// # Ok::<(), Error>(())
/// ```
#[inline]
pub fn read_replies<'a, 'r>(s: &'a [u8], rows: &'r mut [usize]) -> Result<ReplyRows<'a, 'r>> {
    let n = answer(sys::read_replies(s, rows))?;
    Ok(ReplyRows { bytes: s, rows: rows[..n * REPLY_ROW].chunks_exact(REPLY_ROW) })
}

/// The replies that [`read_replies`] read, first to last.
#[derive(Clone, Debug)]
pub struct ReplyRows<'a, 'r> {
    bytes: &'a [u8],
    rows: core::slice::ChunksExact<'r, usize>,
}

impl<'a> Iterator for ReplyRows<'a, '_> {
    type Item = Result<Reply<'a>>;

    #[inline]
    fn next(&mut self) -> Option<Result<Reply<'a>>> {
        let row: &[usize; REPLY_ROW] = self.rows.next()?.try_into().expect("rows of seven");
        let [number, fields @ ..] = row;
        Some(if *number == 0 { Ok(Reply::of_fields(fields, self.bytes)) } else { Err(refused(*number as u64)) })
    }

    #[inline]
    fn size_hint(&self) -> (usize, Option<usize>) {
        self.rows.size_hint()
    }
}

impl ExactSizeIterator for ReplyRows<'_, '_> {}
impl FusedIterator for ReplyRows<'_, '_> {}

/// Writes the body of items that lie end to end, with the length of each, at the front of `out`, and answers the
/// written bytes.
///
/// Bytes behind the last item are not used. Refused: first to last, `Outside` a length past the end, `Offset` a length
/// 0; `Limit`, `Room`.
///
/// ```
/// let mut out = [0; 16];
/// let body = barkcushion::write_body(&[0xAA, 0xBB, 0xCC], &[1, 2], &mut out)?;
/// assert_eq!(body, [2, 0, 6, 0, 7, 0, 0xAA, 0xBB, 0xCC]);
/// # Ok::<(), barkcushion::Error>(())
/// ```
#[inline]
pub fn write_body<'o>(items: &[u8], lengths: &[usize], out: &'o mut [u8]) -> Result<&'o [u8]> {
    written(out, |out| sys::write_body(items, lengths, out))
}

/// Writes the body of the first's items and then the second's at the front of `out`, and answers the written bytes.
///
/// Refused: the first's own, the second's own, `Limit`, `Room`.
///
/// ```
/// let mut out = [0; 16];
/// let joined = barkcushion::join_bodies(&[1, 0, 4, 0, 0xAA], &[1, 0, 4, 0, 0xBB, 0xCC], &mut out)?;
/// assert_eq!(joined, [2, 0, 6, 0, 7, 0, 0xAA, 0xBB, 0xCC]);
/// # Ok::<(), barkcushion::Error>(())
/// ```
#[inline]
pub fn join_bodies<'o>(first: &[u8], second: &[u8], out: &'o mut [u8]) -> Result<&'o [u8]> {
    written(out, |out| sys::join_bodies(first, second, out))
}

/// Items that wait to be written as a body. The writer wants them end to end, so they are kept in memory that the
/// caller lends: bytes for the items, and a number for the length of each.
///
/// ```
/// use barkcushion::{BodyBuilder, Error, Message};
/// let (mut bytes, mut lengths, mut out) = ([0; 64], [0; 8], [0; 64]);
/// let mut body = BodyBuilder::new(&mut bytes, &mut lengths);
/// assert_eq!(body.fill(&[&[0xAA], &[0xBB, 0xCC]])?.write(&mut out)?, [2, 0, 6, 0, 7, 0, 0xAA, 0xBB, 0xCC]);
/// // A message is written straight into the lent bytes.
/// body.clear();
/// body.push_message(&Message { service: 0x0E, path: &[0x20, 1, 0x24, 1], data: &[] })?;
/// assert_eq!(body.write(&mut out)?, [1, 0, 4, 0, 0x0E, 2, 0x20, 1, 0x24, 1]);
/// # Ok::<(), Error>(())
/// ```
#[derive(Debug)]
pub struct BodyBuilder<'b> {
    bytes: &'b mut [u8],
    lengths: &'b mut [usize],
    used: usize,
    count: usize,
}

impl<'b> BodyBuilder<'b> {
    /// One without items. What the lent memory holds does not matter.
    #[inline]
    pub fn new(bytes: &'b mut [u8], lengths: &'b mut [usize]) -> Self {
        BodyBuilder { bytes, lengths, used: 0, count: 0 }
    }

    /// Takes all items away.
    #[inline]
    pub fn clear(&mut self) {
        (self.used, self.count) = (0, 0);
    }

    /// How many items it has.
    #[inline]
    pub fn len(&self) -> usize {
        self.count
    }

    /// Whether it has none.
    #[inline]
    pub fn is_empty(&self) -> bool {
        self.count == 0
    }

    /// Adds an item that is put into the rest of the lent bytes; it is no item if there is no room for its length.
    #[inline]
    fn add(&mut self, put: impl FnOnce(&mut [u8]) -> Result<usize>) -> Result<&mut Self> {
        let length = self.lengths.get_mut(self.count).ok_or(Error::Room)?;
        *length = put(&mut self.bytes[self.used..])?;
        self.used += *length;
        self.count += 1;
        Ok(self)
    }

    /// Adds an item. Refused, and not added: `Offset` an empty one, `Room` too little lent.
    #[inline]
    pub fn push(&mut self, item: &[u8]) -> Result<&mut Self> {
        if item.is_empty() {
            return Err(Error::Offset);
        }
        self.add(|rest| {
            rest.get_mut(..item.len()).ok_or(Error::Room)?.copy_from_slice(item);
            Ok(item.len())
        })
    }

    /// Adds a message. Refused, and not added: as [`Message::write`].
    #[inline]
    pub fn push_message(&mut self, message: &Message<'_>) -> Result<&mut Self> {
        self.add(|rest| message.write(rest).map(<[u8]>::len))
    }

    /// Has these items and no others. Where one is refused, as `push` does, it has none.
    #[inline]
    pub fn fill(&mut self, items: &[&[u8]]) -> Result<&mut Self> {
        self.clear();
        for item in items {
            if let Err(e) = self.push(item) {
                self.clear();
                return Err(e);
            }
        }
        Ok(self)
    }

    /// Writes the body at the front of `out`, and answers the written bytes. Refused: `Limit`, `Room`.
    #[inline]
    pub fn write<'o>(&self, out: &'o mut [u8]) -> Result<&'o [u8]> {
        write_body(&self.bytes[..self.used], &self.lengths[..self.count], out)
    }
}
