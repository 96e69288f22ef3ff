//! Paths, written and read.
use crate::answer::{answer, part, written};
use crate::error::{Error, Result};
use crate::limits::{MAX_LINK, MAX_SEGMENTS, MAX_SYMBOL, ROW};
use crate::sys;
use core::fmt;

/// One segment of a path.
#[derive(Clone, Copy, Debug, PartialEq, Eq, Hash)]
pub enum Segment<'a> {
    /// A tag's name, 0 to 255 bytes.
    Symbol(&'a [u8]),
    /// A class.
    Class(u16),
    /// An instance.
    Instance(u16),
    /// An attribute.
    Attribute(u16),
    /// An element of an array.
    Element(u32),
    /// A way out of a device: its port, and the address behind it, 0 to 254 bytes. An empty link is written as the link
    /// `[0]` is.
    Port {
        /// The port's number.
        port: u16,
        /// The link's address.
        link: &'a [u8],
    },
}

impl<'a> Segment<'a> {
    /// The kind and the number of a row, and the bytes that it shows to.
    #[inline]
    fn parts(self) -> (u32, u32, &'a [u8]) {
        match self {
            Segment::Symbol(name) => (0, 0, name),
            Segment::Class(n) => (1, n.into(), &[]),
            Segment::Instance(n) => (2, n.into(), &[]),
            Segment::Attribute(n) => (3, n.into(), &[]),
            Segment::Element(n) => (4, n, &[]),
            Segment::Port { port, link } => (5, port.into(), link),
        }
    }

    /// The segment of a row that a reader or a builder made.
    #[inline]
    fn of_row(&[kind, number, start, len]: &[u32; ROW], pool: &'a [u8]) -> Self {
        let bytes = part(pool, start as usize, len as usize);
        match kind {
            0 => Segment::Symbol(bytes),
            1 => Segment::Class(number as u16),
            2 => Segment::Instance(number as u16),
            3 => Segment::Attribute(number as u16),
            4 => Segment::Element(number),
            5 => Segment::Port { port: number as u16, link: bytes },
            _ => unreachable!("there are six kinds"),
        }
    }
}

/// Writes the path of these segments at the front of `out`, and answers the written bytes.
///
/// It needs 34 KiB of stack for a while, but neither allocates nor clears memory; who has less, or writes one path
/// often, keeps a [`PathBuilder`]. Refused: `Limit` more than 127 segments, a symbol or a link too long; then `Room`.
///
/// ```
/// use barkcushion::{write_path, Error, Segment};
/// let mut out = [0; 16];
/// assert_eq!(write_path(&[Segment::Port { port: 14, link: &[5] }], &mut out)?, [0x0E, 5]);
/// assert_eq!(write_path(&[Segment::Port { port: 15, link: &[5] }], &mut out)?, [0x0F, 0, 0x0F, 5]);
/// assert_eq!(write_path(&[Segment::Symbol(b"Flow1")], &mut out)?, *b"\x91\x05Flow1\0");
/// assert_eq!(write_path(&[Segment::Element(65536)], &mut out)?, [0x2A, 0, 0, 0, 1, 0]);
/// assert_eq!(write_path(&[Segment::Class(6)], &mut out[..1]), Err(Error::Room));
/// # Ok::<(), Error>(())
/// ```
#[inline]
pub fn write_path<'o>(segments: &[Segment<'_>], out: &'o mut [u8]) -> Result<&'o [u8]> {
    PathBuilder::new().fill(segments)?.write(out)
}

/// How many bytes [`write_path`] writes. Refused: as it does, but for `Room`.
///
/// ```
/// use barkcushion::{path_size, Segment};
/// assert_eq!(path_size(&[Segment::Class(2), Segment::Instance(256)]), Ok(6));
/// ```
#[inline]
pub fn path_size(segments: &[Segment<'_>]) -> Result<usize> {
    PathBuilder::new().fill(segments)?.size()
}

/// Segments that wait to be written: kept, filled again and written again without allocating or clearing memory. It has
/// 34 KiB, room for every path.
///
/// ```
/// use barkcushion::{PathBuilder, Segment};
/// let mut path = PathBuilder::new();
/// let mut out = [0; 254];
/// for n in 1..4 {
///     let written = path.fill(&[Segment::Symbol(b"Level"), Segment::Element(n)])?.write(&mut out)?;
///     assert_eq!(written, [b"\x91\x05Level\0\x28".as_slice(), &[n as u8]].concat());
/// }
/// path.clear();
/// path.push(Segment::Class(2))?.push(Segment::Instance(1))?;
/// assert_eq!(path.write(&mut out)?, [0x20, 2, 0x24, 1]);
/// # Ok::<(), barkcushion::Error>(())
/// ```
pub struct PathBuilder {
    rows: sys::List<u32, { ROW * MAX_SEGMENTS }>,
    /// The bytes of symbols and links, end to end. MAX_LINK is less than MAX_SYMBOL, so 127 of either fit.
    pool: sys::List<u8, { MAX_SYMBOL * MAX_SEGMENTS }>,
}

impl PathBuilder {
    /// One without segments.
    #[inline]
    pub const fn new() -> Self {
        PathBuilder { rows: sys::List::new(), pool: sys::List::new() }
    }

    /// Takes all segments away.
    #[inline]
    pub fn clear(&mut self) {
        self.rows.clear();
        self.pool.clear();
    }

    /// Adds a segment. Refused, and not added: `Limit` the 128th, or a symbol or a link too long.
    #[inline]
    pub fn push(&mut self, segment: Segment<'_>) -> Result<&mut Self> {
        let (kind, number, bytes) = segment.parts();
        let most = if let Segment::Port { .. } = segment { MAX_LINK } else { MAX_SYMBOL };
        if self.len() == MAX_SEGMENTS || bytes.len() > most {
            return Err(Error::Limit);
        }
        let start = self.pool.as_slice().len();
        self.rows.extend(&[kind, number, start as u32, bytes.len() as u32]);
        self.pool.extend(bytes);
        Ok(self)
    }

    /// Has these segments and no others. Where one is refused, as `push` does, it has none.
    #[inline]
    pub fn fill(&mut self, segments: &[Segment<'_>]) -> Result<&mut Self> {
        self.clear();
        for segment in segments {
            if let Err(e) = self.push(*segment) {
                self.clear();
                return Err(e);
            }
        }
        Ok(self)
    }

    /// How many segments it has.
    #[inline]
    pub fn len(&self) -> usize {
        self.rows.as_slice().len() / ROW
    }

    /// Whether it has none.
    #[inline]
    pub fn is_empty(&self) -> bool {
        self.len() == 0
    }

    /// Its segments, first to last.
    #[inline]
    pub fn segments(&self) -> Segments<'_, '_> {
        Segments { rows: self.rows.as_slice(), pool: self.pool.as_slice() }
    }

    /// How many bytes [`PathBuilder::write`] writes.
    #[inline]
    pub fn size(&self) -> Result<usize> {
        rows_size(self.rows.as_slice(), self.pool.as_slice())
    }

    /// Writes the path at the front of `out`, and answers the written bytes. Refused: `Room`.
    #[inline]
    pub fn write<'o>(&self, out: &'o mut [u8]) -> Result<&'o [u8]> {
        write_rows(self.rows.as_slice(), self.pool.as_slice(), out)
    }
}

impl Default for PathBuilder {
    #[inline]
    fn default() -> Self {
        PathBuilder::new()
    }
}

impl fmt::Debug for PathBuilder {
    #[inline]
    fn fmt(&self, f: &mut fmt::Formatter<'_>) -> fmt::Result {
        f.debug_list().entries(self.segments()).finish()
    }
}

/// Writes the path of rows that the caller made: four numbers for each segment, kind, number, start and length of its
/// bytes in `pool`.
///
/// The kinds are 0 symbol, 1 class, 2 instance, 3 attribute, 4 element, 5 port; numbers behind the last whole row are
/// not used. Refused: `Limit` more than 127 segments; then, segment by segment, `Code` unknown kind, `Limit` a number
/// that the kind can't hold, `Outside` a part outside the pool, `Limit` a symbol or a link too long; then `Room`.
///
/// ```
/// use barkcushion::{write_rows, Error};
/// let mut out = [0; 32];
/// let rows = [0, 0, 4, 5, 4, 255, 0, 0];
/// assert_eq!(write_rows(&rows, b"the Flow1 of it", &mut out)?, *b"\x91\x05Flow1\0\x28\xFF");
/// assert_eq!(write_rows(&rows, b"the Flow", &mut out), Err(Error::Outside));
/// # Ok::<(), Error>(())
/// ```
#[inline]
pub fn write_rows<'o>(rows: &[u32], pool: &[u8], out: &'o mut [u8]) -> Result<&'o [u8]> {
    written(out, |out| sys::write_path(rows, pool, out))
}

/// How many bytes [`write_rows`] writes. Refused: as it does, but for `Room`.
///
/// ```
/// assert_eq!(barkcushion::rows_size(&[5, 15, 0, 1], &[5]), Ok(4));
/// ```
#[inline]
pub fn rows_size(rows: &[u32], pool: &[u8]) -> Result<usize> {
    answer(sys::path_size(rows, pool))
}

/// How many segments a path has, judged strictly: what is accepted is what a writer makes. Refused: `Short`, `Limit`,
/// `Code`, `Form`.
///
/// ```
/// use barkcushion::{check_path, Error};
/// assert_eq!(check_path(&[0x20, 5]), Ok(1));
/// assert_eq!(check_path(&[0x21, 0, 5, 0]), Err(Error::Form)); // the same class, in more bytes than it needs
/// ```
#[inline]
pub fn check_path(path: &[u8]) -> Result<usize> {
    answer(sys::check_path(path))
}

/// Reads a path's segments, judged as [`check_path`] does. The caller lends the rows, four numbers for each segment;
/// `[0; 508]` are never too few. What is handed out borrows the path, not the rows. Refused: as `check_path`, then
/// `Room`.
///
/// ```
/// use barkcushion::{read_path, Segment};
/// let mut rows = [0; 508];
/// let mut segments = read_path(b"\x91\x05Flow1\0\x12\x08\x31\x30.0.0.7", &mut rows)?;
/// assert_eq!(segments.len(), 2);
/// assert_eq!(segments.next(), Some(Segment::Symbol(b"Flow1")));
/// assert_eq!(segments.next(), Some(Segment::Port { port: 2, link: b"10.0.0.7" }));
/// assert_eq!(segments.next(), None);
/// # Ok::<(), barkcushion::Error>(())
/// ```
#[inline]
pub fn read_path<'r, 'p>(path: &'p [u8], rows: &'r mut [u32]) -> Result<Segments<'r, 'p>> {
    let count = answer(sys::read_path(path, rows))?;
    Ok(Segments { rows: &rows[..ROW * count], pool: path })
}

/// The segments of a path that was read, first to last.
#[derive(Clone, Debug)]
pub struct Segments<'r, 'p> {
    rows: &'r [u32],
    pool: &'p [u8],
}

impl<'r> Segments<'r, '_> {
    /// The rows of the segments that are still to come, as [`write_rows`] takes them with the path as their pool.
    #[inline]
    pub fn rows(&self) -> &'r [u32] {
        self.rows
    }
}

impl<'p> Iterator for Segments<'_, 'p> {
    type Item = Segment<'p>;

    #[inline]
    fn next(&mut self) -> Option<Segment<'p>> {
        let (row, rest) = self.rows.split_first_chunk()?;
        self.rows = rest;
        Some(Segment::of_row(row, self.pool))
    }

    #[inline]
    fn size_hint(&self) -> (usize, Option<usize>) {
        let left = self.rows.len() / ROW;
        (left, Some(left))
    }
}

impl ExactSizeIterator for Segments<'_, '_> {}
impl core::iter::FusedIterator for Segments<'_, '_> {}
