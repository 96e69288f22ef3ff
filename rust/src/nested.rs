//! Messages that hold messages.
use crate::answer::answer;
use crate::error::Result;
use crate::limits::ROW;
use crate::sys;
use core::fmt;
use core::iter::FusedIterator;

/// One message of a nested one. Its text is a line of the program `dump`.
#[derive(Clone, Copy, Debug, PartialEq, Eq, Hash)]
pub struct Row {
    /// How deep it lies: 0 is the outermost, 3 the most.
    pub depth: u8,
    /// Its service.
    pub service: u8,
    /// Bytes of its path.
    pub path_bytes: u16,
    /// Bytes of its data.
    pub data_bytes: u16,
}

impl fmt::Display for Row {
    #[inline]
    fn fmt(&self, f: &mut fmt::Formatter<'_>) -> fmt::Result {
        write!(f, "{} {:02X} {} {}", self.depth, self.service, self.path_bytes, self.data_bytes)
    }
}

/// Reads a message and all that it holds, a row of four numbers each, every message followed at once by those that it
/// holds.
///
/// `4 * MAX_ROWS` numbers are never too few. Refused: what the readers of messages, bodies and Unconnected Sends
/// refuse, `Depth`, then `Room`.
///
/// ```
/// let message = [
///     0x0A, 2, 0x20, 2, 0x24, 1, 2, 0, 6, 0, 0x0E, 0, // a packet of two
///     0x0E, 3, 0x20, 1, 0x24, 1, 0x30, 7, //
///     0x0E, 3, 0x20, 1, 0x24, 1, 0x30, 6,
/// ];
/// let mut numbers = [0; 12];
/// let rows = barkcushion::read_nested(&message, &mut numbers)?;
/// let lines: Vec<String> = rows.map(|row| row.to_string()).collect();
/// assert_eq!(lines, ["0 0A 4 22", "1 0E 6 0", "1 0E 6 0"]);
/// # Ok::<(), barkcushion::Error>(())
/// ```
#[inline]
pub fn read_nested<'r>(s: &[u8], numbers: &'r mut [u16]) -> Result<Rows<'r>> {
    let count = answer(sys::read_nested(s, numbers))?;
    Ok(Rows { numbers: &numbers[..ROW * count] })
}

/// The rows of a nested message that was read.
#[derive(Clone, Debug)]
pub struct Rows<'r> {
    numbers: &'r [u16],
}

impl Iterator for Rows<'_> {
    type Item = Row;

    #[inline]
    fn next(&mut self) -> Option<Row> {
        let (&[depth, service, path_bytes, data_bytes], rest) = self.numbers.split_first_chunk::<ROW>()?;
        self.numbers = rest;
        Some(Row { depth: depth as u8, service: service as u8, path_bytes, data_bytes })
    }

    #[inline]
    fn size_hint(&self) -> (usize, Option<usize>) {
        let left = self.numbers.len() / ROW;
        (left, Some(left))
    }
}

impl ExactSizeIterator for Rows<'_> {}
impl FusedIterator for Rows<'_> {}
