//! The two-item envelope.
use crate::answer::{filled, part};
use crate::error::Result;
use crate::sys;

/// The envelope that replies come in.
///
/// ```
/// use barkcushion::{Envelope, Error};
/// let unconnected = [2, 0, 0, 0, 0, 0, 0xB2, 0, 2, 0, 0xAA, 0xBB];
/// assert_eq!(Envelope::read(&unconnected)?, Envelope::Unconnected { data: &[0xAA, 0xBB] });
/// let connected = [2, 0, 0xA1, 0, 4, 0, 1, 2, 3, 4, 0xB1, 0, 3, 0, 9, 0, 0xAA];
/// assert_eq!(Envelope::read(&connected)?, Envelope::Connected { count: 9, data: &[0xAA] });
/// assert_eq!(Envelope::read(&[1, 0]), Err(Error::Envelope));
/// # Ok::<(), Error>(())
/// ```
#[derive(Clone, Copy, Debug, PartialEq, Eq, Hash)]
pub enum Envelope<'a> {
    /// Unconnected data.
    Unconnected {
        /// The data.
        data: &'a [u8],
    },
    /// Connected data, behind its count.
    Connected {
        /// The sequence count.
        count: u16,
        /// The data behind it.
        data: &'a [u8],
    },
}

impl<'a> Envelope<'a> {
    /// Reads an envelope. Refused: `Short`, `Envelope`, `Leftover`.
    #[inline]
    pub fn read(s: &'a [u8]) -> Result<Self> {
        let f = filled(|f| sys::read_envelope(s, f))?;
        let data = part(s, f[2], f[3]);
        Ok(match f[0] {
            0 => Envelope::Unconnected { data },
            _ => Envelope::Connected { count: f[1] as u16, data },
        })
    }

    /// The data, connected or not.
    #[inline]
    pub fn data(&self) -> &'a [u8] {
        match *self {
            Envelope::Unconnected { data } | Envelope::Connected { data, .. } => data,
        }
    }
}
