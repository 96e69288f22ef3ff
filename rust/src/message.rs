//! Messages, plain and in an Unconnected Send.
use crate::answer::{filled, part, written};
use crate::error::Result;
use crate::sys;

/// A message request: a service, the path that it goes to, and its data.
///
/// ```
/// use barkcushion::Message;
/// let mut out = [0; 16];
/// let message = Message { service: 0x0E, path: &[0x20, 1, 0x24, 1, 0x30, 7], data: &[] };
/// let bytes = message.write(&mut out)?;
/// assert_eq!(bytes, [0x0E, 3, 0x20, 1, 0x24, 1, 0x30, 7]);
/// assert_eq!(Message::read(bytes)?, message);
/// # Ok::<(), barkcushion::Error>(())
/// ```
#[derive(Clone, Copy, Debug, PartialEq, Eq, Hash)]
pub struct Message<'a> {
    /// The service's code.
    pub service: u8,
    /// The path's bytes, as [`write_path`](crate::write_path) writes them; at most 254.
    pub path: &'a [u8],
    /// What follows the path.
    pub data: &'a [u8],
}

impl<'a> Message<'a> {
    /// Writes the message at the front of `out`, and answers the written bytes.
    /// Refused: `Limit` a path over 254 bytes, the path's own, `Limit` over 65,535 bytes, `Room`.
    #[inline]
    pub fn write<'o>(&self, out: &'o mut [u8]) -> Result<&'o [u8]> {
        written(out, |out| sys::write_message(self.service, self.path, self.data, out))
    }

    /// Reads a message; what follows its path is data. Refused: `Limit`, `Short`, the path's own.
    #[inline]
    pub fn read(s: &'a [u8]) -> Result<Self> {
        let f = filled(|f| sys::read_message(s, f))?;
        Ok(Message { service: f[0] as u8, path: part(s, f[1], f[2]), data: part(s, f[3], f[4]) })
    }
}

/// The data of an Unconnected Send: a message, and the route that it takes.
///
/// ```
/// use barkcushion::UnconnectedSend;
/// let mut out = [0; 16];
/// let send = UnconnectedSend { priority_ticks: 3, timeout_ticks: 250, message: &[1, 2, 3], path: &[1, 0] };
/// let bytes = send.write(&mut out)?;
/// assert_eq!(bytes, [3, 250, 3, 0, 1, 2, 3, 0, 1, 0, 1, 0]); // a zero behind an odd message
/// assert_eq!(UnconnectedSend::read(bytes)?, send);
/// # Ok::<(), barkcushion::Error>(())
/// ```
#[derive(Clone, Copy, Debug, PartialEq, Eq, Hash)]
pub struct UnconnectedSend<'a> {
    /// Tick time. The upper four bits are reserved: written as they stand, refused (`Form`) when read.
    pub priority_ticks: u8,
    /// Ticks until the time is over.
    pub timeout_ticks: u8,
    /// The message: any bytes here.
    pub message: &'a [u8],
    /// The route's bytes, at most 254.
    pub path: &'a [u8],
}

impl<'a> UnconnectedSend<'a> {
    /// Writes the record at the front of `out`, and answers the written bytes. Refused: as [`Message::write`].
    #[inline]
    pub fn write<'o>(&self, out: &'o mut [u8]) -> Result<&'o [u8]> {
        written(out, |out| {
            sys::write_unconnected_send(self.priority_ticks, self.timeout_ticks, self.message, self.path, out)
        })
    }

    /// Reads the record. Refused: `Limit`, `Short`, `Form`, the path's own, `Leftover`.
    #[inline]
    pub fn read(s: &'a [u8]) -> Result<Self> {
        let f = filled(|f| sys::read_unconnected_send(s, f))?;
        Ok(UnconnectedSend {
            priority_ticks: f[0] as u8,
            timeout_ticks: f[1] as u8,
            message: part(s, f[2], f[3]),
            path: part(s, f[4], f[5]),
        })
    }
}
