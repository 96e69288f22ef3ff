//! Replies: the header with its status, and the replies to Forward Open and Forward Close.
use crate::answer::{filled, part, written};
use crate::error::Result;
use crate::sys::{self, FailureNumbers, OpenedNumbers};

/// A reply's status.
#[derive(Clone, Copy, Debug, PartialEq, Eq, Hash)]
pub struct Status {
    /// General status; 0 is success.
    pub general: u8,
    /// The word of extended status, if there is one. Two or more are refused.
    pub extended: Option<u16>,
}

impl Status {
    /// Whether the request was served.
    #[inline]
    pub const fn is_success(self) -> bool {
        self.general == 0
    }

    /// Whether a Connection Manager's request failed on its way.
    #[inline]
    pub fn is_routing_error(self) -> bool {
        sys::is_routing_error(self.general, self.extended)
    }

    #[inline]
    fn of_fields(general: usize, words: usize, word: usize) -> Self {
        Status { general: general as u8, extended: (words != 0).then_some(word as u16) }
    }
}

/// A reply's header, of a failed status too, and the data behind it.
///
/// ```
/// use barkcushion::{Error, Reply};
/// let reply = Reply::read(&[0x8E, 0, 8, 1, 3, 0])?;
/// assert_eq!(reply.status.general, 8);
/// assert_eq!(reply.status.extended, Some(3));
/// assert!(!reply.status.is_success() && reply.data.is_empty());
/// assert_eq!(Reply::read(&[0x8E, 0, 8, 1, 3]), Err(Error::Short));
/// # Ok::<(), Error>(())
/// ```
#[derive(Clone, Copy, Debug, PartialEq, Eq, Hash)]
pub struct Reply<'a> {
    /// The reply's service: the request's, with the top bit set.
    pub service: u8,
    /// Whether it was served.
    pub status: Status,
    /// What follows the header.
    pub data: &'a [u8],
}

impl<'a> Reply<'a> {
    /// Reads a reply. Refused: `Limit`, `Short`, `Words`.
    #[inline]
    pub fn read(s: &'a [u8]) -> Result<Self> {
        filled(|f| sys::read_reply(s, f)).map(|f| Reply::of_fields(&f, s))
    }

    #[inline]
    pub(crate) fn of_fields(f: &[usize; 6], s: &'a [u8]) -> Self {
        Reply { service: f[0] as u8, status: Status::of_fields(f[1], f[2], f[3]), data: part(s, f[4], f[5]) }
    }
}

/// The reply to a Forward Open that was served. A word of extended status, which such a reply should not have, is not
/// kept.
#[derive(Clone, Copy, Debug, PartialEq, Eq, Hash)]
pub struct Opened<'a> {
    /// The reply's service.
    pub service: u8,
    /// The connection to the target.
    pub o_t_connection_id: u32,
    /// The connection to the originator.
    pub t_o_connection_id: u32,
    /// The number that the originator gave the connection.
    pub connection_serial_number: u16,
    /// The originator's vendor.
    pub vendor_id: u16,
    /// The originator's serial number.
    pub originator_serial_number: u32,
    /// Microseconds between packets to the target.
    pub o_t_api: u32,
    /// Microseconds between packets to the originator.
    pub t_o_api: u32,
    /// Application data: an even number of bytes, at most 510.
    pub app_data: &'a [u8],
}

impl Opened<'_> {
    /// Writes the reply at the front of `out`, and answers the written bytes. Refused: `Limit` or `Form` application
    /// data, `Room`.
    #[inline]
    pub fn write<'o>(&self, out: &'o mut [u8]) -> Result<&'o [u8]> {
        let numbers = OpenedNumbers {
            service: self.service,
            o_t_connection_id: self.o_t_connection_id,
            t_o_connection_id: self.t_o_connection_id,
            connection_serial_number: self.connection_serial_number,
            vendor_id: self.vendor_id,
            originator_serial_number: self.originator_serial_number,
            o_t_api: self.o_t_api,
            t_o_api: self.t_o_api,
        };
        written(out, |out| sys::write_opened(&numbers, self.app_data, out))
    }
}

/// The reply to a Forward Close that was served. A word of extended status, which such a reply should not have, is not
/// kept.
#[derive(Clone, Copy, Debug, PartialEq, Eq, Hash)]
pub struct Closed<'a> {
    /// The reply's service.
    pub service: u8,
    /// The number that the originator gave the connection.
    pub connection_serial_number: u16,
    /// The originator's vendor.
    pub vendor_id: u16,
    /// The originator's serial number.
    pub originator_serial_number: u32,
    /// Application data: an even number of bytes, at most 510.
    pub app_data: &'a [u8],
}

impl Closed<'_> {
    /// Writes the reply at the front of `out`, and answers the written bytes. Refused: `Limit` or `Form` application
    /// data, `Room`.
    #[inline]
    pub fn write<'o>(&self, out: &'o mut [u8]) -> Result<&'o [u8]> {
        written(out, |out| {
            sys::write_closed(
                self.service,
                self.connection_serial_number,
                self.vendor_id,
                self.originator_serial_number,
                self.app_data,
                out,
            )
        })
    }
}

/// The reply to a Forward Open or a Forward Close that failed.
#[derive(Clone, Copy, Debug, PartialEq, Eq, Hash)]
pub struct Failure {
    /// The reply's service.
    pub service: u8,
    /// Why it failed.
    pub status: Status,
    /// The number that the originator gave the connection.
    pub connection_serial_number: u16,
    /// The originator's vendor.
    pub vendor_id: u16,
    /// The originator's serial number.
    pub originator_serial_number: u32,
    /// Words of the path that were left, if it tells; a routing error does.
    pub remaining: Option<u8>,
}

impl Failure {
    /// Writes the reply at the front of `out`, and answers the written bytes. Refused: `Code` general status 0, `Room`.
    #[inline]
    pub fn write<'o>(&self, out: &'o mut [u8]) -> Result<&'o [u8]> {
        let numbers = FailureNumbers {
            service: self.service,
            general: self.status.general,
            extended: self.status.extended,
            connection_serial_number: self.connection_serial_number,
            vendor_id: self.vendor_id,
            originator_serial_number: self.originator_serial_number,
            remaining: self.remaining,
        };
        written(out, |out| sys::write_failure(&numbers, out))
    }

    /// Of the numbers of either reply, where 6 says that it failed.
    #[inline]
    fn of_fields(f: &[usize]) -> Self {
        Failure {
            service: f[0] as u8,
            status: Status::of_fields(f[1], f[2], f[3]),
            connection_serial_number: f[7] as u16,
            vendor_id: f[8] as u16,
            originator_serial_number: f[9] as u32,
            remaining: (f[10] != 0).then_some(f[11] as u8),
        }
    }
}

/// The reply to a Forward Open.
///
/// ```
/// use barkcushion::{Failure, ForwardOpenReply, Status};
/// let failure = Failure {
///     service: 0xD4,
///     status: Status { general: 1, extended: Some(0x100) },
///     connection_serial_number: 7,
///     vendor_id: 0xFF,
///     originator_serial_number: 1,
///     remaining: None,
/// };
/// let mut out = [0; 32];
/// let bytes = failure.write(&mut out)?;
/// assert_eq!(bytes, [0xD4, 0, 1, 1, 0, 1, 7, 0, 255, 0, 1, 0, 0, 0]);
/// assert_eq!(ForwardOpenReply::read(bytes)?, ForwardOpenReply::Failed(failure));
/// # Ok::<(), barkcushion::Error>(())
/// ```
#[derive(Clone, Copy, Debug, PartialEq, Eq, Hash)]
pub enum ForwardOpenReply<'a> {
    /// Served.
    Opened(Opened<'a>),
    /// Failed.
    Failed(Failure),
}

impl<'a> ForwardOpenReply<'a> {
    /// Reads the reply; its status says whether a failure is a routing error. Refused: `Limit`, `Short`, `Words`.
    #[inline]
    pub fn read(s: &'a [u8]) -> Result<Self> {
        ForwardOpenReply::read_as(Reply::read(s)?.status.is_routing_error(), s)
    }

    /// The same, where the caller says whether a failure is a routing error. A success does not use it.
    #[inline]
    pub fn read_as(routing: bool, s: &'a [u8]) -> Result<Self> {
        let f = filled(|f| sys::read_forward_open_reply(routing, s, f))?;
        if f[6] == 0 {
            return Ok(ForwardOpenReply::Failed(Failure::of_fields(&f)));
        }
        Ok(ForwardOpenReply::Opened(Opened {
            service: f[0] as u8,
            connection_serial_number: f[7] as u16,
            vendor_id: f[8] as u16,
            originator_serial_number: f[9] as u32,
            o_t_connection_id: f[10] as u32,
            t_o_connection_id: f[11] as u32,
            o_t_api: f[12] as u32,
            t_o_api: f[13] as u32,
            app_data: part(s, f[14], f[15]),
        }))
    }
}

/// The reply to a Forward Close.
///
/// ```
/// use barkcushion::{Closed, ForwardCloseReply};
/// let closed = Closed {
///     service: 0xCE,
///     connection_serial_number: 7,
///     vendor_id: 0xFF,
///     originator_serial_number: 1,
///     app_data: &[0xAA, 0xBB],
/// };
/// let mut out = [0; 32];
/// let bytes = closed.write(&mut out)?;
/// assert_eq!(bytes, [0xCE, 0, 0, 0, 7, 0, 255, 0, 1, 0, 0, 0, 1, 0, 0xAA, 0xBB]);
/// assert_eq!(ForwardCloseReply::read(bytes)?, ForwardCloseReply::Closed(closed));
/// # Ok::<(), barkcushion::Error>(())
/// ```
#[derive(Clone, Copy, Debug, PartialEq, Eq, Hash)]
pub enum ForwardCloseReply<'a> {
    /// Served.
    Closed(Closed<'a>),
    /// Failed.
    Failed(Failure),
}

impl<'a> ForwardCloseReply<'a> {
    /// Reads the reply; its status says whether a failure is a routing error. Refused: `Limit`, `Short`, `Words`.
    #[inline]
    pub fn read(s: &'a [u8]) -> Result<Self> {
        ForwardCloseReply::read_as(Reply::read(s)?.status.is_routing_error(), s)
    }

    /// The same, where the caller says whether a failure is a routing error. A success does not use it.
    #[inline]
    pub fn read_as(routing: bool, s: &'a [u8]) -> Result<Self> {
        let f = filled(|f| sys::read_forward_close_reply(routing, s, f))?;
        if f[6] == 0 {
            return Ok(ForwardCloseReply::Failed(Failure::of_fields(&f)));
        }
        Ok(ForwardCloseReply::Closed(Closed {
            service: f[0] as u8,
            connection_serial_number: f[7] as u16,
            vendor_id: f[8] as u16,
            originator_serial_number: f[9] as u32,
            app_data: part(s, f[10], f[11]),
        }))
    }
}
