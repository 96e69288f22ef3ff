//! What is most, and how many numbers a row has.

/// Segments of a path, at most.
pub const MAX_SEGMENTS: usize = 127;
/// Bytes of a symbol, at most.
pub const MAX_SYMBOL: usize = 255;
/// Bytes of a link, at most.
pub const MAX_LINK: usize = 254;
/// Bytes of a path behind a size byte, at most.
pub const MAX_PATH: usize = 254;
/// Bytes of a message, a reply, a request record or a body, at most.
pub const MAX_RECORD: usize = 65535;
/// Bytes of application data, at most.
pub const MAX_APP_DATA: usize = 510;
/// Bytes of a frame's header.
pub const FRAME_HEADER: usize = 24;
/// Bytes of a frame, at most: its header and 65,535 of data.
pub const MAX_FRAME: usize = 65559;
/// Rows of a nested message, at most.
pub const MAX_ROWS: usize = 16384;
/// Numbers of a row, of a path's as of a nested message's.
pub const ROW: usize = 4;
/// Numbers of a row of [`read_replies`](crate::read_replies).
pub const REPLY_ROW: usize = 7;
