#![doc = include_str!("../README.md")]
#![no_std]
#![deny(unsafe_code, missing_docs)]

mod answer;
mod body;
mod connection;
mod envelope;
mod error;
mod frames;
mod limits;
mod message;
mod nested;
mod path;
mod reply;
#[allow(unsafe_code)]
mod sys;

pub use body::{join_bodies, read_replies, write_body, Body, BodyBuilder, Items, Replies, ReplyRows};
pub use connection::{
    ConnectionType, Direction, Form, ForwardClose, ForwardOpen, Parameters, Priority, Transport, TransportClass,
    TriggerType,
};
pub use envelope::Envelope;
pub use error::{Error, Result};
pub use frames::{FrameCollector, FrameState, Taken};
pub use limits::{
    FRAME_HEADER, MAX_APP_DATA, MAX_FRAME, MAX_LINK, MAX_PATH, MAX_RECORD, MAX_ROWS, MAX_SEGMENTS, MAX_SYMBOL,
    REPLY_ROW, ROW,
};
pub use message::{Message, UnconnectedSend};
pub use nested::{read_nested, Row, Rows};
pub use path::{check_path, path_size, read_path, rows_size, write_path, write_rows, PathBuilder, Segment, Segments};
pub use reply::{Closed, Failure, ForwardCloseReply, ForwardOpenReply, Opened, Reply, Status};
