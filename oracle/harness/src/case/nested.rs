//! Nested messages as values, and the line that asks about them: 40.

use super::fields::{digits, whole};
use super::paths::{plain, reader_line, Plain, CLASS, INSTANCE};

/// A message, with the messages that it holds.
#[derive(Clone, PartialEq, Eq, Debug)]
pub enum Message {
    /// one that is not opened
    Plain { service: u8, path: Vec<Plain>, data: Vec<u8> },
    /// service 0A to just class 2 instance 1
    Packet(Vec<Message>),
    /// service 52 to just class 6 instance 1
    Send { prio: u8, ticks: u8, message: Box<Message>, route: Vec<Plain> },
}

pub const PACKET: u8 = 0x0A;
pub const SEND: u8 = 0x52;

/// Just class 2 instance 1.
pub fn router() -> Vec<Plain> {
    object(2)
}

/// Just class 6 instance 1.
pub fn manager() -> Vec<Plain> {
    object(6)
}

fn object(class: u32) -> Vec<Plain> {
    vec![plain(CLASS, class, b""), plain(INSTANCE, 1, b"")]
}

/// What 40 says of one message.
#[derive(Clone, Copy, PartialEq, Eq, Debug)]
pub struct Row {
    pub depth: u8,
    pub service: u8,
    pub path: usize,
    pub data: usize,
}

pub fn line(input: &[u8]) -> Vec<u8> {
    reader_line(0x40, input)
}

/// The input of a line that `line` made; None for every other line.
pub fn of_line(line: &[u8]) -> Option<Vec<u8>> {
    whole(line, |op, t| t.run().filter(|_| op == 0x40))
}

/// An accepted answer.
pub fn answer(rows: &[Row]) -> Vec<u8> {
    let mut b = vec![0];
    b.extend((rows.len() as u32).to_le_bytes());
    for r in rows {
        b.extend([r.depth, r.service]);
        b.extend([r.path, r.data].map(|n| (n as u16).to_le_bytes()).concat());
    }
    digits(&b)
}
