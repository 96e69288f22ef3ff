//! The crate's own answers on nested messages, 40. It has no reader of them, and it writes them: so a tree of messages is
//! given to it, and it writes them from the inside out. The rows are of what was put in: the depth and the service of the
//! tree, the path's bytes by the crate's count, the data as the bytes that it wrote.
//!
//! An input of which no tree is known is in the domain where the crate writes that very input again from the messages
//! that it is taken apart into. Which of them are opened is document 01's rule; that a packet's service is 0A and its
//! path class 2 instance 1 is in the crate's `call`, which writes each packet too.

use super::bodies::items;
use super::paths::{epath, segment, wrote, LONGEST_PATH, LONGEST_RECORD};
use super::requests::{carrying, parts, segments};
use crate::case::nested::{answer, manager, router, Message, Row, PACKET, SEND};
use crate::case::Plain;
use crate::{block_on, Capture, Encode};
use bytes::Bytes;
use rseip_cip::epath::EPath;
use rseip_cip::service::{CommonServices, SERVICE_UNCONNECTED_SEND};
use rseip_cip::MessageRequest;
use smallvec::SmallVec;

const DEEPEST: u8 = 3;

/// What the crate wrote for a tree of any depth, and its rows. Err: not in the domain, or what went wrong in the crate.
pub fn written(m: &Message) -> Result<(Vec<u8>, Vec<Row>), Option<String>> {
    let made = make(m, 0)?;
    let rows = made.rows(0);
    Ok((wrote(made.request()).map_err(Some)?, rows))
}

/// The answer line for a tree; None where it is too deep.
pub fn tree_answer(rows: &[Row]) -> Option<Vec<u8>> {
    rows.iter().all(|r| r.depth <= DEEPEST).then(|| answer(rows))
}

/// A message whose data is written.
struct Made {
    service: u8,
    path: EPath,
    data: Vec<u8>,
    /// of those that it holds
    held: Vec<Row>,
}

impl Made {
    fn request(self) -> MessageRequest<EPath, Bytes> {
        MessageRequest::new(self.service, self.path, Bytes::from(self.data))
    }
    /// Its own row, and at once those of what it holds.
    fn rows(&self, depth: u8) -> Vec<Row> {
        let own = Row { depth, service: self.service, path: self.path.bytes_count(), data: self.data.len() };
        [&[own][..], &self.held].concat()
    }
}

fn make(m: &Message, depth: u8) -> Result<Made, Option<String>> {
    let mut held = vec![];
    let mut hold = |m: &Message| {
        let made = make(m, depth + 1)?;
        held.extend(made.rows(depth + 1));
        Ok(made.request())
    };
    let (service, path, data) = match m {
        // it would be opened
        Message::Plain { service: PACKET, path, .. } if *path == router() => return Err(None),
        Message::Plain { service: SEND, path, .. } if *path == manager() => return Err(None),
        Message::Plain { service, path, data } => (*service, short(path)?, data.clone()),
        Message::Packet(list) => {
            let items = list.iter().map(&mut hold).collect::<Result<SmallVec<[_; 4]>, Option<String>>>()?;
            (PACKET, short(&router())?, packet(items)?)
        }
        Message::Send { prio, ticks, message, route } => {
            if *prio > 15 {
                return Err(None);
            }
            let data = fitting(carrying(*prio, *ticks, short(route)?, hold(message)?))?;
            (SERVICE_UNCONNECTED_SEND, short(&manager())?, data)
        }
    };
    if 2 + path.bytes_count() + data.len() > LONGEST_RECORD {
        return Err(None);
    }
    Ok(Made { service, path, data, held })
}

/// A path of the domain, behind a size byte.
fn short(path: &[Plain]) -> Result<EPath, Option<String>> {
    epath(path).filter(|p| p.bytes_count() <= LONGEST_PATH).ok_or(None)
}

/// Its bytes, where its size is in the domain.
fn fitting(v: impl Encode) -> Result<Vec<u8>, Option<String>> {
    if v.bytes_count() > LONGEST_RECORD {
        return Err(None);
    }
    wrote(v).map_err(Some)
}

/// The data of a packet by the crate's encoder. Its `call`, which sends nothing where there is no item, has to write the
/// same behind service 0A to class 2 instance 1.
fn packet(items: SmallVec<[MessageRequest<EPath, Bytes>; 4]>) -> Result<Vec<u8>, Option<String>> {
    let mut sender = Capture::new(&[PACKET + 0x80, 0, 0, 0]);
    let again = |i: &MessageRequest<EPath, Bytes>| MessageRequest::new(i.service_code, i.path.clone(), i.data.clone());
    let copies: Vec<_> = items.iter().map(again).collect();
    let some = !copies.is_empty();
    let data = fitting(Capture::oracle_body(items))?;
    if some {
        let called = block_on(sender.multiple_service().push_all(copies.into_iter()).call());
        let head = [PACKET, 2, 0x20, 2, 0x24, 1];
        if called.is_err() || sender.sent.strip_prefix(&head) != Some(&data[..]) || sender.counted != sender.sent.len() {
            return Err(Some("the crate's call sends another packet than its encoder writes".into()));
        }
    }
    Ok(data)
}

/// What the crate says of an input.
pub enum Says {
    Line(Vec<u8>),
    /// there is a symbol in it that no `String` holds
    Nothing,
    /// it does not write it, or it is too deep
    Outside,
}

pub fn says(input: &[u8]) -> Says {
    let Some(tree) = taken_apart(input, 0) else { return Says::Outside };
    match written(&tree) {
        Ok((bytes, rows)) if bytes == input => Says::Line(answer(&rows)),
        // no program answers this, so it differs
        Err(Some(text)) => Says::Line(text.into_bytes()),
        _ if has_other_text(&tree) => Says::Nothing,
        _ => Says::Outside,
    }
}

/// The messages that an input is made of, whatever the form of their paths. Pads and reserved bytes are not looked at:
/// the crate writes them as they should be.
/// None where that can't be done, or it is too deep.
fn taken_apart(input: &[u8], depth: u8) -> Option<Message> {
    let (service, path, data) = parts(input).filter(|_| depth <= DEEPEST)?;
    let path = segments(path)?;
    Some(match service {
        PACKET if path == router() => {
            Message::Packet(items(data)?.into_iter().map(|i| taken_apart(i, depth + 1)).collect::<Option<_>>()?)
        }
        SEND if path == manager() => {
            let size = usize::from(u16::from_le_bytes([*data.get(2)?, *data.get(3)?]));
            let message = Box::new(taken_apart(data.get(4..4 + size)?, depth + 1)?);
            let route = segments(data.get(4 + size.next_multiple_of(2) + 2..)?)?;
            Message::Send { prio: data[0], ticks: data[1], message, route }
        }
        _ => Message::Plain { service, path, data: data.to_vec() },
    })
}

fn has_other_text(m: &Message) -> bool {
    let other = |path: &[Plain]| path.iter().any(|p| segment(p).is_none());
    match m {
        Message::Plain { path, .. } => other(path),
        Message::Packet(list) => list.iter().any(has_other_text),
        Message::Send { message, route, .. } => other(route) || has_other_text(message),
    }
}
