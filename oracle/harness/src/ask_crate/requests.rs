//! The crate's own answers on requests: what 10 to 15 write, and what 18 to 1B read of it.
//!
//! The domain is what document 01 accepts, with symbols that the crate's `String` can hold. An Unconnected Send of the
//! crate's carries a `MessageRequest`, where ours carries any bytes. So a lent message is in the domain where some
//! `MessageRequest` writes it: it has a service, a size byte of at most 127 words, and that path. The crate's request is
//! generic in path and data, so the path need not be good: where it is what an `EPath` writes it is given as that, and
//! else as raw bytes. What is left to the judge is a message of 0 or 1 bytes, one cut short in its path, and one with a
//! longer path, which a release build would write and a debug build refuses.

use super::paths::{epath, segment, writer_answer, wrote, Wrote, LONGEST_PATH, LONGEST_RECORD};
use crate::case::requests::{Close, Head, Open, Par, Record, Request};
use crate::case::{digits, meaning, plain, Plain, ATTRIBUTE, CLASS, ELEMENT, INSTANCE, PORT, SYMBOL};
use crate::Encode;
use bytes::Bytes;
use rseip_cip::connection::{
    ConnectionParameters, ConnectionType, Direction, ForwardCloseRequest, OpenOptions, Priority, TransportClass, TriggerType,
    VariableLength,
};
use rseip_cip::epath::EPath;
use rseip_cip::service::request::UnconnectedSend;
use rseip_cip::MessageRequest;

const MOST_SMALL_SIZE: u16 = 511;

/// What the crate writes for a record; None: not in the domain.
pub fn record(head: &Head, path: &[Plain]) -> Option<Wrote> {
    let path = epath(path)?;
    if path.bytes_count() > LONGEST_PATH {
        return None;
    }
    let wrote = match head {
        Head::Message { service, data } => wrote(MessageRequest::new(*service, path, Bytes::copy_from_slice(data))),
        Head::Open(o) => wrote(open(o, path)?),
        Head::Close(c) => wrote(close(c, path)),
        Head::Send { prio, ticks, message } => send(*prio, *ticks, message, path)?,
    };
    match &wrote {
        Ok(bytes) if bytes.len() > LONGEST_RECORD => None,
        _ => Some(wrote),
    }
}

fn par(p: &Par, large: bool) -> Option<ConnectionParameters> {
    if !large && p.size > MOST_SMALL_SIZE {
        return None;
    }
    Some(ConnectionParameters {
        connection_size: p.size,
        variable_length: *[VariableLength::Fixed, VariableLength::Variable].get(p.variable as usize)?,
        priority: *[Priority::Low, Priority::High, Priority::Scheduled, Priority::Urgent].get(p.priority as usize)?,
        connection_type: *[ConnectionType::Null, ConnectionType::Multicast, ConnectionType::P2P].get(p.kind as usize)?,
        redundant_owner: *[false, true].get(p.owner as usize)?,
    })
}

fn open(o: &Open, connection_path: EPath) -> Option<OpenOptions> {
    use TransportClass::*;
    let large_open = *[false, true].get(o.large as usize)?;
    Some(OpenOptions {
        large_open,
        priority_tick_time: o.prio,
        timeout_ticks: o.ticks,
        o_t_connection_id: o.o_t_id,
        t_o_connection_id: o.t_o_id,
        connection_serial_number: o.serial,
        vendor_id: o.vendor,
        originator_serial_number: o.originator,
        timeout_multiplier: o.multiplier,
        o_t_rpi: o.o_t_rpi,
        o_t_params: par(&o.o_t, large_open)?,
        t_o_rpi: o.t_o_rpi,
        t_o_params: par(&o.t_o, large_open)?,
        transport_direction: *[Direction::Client, Direction::Server].get(o.direction as usize)?,
        transport_trigger: *[TriggerType::Cyclic, TriggerType::ChangeOfState, TriggerType::Application]
            .get(o.trigger as usize)?,
        transport_class: *[Class0, Class1, Class2, Class3, Class4, Class5, Class6].get(o.class as usize)?,
        connection_path,
    })
}

fn close(c: &Close, connection_path: EPath) -> ForwardCloseRequest<EPath> {
    ForwardCloseRequest {
        priority_time_ticks: c.prio,
        timeout_ticks: c.ticks,
        connection_serial_number: c.serial,
        originator_vendor_id: c.vendor,
        originator_serial_number: c.originator,
        connection_path,
    }
}

fn send(prio: u8, ticks: u8, message: &[u8], path: EPath) -> Option<Wrote> {
    let (service, inner, data) = parts(message)?;
    let data = Bytes::copy_from_slice(data);
    let good = segments(inner).and_then(|l| epath(&l)).filter(|p| crate::bytes_of(p) == inner);
    let raw = Bytes::copy_from_slice(inner);
    Some(match good {
        Some(p) => wrote(carrying(prio, ticks, path, MessageRequest::new(service, p, data))),
        None => wrote(carrying(prio, ticks, path, MessageRequest::new(service, raw, data))),
    })
}

pub fn carrying<D>(priority_ticks: u8, timeout_ticks: u8, path: EPath, data: D) -> UnconnectedSend<EPath, D> {
    UnconnectedSend { priority_ticks, timeout_ticks, path, data }
}

/// Service, path and data of a message in the domain.
pub fn parts(message: &[u8]) -> Option<(u8, &[u8], &[u8])> {
    let size = 2 * usize::from(*message.get(1)?);
    (size <= LONGEST_PATH && message.len() >= 2 + size).then(|| (message[0], &message[2..2 + size], &message[2 + size..]))
}

/// The answer line for a case of 10 to 13, made from the crate's bytes. None where the case is not in the domain or has
/// too little room; an Err of the crate's is its text.
pub fn answer(r: &Request) -> Option<Vec<u8>> {
    let path: Option<Vec<Plain>> = r.list.iter().map(|s| meaning(&r.pool, s)).collect();
    writer_answer(&record(&r.head, &path?)?, Some(r.room))
}

/// The answer line for 14: the crate draws the serial by chance, the caller says it.
pub fn default_answer(large: u8, serial: u16, room: u32) -> Option<Vec<u8>> {
    let large = *[false, true].get(large as usize)?;
    writer_answer(&wrote(OpenOptions::default().connection_serial_number(serial).large_open(large)), Some(room))
}

/// The answer line for 15.
pub fn setter_answer(value: u8) -> Vec<u8> {
    digits(&[0, OpenOptions::default().priority_tick_time(value).priority_tick_time])
}

/// The answer line of the reader that is given what the crate wrote for a record. The crate has no reader: the fields
/// are those of the record, the parts lie where the crate's counts put them. None where a reserved bit is set.
pub fn read_answer(head: &Head, path: &[Plain], wrote: &[u8]) -> Option<Vec<u8>> {
    (head.prio() < 16).then_some(head.answer(wrote.len(), epath(path)?.bytes_count()))
}

/// What the crate writes from what our reader says it read. None where it said nothing, or a symbol that no `String`
/// holds.
pub fn again(r: &Record, ours: &[u8]) -> Option<Wrote> {
    let (head, path) = r.read(ours)?;
    let nothing = || Err("nothing: what was read is not in its domain".to_string());
    let Some(list) = segments(&path) else { return Some(nothing()) };
    if list.iter().any(|p| p.kind == SYMBOL && segment(p).is_none()) {
        return None;
    }
    if let Head::Send { message, .. } = &head {
        // no message of the crate's
        parts(message)?;
    }
    Some(record(&head, &list).unwrap_or_else(nothing))
}

/// A path's bytes as segments, whatever their form: the crate writes the one form of them, which is then held against
/// the bytes. None where there is no such segment, or its end is missing.
pub fn segments(path: &[u8]) -> Option<Vec<Plain>> {
    let mut list = vec![];
    let mut at = 0;
    while at < path.len() {
        let t = &path[at..];
        let (p, size) = front(t)?;
        list.push(p);
        at += size + size % 2;
    }
    (at == path.len()).then_some(list)
}

/// The segment at the front, and its size without a pad.
fn front(t: &[u8]) -> Option<(Plain, usize)> {
    let low = |at: usize, n: usize| Some(t.get(at..at + n)?.iter().rev().fold(0, |v, b| v << 8 | u32::from(*b)));
    let kind = |code: u8| match code {
        0x20 => CLASS,
        0x24 => INSTANCE,
        0x28 => ELEMENT,
        _ => ATTRIBUTE,
    };
    Some(match t[0] {
        c @ (0x20 | 0x24 | 0x28 | 0x30) => (plain(kind(c), low(1, 1)?, b""), 2),
        c @ (0x21 | 0x25 | 0x29 | 0x31) => (plain(kind(c - 1), low(2, 2)?, b""), 4),
        0x2A => (plain(ELEMENT, low(2, 4)?, b""), 6),
        0x91 => {
            let end = 2 + usize::from(*t.get(1)?);
            (plain(SYMBOL, 0, t.get(2..end)?), end)
        }
        c @ 0..=0x1F => {
            let (len, at) = if c & 16 == 0 { (1, 1) } else { (usize::from(*t.get(1)?), 2) };
            let near = u32::from(c & 15);
            let (port, at) = if near < 15 { (near, at) } else { (u32::from((low(at, 2)? as u16).swap_bytes()), at + 2) };
            (plain(PORT, port, t.get(at..at + len)?), at + len)
        }
        _ => return None,
    })
}
