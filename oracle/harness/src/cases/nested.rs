//! Nested messages, 40: what the files below share.

pub mod drawn;
pub mod limits;
pub mod order;
pub mod reads;

use super::asking::{Case, Sink, Truth};
use super::bodies::raw;
use super::requests::GET;
use crate::ask_crate::nested::{says, tree_answer, written, Says};
use crate::case::nested::{line, Message};
use crate::case::*;

/// The paths of what is opened: just class 2 instance 1, and just class 6 instance 1.
pub const ROUTER: [u8; 4] = [0x20, 2, 0x24, 1];
pub const MANAGER: [u8; 4] = [0x20, 6, 0x24, 1];

/// Document 01's example.
pub const EXAMPLE: [u8; 28] =
    [0x0A, 2, 0x20, 2, 0x24, 1, 2, 0, 6, 0, 14, 0, 0x0E, 3, 0x20, 1, 0x24, 1, 0x30, 7, 0x0E, 3, 0x20, 1, 0x24, 1, 0x30, 6];

/// The least that is a message.
pub const LEAST: [u8; 2] = [0x0E, 0];

// ---- bytes, good or not ----

pub fn message(service: u8, path: &[u8], data: &[u8]) -> Vec<u8> {
    [&[service, (path.len() / 2) as u8], path, data].concat()
}

/// A packet of any items, as they lie.
pub fn packet(items: &[Vec<u8>]) -> Vec<u8> {
    message(0x0A, &ROUTER, &table(items))
}

/// The data of a packet.
pub fn table(items: &[Vec<u8>]) -> Vec<u8> {
    let mut at = 2 + 2 * items.len();
    let offset = |i: &Vec<u8>| {
        at += i.len();
        at - i.len()
    };
    raw(items.len(), &items.iter().map(offset).collect::<Vec<_>>(), &items.concat())
}

/// An Unconnected Send of any message, with a short route.
pub fn send(message: &[u8]) -> Vec<u8> {
    send_by(message, &[1, 0])
}

pub fn send_by(inner: &[u8], route: &[u8]) -> Vec<u8> {
    let size = (inner.len() as u16).to_le_bytes();
    let pad = &[0][..inner.len() % 2];
    let words = (route.len() / 2) as u8;
    message(0x52, &MANAGER, &[&[3, 0xFA], &size[..], inner, pad, &[words, 0], route].concat())
}

/// What a message is in: a packet, alone or as the middle one of three, or an Unconnected Send.
#[derive(Clone, Copy, PartialEq, Eq, Debug)]
pub enum In {
    Packet,
    Three,
    Send,
}

/// The first of these is the outermost.
pub fn within(wraps: &[In], inner: &[u8]) -> Vec<u8> {
    wraps.iter().rev().fold(inner.to_vec(), |m, w| match w {
        In::Packet => packet(&[m]),
        In::Three => packet(&[vec![0x4C, 0, 1], m, GET.to_vec()]),
        In::Send => send(&m),
    })
}

/// Every row of so many, of two kinds.
pub fn mixes(of: [In; 2], depth: usize) -> Vec<Vec<In>> {
    (0..1usize << depth).map(|bits| (0..depth).map(|k| of[bits >> k & 1]).collect()).collect()
}

/// Messages that are refused, by themselves or for what they hold; the last is too deep within any other.
pub fn refused() -> Vec<Vec<u8>> {
    let body = |data: &[u8]| message(0x0A, &ROUTER, data);
    let sending = |data: &[u8]| message(0x52, &MANAGER, data);
    let spoilt = |at: usize, byte: u8| {
        let mut m = send(&GET);
        m[at] = byte;
        m
    };
    vec![
        // the message itself: 1 one byte alone, and a path that is missing; 3 its size; 4 no segment; 5 not the one form
        vec![0x0E],
        vec![0x0E, 1],
        vec![0x0E, 0x80],
        vec![0x0E, 1, 0xFF, 0],
        vec![0x0E, 2, 0x21, 0, 5, 0],
        // a body: 1 no count, and half an offset
        body(&[]),
        body(&[1, 0, 4]),
        // 7 the first offset one off, the last item missing, two offsets alike; 8 a byte left over behind no item
        body(&[1, 0, 5, 0, 0x0E, 0]),
        body(&[1, 0, 4, 0]),
        body(&[2, 0, 6, 0, 6, 0, 0x0E, 0]),
        body(&[0, 0, 0]),
        // an Unconnected Send: 5 a reserved bit; 1 its message cut short; 5 its pad
        spoilt(6, 0x13),
        sending(&[3, 0xFA, 9, 0, 0x0E, 0, 0, 0]),
        sending(&[3, 0xFA, 3, 0, 0x0E, 0, 7, 1, 0, 0]),
        // 3 the route's size; 5 the reserved byte; 4 the route; 8 a byte left over
        spoilt(18, 0x80),
        spoilt(19, 1),
        spoilt(20, 0xFF),
        [&send(&GET)[..], &[0]].concat(),
        // 1, 1, 1 and 4 for what they hold
        send(&[]),
        send(&[0x0E]),
        packet(&[vec![0x0E]]),
        packet(&[GET.to_vec(), vec![0x0E, 1, 0x22, 0]]),
        // 9
        within(&[In::Packet, In::Send, In::Send], &LEAST),
    ]
}

// ---- trees ----

pub fn get(attribute: u32) -> Message {
    let path = vec![plain(CLASS, 1, b""), plain(INSTANCE, 1, b""), plain(ATTRIBUTE, attribute, b"")];
    Message::Plain { service: 0x0E, path, data: vec![] }
}

/// With no path.
pub fn bare(service: u8, data: &[u8]) -> Message {
    Message::Plain { service, path: vec![], data: data.to_vec() }
}

pub fn sent(message: Message) -> Message {
    Message::Send { prio: 3, ticks: 0xFA, message: Box::new(message), route: vec![plain(PORT, 1, &[0])] }
}

/// Trees with a name, up to depth 3; each has messages of different sizes, so that a row of another shows.
pub fn named() -> Vec<(&'static str, Message)> {
    use Message::Packet;
    let tag = Message::Plain { service: 0x4C, path: vec![plain(SYMBOL, 0, b"Pmp")], data: vec![1, 0] };
    let far = vec![plain(PORT, 2, b"10.0.0.7"), plain(PORT, 1, &[0])];
    vec![
        ("document 01's example", Packet(vec![get(7), get(6)])),
        ("an empty packet", Packet(vec![])),
        ("one message, which holds none", get(7)),
        ("a packet of one", Packet(vec![bare(0x0E, &[])])),
        ("an Unconnected Send", sent(get(7))),
        (
            "an Unconnected Send of an odd message, with a longer route",
            Message::Send { prio: 0, ticks: 1, message: Box::new(bare(0x4B, &[9])), route: far },
        ),
        ("depth 3 through packets", Packet(vec![Packet(vec![tag.clone(), Packet(vec![bare(1, &[5]), get(300)])]), bare(2, &[])])),
        ("depth 3 through Unconnected Sends", sent(sent(sent(tag.clone())))),
        (
            "an Unconnected Send in a packet in an Unconnected Send",
            sent(Packet(vec![get(5), sent(tag.clone()), bare(3, &[7, 7, 7])])),
        ),
        (
            "a packet in an Unconnected Send in a packet",
            Packet(vec![bare(4, &[1]), sent(Packet(vec![tag.clone(), get(9)])), tag]),
        ),
        (
            "an empty packet at every depth",
            Packet(vec![Packet(vec![]), Packet(vec![Packet(vec![]), Packet(vec![Packet(vec![])])])]),
        ),
        ("an empty packet at depth 3, and one behind it", Packet(vec![sent(Packet(vec![Packet(vec![]), bare(6, &[])])), get(8)])),
    ]
}

// ---- cases ----

pub fn good_lines() -> Vec<Vec<u8>> {
    vec![line(&EXAMPLE)]
}

/// What the crate writes for a tree; nothing for one that it can't.
pub fn wire(tree: &Message) -> Vec<u8> {
    written(tree).map_or(vec![], |(bytes, _)| bytes)
}

/// A tree: the crate writes it, and the rows that were put in have to come back.
pub fn ask_tree(to: &mut Sink, tree: &Message) {
    match written(tree) {
        Ok((bytes, rows)) => to(Case { line: line(&bytes), truth: tree_answer(&rows).map_or(Truth::Outside, Truth::Crate) }),
        // no program answers this, so it differs
        Err(Some(text)) => to(Case { line: line(&[]), truth: Truth::Crate(text.into_bytes()) }),
        Err(None) => {}
    }
}

/// An input of which nothing is known.
pub fn ask(to: &mut Sink, input: &[u8]) {
    let truth = match says(input) {
        Says::Line(line) => Truth::Crate(line),
        Says::Nothing => Truth::Judge,
        Says::Outside => Truth::Outside,
    };
    to(Case { line: line(input), truth });
}
