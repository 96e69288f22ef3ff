//! Requests, 10 to 15 and 18 to 1B: what the files below share.

pub mod drawn;
pub mod fields;
pub mod limits;
pub mod reads;

use super::asking::{Case, Sink, Truth};
use super::paths::sample;
use crate::ask_crate::paths::writer_answer;
use crate::ask_crate::requests::{answer, default_answer, read_answer, record, setter_answer};
use crate::case::requests::{default_line, setter_line, Close, Head, Open, Par, Record, Request};
use crate::case::*;

/// Every field another number, and every byte of a number another: what is swapped shows.
pub fn some_open(large: u8) -> Open {
    Open {
        large,
        prio: 0x0A,
        ticks: 0xC1,
        o_t_id: 0x1122_3344,
        t_o_id: 0x5566_7788,
        serial: 0x1234,
        vendor: 0x5678,
        originator: 0x9ABC_DEF0,
        multiplier: 7,
        o_t_rpi: 0x0102_0304,
        o_t: Par { size: 0x0123, variable: 1, priority: 2, kind: 1, owner: 0 },
        t_o_rpi: 0xA0B0_C0D0,
        t_o: Par { size: 0x01F8, variable: 0, priority: 1, kind: 2, owner: 1 },
        direction: 1,
        trigger: 1,
        class: 5,
    }
}

/// A small Forward Open with these connection sizes.
pub fn sized_open(a: u16, b: u16) -> Head {
    let mut o = some_open(0);
    (o.o_t.size, o.t_o.size) = (a, b);
    Head::Open(o)
}

pub fn some_close() -> Close {
    Close { prio: 0x03, ticks: 0xFA, serial: 0x1234, vendor: 0x5678, originator: 0x9ABC_DEF0 }
}

/// A good message: read an attribute.
pub const GET: [u8; 8] = [0x0E, 3, 0x20, 1, 0x24, 1, 0x30, 7];

pub fn some_send(message: &[u8]) -> Head {
    Head::Send { prio: 0x05, ticks: 0x9D, message: message.to_vec() }
}

pub fn some_message(data: &[u8]) -> Head {
    Head::Message { service: 0x4C, data: data.to_vec() }
}

/// One of each, both forms of Forward Open, odd and even messages.
pub fn heads() -> Vec<Head> {
    vec![
        some_message(&[]),
        some_message(&[0xAA, 0xBB, 0xCC]),
        Head::Open(some_open(0)),
        Head::Open(some_open(1)),
        Head::Close(some_close()),
        some_send(&GET),
        some_send(&[&GET[..], &[0x99]].concat()),
    ]
}

/// Class 2, instance 1.
pub fn short_path() -> Vec<Plain> {
    vec![plain(CLASS, 2, b""), plain(INSTANCE, 1, b"")]
}

/// Every parameter word apart from its size, as one of the 48 there are.
pub fn word(i: u8, size: u16) -> Par {
    Par { size, variable: i % 2, priority: i / 2 % 4, kind: i / 8 % 3, owner: i / 24 }
}

/// What the crate writes for a record of its domain.
pub fn written(head: &Head, list: &[Plain]) -> Vec<u8> {
    record(head, list).and_then(Result::ok).unwrap_or_default()
}

/// A good line of each operation but 15, whose lines are too short for what is done with these.
pub fn good_lines() -> Vec<Vec<u8>> {
    let mut v = vec![];
    for head in heads() {
        let (pool, list) = sample();
        v.push(Request { head: head.clone(), pool, list, room: 60 }.line());
        v.push(Record::of(&head, &written(&head, &[plain(CLASS, 6, b"")])).line());
    }
    v.push(default_line(0, 0x1234, 44));
    v
}

/// A record written into each of the rooms (added to its size), and what the crate wrote given to the reader.
pub fn whole(to: &mut Sink, head: &Head, list: &[Plain], more: &[i64]) {
    over(to, head, list, end_to_end(list), more, true);
}

/// The same over a pool that was lent, read back or not.
pub fn over(to: &mut Sink, head: &Head, list: &[Plain], lent: (Vec<u8>, Vec<Seg>), more: &[i64], back: bool) {
    let wrote = record(head, list);
    let bytes = wrote.as_ref().and_then(|w| w.as_ref().ok());
    let size = bytes.map_or(0, |b| b.len() as i64);
    let mut r = Request { head: head.clone(), pool: lent.0, list: lent.1, room: 0 };
    for m in more {
        r.room = (size + m).clamp(0, 70_000) as u32;
        let said = wrote.as_ref().and_then(|w| writer_answer(w, Some(r.room)));
        to(Case { line: r.line(), truth: said.map_or(Truth::Judge, Truth::Crate) });
    }
    if let (true, Some(bytes)) = (back, bytes) {
        let input = Record::of(head, bytes);
        let truth = read_answer(head, list, bytes).map(Truth::Crate);
        to(Case { line: input.line(), truth: truth.unwrap_or(Truth::Record(input)) });
    }
}

/// A case of 10 to 13 of which nothing is known.
pub fn ask(to: &mut Sink, r: &Request) {
    let truth = answer(r).map_or(Truth::Judge, Truth::Crate);
    to(Case { line: r.line(), truth });
}

pub fn ask_default(to: &mut Sink, large: u8, serial: u16, room: u32) {
    let truth = default_answer(large, serial, room).map_or(Truth::Judge, Truth::Crate);
    to(Case { line: default_line(large, serial, room), truth });
}

pub fn ask_setter(to: &mut Sink, value: u8) {
    to(Case { line: setter_line(value), truth: Truth::Crate(setter_answer(value)) });
}

/// An input of which nothing is known.
pub fn ask_reader(to: &mut Sink, op: u8, large: u8, input: &[u8]) {
    let r = Record { op, large, input: input.to_vec() };
    to(Case { line: r.line(), truth: Truth::Record(r) });
}
