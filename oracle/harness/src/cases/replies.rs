//! Replies, 20 to 25 and 27: what the files below share.

pub mod drawn;
pub mod reads;
pub mod writes;

use super::asking::{Case, Sink, Truth};
use crate::ask_crate::replies::{answer, routing, routing_answer};
use crate::case::reader_line;
use crate::case::replies::{routing_line, status, Body, Forward, Ids, Reply, Status};
use crate::refused::Beside;

pub const NO_ERROR: Status = Status { general: 0, words: 0, word: 0 };

/// Every field another number, and every byte of a number another: what is swapped shows.
pub fn some_ids() -> Ids {
    Ids { serial: 0x1234, vendor: 0x5678, originator: 0x9ABC_DEF0 }
}

pub fn some_open(data: &[u8]) -> Forward {
    let body = Body::Open {
        o_t_id: 0x1122_3344,
        t_o_id: 0x5566_7788,
        ids: some_ids(),
        o_t_api: 0x0102_0304,
        t_o_api: 0xA0B0_C0D0,
        data: data.to_vec(),
    };
    Forward { service: 0xD4, status: NO_ERROR, body }
}

pub fn some_close(data: &[u8]) -> Forward {
    Forward { service: 0xCE, status: NO_ERROR, body: Body::Close { ids: some_ids(), data: data.to_vec() } }
}

/// With a remaining path size where the crate has one.
pub fn some_failure(general: u8, word: Option<u16>) -> Forward {
    let status = status(general, word);
    let flag = routing(&status);
    Forward { service: 0xD4, status, body: Body::Failure { ids: some_ids(), flag, remaining: 3 * flag } }
}

/// Failures with 8 and 9 bytes, with and without a word.
pub fn failures() -> Vec<Forward> {
    let some = [
        (1, Some(0x0204)),
        (1, Some(0x0100)),
        (1, None),
        (2, None),
        (4, Some(0x0003)),
        (8, None),
        (3, Some(0x0204)),
        (0xFF, Some(0x2105)),
    ];
    some.map(|(general, word)| some_failure(general, word)).to_vec()
}

/// One of each that a writer can be given: both successes with and without application data, and the failures.
pub fn forwards() -> Vec<Forward> {
    let data = [0xAA, 0xBB, 0xCC, 0xDD];
    [vec![some_open(&[]), some_open(&data), some_close(&[]), some_close(&data)], failures()].concat()
}

/// The same with another status.
pub fn with(mut f: Forward, status: Status) -> Forward {
    f.status = status;
    f
}

/// A good line of each operation but 27, whose lines are too short for what is done with these.
pub fn good_lines() -> Vec<Vec<u8>> {
    let mut v = vec![];
    for f in [some_open(&[1, 2]), some_close(&[3, 4]), some_failure(2, Some(7))] {
        v.push(f.line(40));
        v.extend(f.readers().iter().map(|op| Reply { op: *op, routing: 1, input: f.wire(0, 0) }.line()));
    }
    v.push(reader_line(0x20, &[0x8E, 0, 8, 1, 3, 0]));
    v
}

/// An input for 20, 21 or 22: the crate's where it accepts in the domain, else the judge's.
pub fn ask(to: &mut Sink, op: u8, routing: u8, input: &[u8]) {
    let r = Reply { op, routing, input: input.to_vec() };
    let truth = answer(&r).map_or_else(|b| Truth::Beside(Beside::Reply(b)), Truth::Crate);
    to(Case { line: r.line(), truth });
}

/// One input for the three readers, told both ways.
pub fn ask_all(to: &mut Sink, input: &[u8]) {
    ask(to, 0x20, 0, input);
    for op in [0x21, 0x22] {
        for routing in [0, 1] {
            ask(to, op, routing, input);
        }
    }
}

/// A reply for its own readers, told what the crate decides.
pub fn ask_own(to: &mut Sink, f: &Forward, input: &[u8]) {
    for op in f.readers() {
        ask(to, *op, routing(&f.status), input);
    }
}

/// A case of 23 to 25.
pub fn ask_write(to: &mut Sink, f: &Forward, room: u32) {
    to(Case { line: f.line(room), truth: Truth::Written(f.clone()) });
}

/// A reply written into each of the rooms (added to its size), and read back.
pub fn whole(to: &mut Sink, f: &Forward, more: &[i64]) {
    let bytes = f.wire(0, 0);
    for m in more {
        ask_write(to, f, (bytes.len() as i64 + m).clamp(0, 70_000) as u32);
    }
    ask_own(to, f, &bytes);
}

pub fn ask_routing(to: &mut Sink, s: &Status) {
    to(Case { line: routing_line(s), truth: routing_answer(s).map_or(Truth::Judge, Truth::Crate) });
}
