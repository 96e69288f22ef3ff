//! The crate's own answers. Everything here comes from what rseip-cip wrote or read; nothing from the judge.

pub mod bodies;
pub mod nested;
pub mod paths;
pub mod replies;
pub mod requests;

use crate::case::bodies::{Ask, Items, Join};
use crate::case::replies::{routing_of_line, Reply};
use crate::case::requests::{default_of_line, Request};
use crate::case::Writer;

/// The answer to a line of a writer, a size, the default, the setter, or of 20 to 22, 27, 30 to 34 and 40; None where it
/// is not in the domain, or the crate says only a part of it.
pub fn of_line(line: &[u8]) -> Option<Vec<u8>> {
    if let Some(w) = Writer::of_line(line) {
        return paths::answer(&w);
    }
    if let Some(r) = Request::of_line(line) {
        return requests::answer(&r);
    }
    if let Some((large, serial, room)) = default_of_line(line) {
        return requests::default_answer(large, serial, room);
    }
    if let Some(r) = Reply::of_line(line) {
        return replies::answer(&r).ok();
    }
    if let Some(s) = routing_of_line(line) {
        return replies::routing_answer(&s);
    }
    if let Some(i) = Items::of_line(line) {
        return bodies::write_answer(&i).ok();
    }
    if let Some((ask, input)) = Ask::of_line(line) {
        return match bodies::Walked::new(&input).says(ask) {
            bodies::Says::Line(a) => Some(a),
            _ => None,
        };
    }
    if let Some(j) = Join::of_line(line) {
        return bodies::join_answer(&j);
    }
    if let Some(input) = crate::case::nested::of_line(line) {
        return match nested::says(&input) {
            nested::Says::Line(a) => Some(a),
            _ => None,
        };
    }
    match crate::case::undigits(line)?[..] {
        [0x15, value] => Some(requests::setter_answer(value)),
        _ => None,
    }
}
