//! The judge on nested messages, 40: a message, and what it holds.

use super::bodies::items;
use super::fields::{answer, low_first, two, Fields, Judged};
use super::requests::readers::{message_parts, send_parts};

/// The outermost message has depth 0.
const DEEPEST: u8 = 3;

/// Just class 2 instance 1, and just class 6 instance 1: a path has one form, so its bytes say it.
const ROUTER: [u8; 4] = [0x20, 2, 0x24, 1];
const MANAGER: [u8; 4] = [0x20, 6, 0x24, 1];

pub fn case(f: &mut Fields) -> Option<Vec<u8>> {
    let input = f.run()?;
    f.end()?;
    let mut rows = vec![];
    let judged = walk(input, 0, &mut rows);
    Some(answer(judged.map(|()| [low_first(rows.len() as u32), rows.concat()].concat())))
}

/// A message, and at once those that it holds. What holds them is judged whole before the first of them is read, and the
/// depth before anything of the message itself.
fn walk(input: &[u8], depth: u8, rows: &mut Vec<Vec<u8>>) -> Judged<()> {
    if depth > DEEPEST {
        return Err(9);
    }
    let (service, path, data) = message_parts(input)?;
    rows.push([vec![depth, service], two(path.len as u16), two(data.len as u16)].concat());
    for held in opened(service, path.of(input), data.of(input))? {
        walk(held, depth + 1, rows)?;
    }
    Ok(())
}

/// The messages in a message's data; none where it is not one of the two that are opened.
fn opened<'a>(service: u8, path: &[u8], data: &'a [u8]) -> Judged<Vec<&'a [u8]>> {
    match service {
        0x0A if path == ROUTER => Ok(items(data)?.iter().map(|i| i.of(data)).collect()),
        0x52 if path == MANAGER => Ok(vec![send_parts(data)?.1.of(data)]),
        _ => Ok(vec![]),
    }
}
