//! The judge on replies: the fields of a case, the writers 23 to 25, and 27; then the readers 20 to 22, and of the envelope
//! 26.

use super::fields::{answer, low_first, two, writer, Fields, Judged, Part, Reader};

/// Application data of a reply.
const MOST_DATA: usize = 510;

struct Status {
    general: u8,
    /// None behind 0 words, whatever stands in the line there
    word: Option<u16>,
}

pub fn case(op: u8, f: &mut Fields) -> Option<Vec<u8>> {
    let done = match op {
        0x20 => answer(reply(f.run()?)),
        0x21 | 0x22 => {
            let routing = f.upto(1)? == 1;
            let success = if op == 0x21 { 26 } else { 10 };
            answer(forward(success, routing, f.run()?))
        }
        0x23..=0x25 => writer(record(op, f)?, f.room()?),
        0x26 => answer(envelope(f.run()?)),
        _ => answer(Ok(vec![u8::from(is_routing_error(&status(f)?))])),
    };
    f.end()?;
    Some(done)
}

/// The fields of a writer's case up to its room: the reply, or why there is none.
fn record(op: u8, f: &mut Fields) -> Option<Judged<Vec<u8>>> {
    let service = f.u8()?;
    Some(match op {
        0x23 => {
            let ids = [low_first(f.u32()?), low_first(f.u32()?), connection(f)?];
            let intervals = [low_first(f.u32()?), low_first(f.u32()?)];
            success(service, [ids.concat(), intervals.concat()].concat(), f.run()?)
        }
        0x24 => success(service, connection(f)?, f.run()?),
        _ => {
            let status = status(f)?;
            let connection = connection(f)?;
            let there = f.upto(1)? == 1;
            failure(service, &status, connection, Some(f.u8()?).filter(|_| there))
        }
    })
}

fn status(f: &mut Fields) -> Option<Status> {
    let (general, words, word) = (f.u8()?, f.upto(1)?, f.u16()?);
    Some(Status { general, word: Some(word).filter(|_| words == 1) })
}

/// Serial, vendor, originator.
fn connection(f: &mut Fields) -> Option<Vec<u8>> {
    Some([two(f.u16()?), two(f.u16()?), low_first(f.u32()?)].concat())
}

/// The limit comes before the form (DECISIONS 5).
fn success(service: u8, fields: Vec<u8>, data: &[u8]) -> Judged<Vec<u8>> {
    if data.len() > MOST_DATA {
        return Err(3);
    }
    if !data.len().is_multiple_of(2) {
        return Err(5);
    }
    let size = vec![(data.len() / 2) as u8, 0];
    Ok([vec![service, 0, 0, 0], fields, size, data.to_vec()].concat())
}

fn failure(service: u8, status: &Status, connection: Vec<u8>, remaining: Option<u8>) -> Judged<Vec<u8>> {
    if status.general == 0 {
        return Err(4);
    }
    let word = status.word.map_or(vec![], two);
    let head = vec![service, 0, status.general, (word.len() / 2) as u8];
    Ok([head, word, connection, remaining.into_iter().collect()].concat())
}

/// As the page `status.rs` has it; document 01 leaves it to the crate.
fn is_routing_error(s: &Status) -> bool {
    match s.general {
        1 => s.word.is_some_and(|w| [0x0204, 0x0311, 0x0312, 0x0315].contains(&w)),
        general => general == 2 || general == 4,
    }
}

// ---- readers: fields in wire order, each present (1) before its content is judged ----

/// Service, status and the data part. What is wrong with the status is said for failed ones too.
fn reply(input: &[u8]) -> Judged<Vec<u8>> {
    reply_from(Reader::new(input)?)
}

/// The same from where a reader stands; starts are counted in its whole input.
pub fn reply_from(mut r: Reader) -> Judged<Vec<u8>> {
    let head = header(&mut r)?;
    Ok([head.fields(), r.rest().fields()].concat())
}

struct Header {
    service: u8,
    general: u8,
    word: Option<u16>,
}

impl Header {
    /// As a line has them: service, general, words, word.
    fn fields(&self) -> Vec<u8> {
        [vec![self.service, self.general, u8::from(self.word.is_some())], two(self.word.unwrap_or(0))].concat()
    }
}

fn header(r: &mut Reader) -> Judged<Header> {
    let fixed = r.plain(4)?;
    let (service, general, words) = (fixed[0], fixed[2], usize::from(fixed[3]));
    // all the words must be there before their number is judged
    let extended = r.plain(2 * words)?;
    if words > 1 {
        return Err(6);
    }
    let word = (words == 1).then(|| u16::from(extended[0]) + 256 * u16::from(extended[1]));
    Ok(Header { service, general, word })
}

/// A Forward Open (26 bytes) or Forward Close reply (10): the last two of these are the size of the application data in
/// words, and a reserved byte. What follows a record is ignored.
fn forward(success: usize, routing: bool, input: &[u8]) -> Judged<Vec<u8>> {
    let mut r = Reader::new(input)?;
    let head = header(&mut r)?;
    if head.general == 0 {
        let fields = r.plain(success - 2)?;
        let words = r.number(1)?;
        r.plain(1)?;
        let data = r.part(2 * words as usize)?;
        return Ok([head.fields(), vec![1], fields.to_vec(), data.fields()].concat());
    }
    let connection = r.plain(8)?;
    let remaining = if routing { r.byte()? } else { 0 };
    Ok([head.fields(), vec![0], connection.to_vec(), vec![u8::from(routing), remaining]].concat())
}

/// Two items, of which the first says the form; no limit on the whole (DECISIONS 6 and 7).
fn envelope(input: &[u8]) -> Judged<Vec<u8>> {
    let mut r = Reader { t: input, at: 0 };
    wanted(r.number(2)?, &[2])?;
    let address = r.number(2)?;
    wanted(address, &[0, 0xA1])?;
    // the address item's length is free
    item(&mut r)?;
    let connected = address == 0xA1;
    wanted(r.number(2)?, if connected { &[0xB1] } else { &[0xB2] })?;
    let whole = item(&mut r)?;
    let (mut count, mut data) = (0, whole);
    if connected {
        if data.len < 2 {
            return Err(1);
        }
        count = u16::from(input[data.start]) + 256 * u16::from(input[data.start + 1]);
        data = Part { start: data.start + 2, len: data.len - 2 };
    }
    r.end()?;
    Ok([vec![u8::from(connected)], two(count), data.fields()].concat())
}

fn wanted(found: u32, known: &[u32]) -> Judged<()> {
    if known.contains(&found) {
        Ok(())
    } else {
        Err(10)
    }
}

/// An item behind its type: length and bytes.
fn item(r: &mut Reader) -> Judged<Part> {
    let len = r.number(2)? as usize;
    r.part(len)
}
