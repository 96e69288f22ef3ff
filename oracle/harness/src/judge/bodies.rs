//! The judge on bodies, 30 to 34: count, offsets, items.

use super::fields::{answer, low_first, two, writer, Fields, Judged, Part, Reader, LONGEST_RECORD};
use super::replies::reply_from;

/// So many lengths a line may have.
const MOST_LENGTHS: u32 = 32_768;

pub fn case(op: u8, f: &mut Fields) -> Option<Vec<u8>> {
    let done = match op {
        0x30 => {
            let lent = f.run()?;
            let count = f.u32().filter(|n| *n <= MOST_LENGTHS)?;
            let lengths: Option<Vec<u64>> = (0..count).map(|_| f.u64()).collect();
            writer(write(lent, &lengths?), f.room()?)
        }
        0x31 => answer(items(f.run()?).map(|items| low_first(items.len() as u32))),
        0x32 => answer(item(f.run()?, f.u64()?).map(|part| part.fields())),
        0x33 => {
            let input = f.run()?;
            // judged with the item as its whole input
            let reply = |p: Part| reply_from(Reader { t: &input[..p.start + p.len], at: p.start });
            answer(item(input, f.u64()?).and_then(reply))
        }
        _ => writer(join(f.run()?, f.run()?), f.room()?),
    };
    f.end()?;
    Some(done)
}

/// First to last: past the lent end, then empty. Spare bytes are not used.
fn write(lent: &[u8], lengths: &[u64]) -> Judged<Vec<u8>> {
    let mut rest = lent;
    let mut list = vec![];
    for n in lengths {
        if *n > rest.len() as u64 {
            return Err(11);
        }
        if *n == 0 {
            return Err(7);
        }
        let (one, behind) = rest.split_at(*n as usize);
        list.push(one);
        rest = behind;
    }
    layout(&list)
}

fn layout(list: &[&[u8]]) -> Judged<Vec<u8>> {
    let table = 2 + 2 * list.len();
    let total = table + list.iter().map(|i| i.len()).sum::<usize>();
    if total > LONGEST_RECORD {
        return Err(3);
    }
    let mut body = two(list.len() as u16);
    let mut at = table;
    for i in list {
        body.extend(two(at as u16));
        at += i.len();
    }
    Ok([body, list.concat()].concat())
}

/// The items of a body. Each offset is a field of its own (DECISIONS 1), and all are judged before any item.
pub fn items(input: &[u8]) -> Judged<Vec<Part>> {
    let mut r = Reader::new(input)?;
    let count = r.number(2)? as usize;
    if count == 0 {
        r.end()?;
    }
    let mut starts: Vec<usize> = vec![];
    for _ in 0..count {
        let offset = r.number(2)? as usize;
        let follows = starts.last().map_or(offset == 2 + 2 * count, |before| offset > *before);
        if !follows || offset >= input.len() {
            return Err(7);
        }
        starts.push(offset);
    }
    let end = |k: usize| *starts.get(k + 1).unwrap_or(&input.len());
    Ok(starts.iter().enumerate().map(|(k, s)| Part { start: *s, len: end(k) - s }).collect())
}

fn item(input: &[u8], index: u64) -> Judged<Part> {
    items(input)?.into_iter().nth(usize::try_from(index).unwrap_or(usize::MAX)).ok_or(11)
}

/// The first body's refusal, the second's, then the whole limit.
fn join(first: &[u8], second: &[u8]) -> Judged<Vec<u8>> {
    let mut list = vec![];
    for body in [first, second] {
        list.extend(items(body)?.iter().map(|p| p.of(body)));
    }
    layout(&list)
}
