//! The crate's own answers on bodies: what its encoder writes, and what its reply walk hands out.
//!
//! A body is in the domain where the crate's encoder writes that very input of the items that its table names, none of
//! them empty, in at most 65,535 bytes. The walk reads on from where it stopped; so a reply is in the domain where it
//! and each before it is read exactly to its end: a good header, and a failed one without data.

use super::paths::{writer_answer, wrote, Did, Wrote, LONGEST_RECORD};
use super::replies::header_answer;
use crate::case::bodies::{Ask, Items, Join};
use crate::case::digits;
use crate::case::replies::Status;
use crate::{body_of, dec, Capture, Decode, Decoder, OracleError};
use bytes::{Buf, Bytes};
use rseip_cip::service::CommonServices;
use std::cell::Cell;

pub fn encoded(items: &[&[u8]]) -> Wrote {
    wrote(body_of(items.iter().map(|i| Bytes::copy_from_slice(i))))
}

fn are_in_domain(items: &[&[u8]]) -> bool {
    let size = 2 + items.iter().map(|i| 2 + i.len()).sum::<usize>();
    size <= LONGEST_RECORD && items.iter().all(|i| !i.is_empty())
}

/// The answer line of 30; Err with what the encoder did where the case is not in the domain, or has too little room.
pub fn write_answer(given: &Items) -> Result<Vec<u8>, Option<Beside>> {
    let items = given.items().ok_or(None)?;
    let wrote = encoded(&items);
    let beside = if wrote.is_ok() { Beside::Written } else { Beside::NotWritten };
    if !are_in_domain(&items) {
        return Err(Some(beside));
    }
    writer_answer(&wrote, Some(given.room)).ok_or(None)
}

/// The answer line of 34. The crate has no join: a joined body is what its encoder writes of the items of both.
pub fn join_answer(j: &Join) -> Option<Vec<u8>> {
    let items = [items(&j.first)?, items(&j.second)?].concat();
    are_in_domain(&items).then(|| writer_answer(&encoded(&items), Some(j.room)))?
}

/// The number at a place; what lies past the end counts as 0.
fn u16_at(b: &[u8], at: usize) -> usize {
    let byte = |i: usize| b.get(i).copied().map_or(0, usize::from);
    byte(at) + 256 * byte(at + 1)
}

/// Where an item begins and ends by the table, whether or not that lies in the input.
fn span(b: &[u8], k: usize) -> (usize, usize) {
    let last = k + 1 == u16_at(b, 0);
    (u16_at(b, 2 + 2 * k), if last { b.len() } else { u16_at(b, 4 + 2 * k) })
}

/// The items of a body of the domain.
pub fn items(input: &[u8]) -> Option<Vec<&[u8]>> {
    let named = |k| input.get(span(input, k).0..span(input, k).1);
    let items: Vec<&[u8]> = (0..u16_at(input, 0)).map(named).collect::<Option<_>>()?;
    (are_in_domain(&items) && encoded(&items).as_deref() == Ok(input)).then_some(items)
}

thread_local!(static WANTED: Cell<usize> = const { Cell::new(0) });

/// A type that reads exactly the number of bytes told to it beforehand, and says how many were left before that.
struct Exact {
    left: usize,
    data: Vec<u8>,
}

impl<'de> Decode<'de> for Exact {
    fn decode<D: Decoder<'de>>(mut d: D) -> Result<Self, D::Error> {
        let (left, n) = (d.remaining(), WANTED.get());
        d.ensure_size(n)?;
        let mut data = vec![0; n];
        d.buf_mut().copy_to_slice(&mut data);
        Ok(Exact { left, data })
    }
}

/// What the walk gave when it was asked for the next item.
pub enum Given {
    /// `start`: where the data begins in the input
    Item {
        service: u8,
        status: rseip_cip::Status,
        start: usize,
        data: Vec<u8>,
    },
    Error(OracleError),
    End,
    Panic(String),
}

/// The whole walk, each item typed to read what the table says of its data. It is asked twice more than there are
/// items, and no more after its end or a panic.
pub fn walk(input: &[u8]) -> Vec<Given> {
    let mut it = Capture::oracle_walk(dec(input));
    let mut all = vec![];
    let n = u16_at(input, 0);
    for k in 0..n + 2 {
        let (start, end) = if k < n { span(input, k) } else { (0, 0) };
        let head = 4 + 2 * input.get(start + 3).copied().map_or(0, usize::from);
        WANTED.set(end.saturating_sub(start).saturating_sub(head));
        let given = match crate::guard(|| it.next::<Exact>()) {
            Ok(Some(Ok(m))) => {
                let start = input.len() - m.data.left;
                Given::Item { service: m.reply_service, status: m.status, start, data: m.data.data }
            }
            Ok(Some(Err(e))) => Given::Error(e),
            Ok(None) => Given::End,
            Err(text) => Given::Panic(text),
        };
        let over = matches!(given, Given::End | Given::Panic(_));
        all.push(given);
        if over {
            break;
        }
    }
    all
}

impl Given {
    fn did(&self) -> Did {
        match self {
            Given::Item { .. } => Did::Accepted,
            Given::Error(e) if failed_status(e).is_some() => Did::Failed,
            Given::Error(e) => Did::of(e),
            Given::End => Did::Ended,
            Given::Panic(_) => Did::Panicked,
        }
    }
}

/// The status in an error of the crate's: it keeps nothing else of a failed reply.
pub fn failed_status(e: &OracleError) -> Option<Status> {
    let OracleError::Custom(text) = e else { return None };
    let number = |name: &str| {
        let (_, behind) = text.split_once(name)?;
        behind.split(|c: char| !c.is_ascii_digit()).next()?.parse().ok()
    };
    let general = number("CIP general status: ")?;
    Some(crate::case::replies::status(general as u8, number("extended status: ")))
}

/// What the crate did with what is not to be compared.
#[derive(Clone, Copy, PartialEq, Eq, PartialOrd, Ord, Debug)]
pub enum Beside {
    /// 30: its encoder took the items
    Written,
    NotWritten,
    /// 31: of the whole walk, whether an item was handed out and an error given, and what came last
    Walk {
        items: bool,
        error: bool,
        last: Did,
    },
    /// 33: what it gave for this item
    Item(Did),
}

/// What the crate says of a case.
pub enum Says {
    Line(Vec<u8>),
    /// of a failed item its status alone
    Status(Status),
    /// it is asked, and what it does is not to be compared
    Beside(Beside),
    Nothing,
}

/// An input that the crate was asked about, once for all that is asked of it.
pub struct Walked<'a> {
    input: &'a [u8],
    items: Option<Vec<&'a [u8]>>,
    given: Vec<Given>,
    /// so many items, from the first on, are read exactly to their ends
    exact: usize,
}

impl<'a> Walked<'a> {
    pub fn new(input: &'a [u8]) -> Self {
        let items = items(input);
        let exact = items.iter().flatten().take_while(|i| is_exact(i)).count();
        Walked { input, items, given: walk(input), exact }
    }
    pub fn says(&self, ask: Ask) -> Says {
        let Some(items) = &self.items else {
            return if ask == Ask::Count { Says::Beside(self.whole()) } else { Says::Nothing };
        };
        match ask {
            Ask::Count => Says::Line(self.count(items.len())),
            Ask::Item(k) if k < items.len() as u64 => {
                let (start, end) = span(self.input, k as usize);
                Says::Line(numbers(&[start, end - start]))
            }
            Ask::Reply(k) if k < self.exact as u64 => self.reply(k as usize),
            Ask::Reply(k) if k < items.len() as u64 => {
                Says::Beside(Beside::Item(self.given.get(k as usize).map_or(Did::Ended, Given::did)))
            }
            _ => Says::Nothing,
        }
    }
    /// Where every item is read to its end, the walk has to hand out as many, and then to end.
    fn count(&self, items: usize) -> Vec<u8> {
        let ends = matches!(self.given.get(items), Some(Given::End));
        if self.exact == items && !ends {
            return format!("the walk goes on behind {items} items").into_bytes();
        }
        numbers(&[items])
    }
    fn reply(&self, k: usize) -> Says {
        match &self.given[k] {
            Given::Item { service, status, start, data } => Says::Line(header_answer(*service, status, *start, data.len())),
            Given::Error(e) if failed_status(e).is_some() => Says::Status(failed_status(e).unwrap()),
            // no program answers this, so it differs
            other => Says::Line(format!("the walk: {:?}", other.did()).into_bytes()),
        }
    }
    fn whole(&self) -> Beside {
        let is_error = |d| !matches!(d, Did::Accepted | Did::Ended | Did::Panicked);
        let all = || self.given.iter().map(Given::did);
        Beside::Walk {
            items: all().any(|d| d == Did::Accepted),
            error: all().any(is_error),
            last: all().next_back().unwrap_or(Did::Ended),
        }
    }
}

/// A good header, and behind a failed one no data.
fn is_exact(item: &[u8]) -> bool {
    let [_, _, general, words, rest @ ..] = item else { return false };
    let words = 2 * usize::from(*words);
    words <= 2 && rest.len() >= words && (*general == 0 || rest.len() == words)
}

/// An accepted answer of numbers.
fn numbers(n: &[usize]) -> Vec<u8> {
    let fields: Vec<u8> = n.iter().flat_map(|n| (*n as u32).to_le_bytes()).collect();
    digits(&[&[0][..], &fields].concat())
}
