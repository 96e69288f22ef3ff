//! A reply's header, and the walk over the replies in a body.
use super::bodies::body;
use super::{reader, Entry, Operation};
use crate::place;
use crate::theirs::{dec, Kind, Lean, Nobody, Text};
use barkcushion::{read_replies, Body, Reply, REPLY_ROW};
use bytes::Bytes;
use rseip_cip::codec::decode::message_reply::decode_service_and_status;
use rseip_cip::service::CommonServices;
use rseip_core::Error;
use std::fmt::Debug;
use std::hint::black_box;

pub const ALL: &[Entry] = &[
    ("header", "reply header, extended word (crate: leanest)", || header::<Kind>(&EXTENDED)),
    ("header-plain", "reply header, success (crate: leanest)", || header::<Kind>(&SUCCESS)),
    ("header-text", "reply header, extended word (crate: error with text)", || header::<Text>(&EXTENDED)),
    ("header-plain-text", "reply header, success (crate: error with text)", || header::<Text>(&SUCCESS)),
    ("walk-3", "reply walk of 3, one by one (crate: leanest)", || walk::<Kind>(3, false, false)),
    ("walk-100", "reply walk of 100, one by one (crate: leanest)", || walk::<Kind>(100, false, false)),
    ("walk-3-once", "reply walk of 3, ours in one call (crate: leanest)", || walk::<Kind>(3, false, true)),
    ("walk-100-once", "reply walk of 100, ours in one call (crate: leanest)", || walk::<Kind>(100, false, true)),
    ("walk-3-text", "reply walk of 3, one by one (crate: error with text, input shared)", || walk::<Text>(3, true, false)),
    ("walk-100-text", "reply walk of 100, one by one (crate: error with text, input shared)", || walk::<Text>(100, true, false)),
];

const EXTENDED: [u8; 6] = [0x8E, 0, 8, 1, 3, 0];
const SUCCESS: [u8; 8] = [0x8E, 0, 0, 0, 1, 2, 3, 4];

/// Service, general status and extended word as one number: a record would go through memory, and cost more than the reading.
#[inline(always)]
fn number(service: u8, general: u8, extended: Option<u16>) -> u64 {
    u64::from_le_bytes([service, general, extended.is_some().into(), 0, 0, 0, 0, 0]) | u64::from(extended.unwrap_or(0)) << 32
}

fn header<E: Error + Debug>(input: &'static [u8]) -> Operation {
    let ours = move || {
        let reply = Reply::read(black_box(input)).unwrap();
        number(reply.service, reply.status.general, reply.status.extended)
    };
    let theirs = move || {
        let (service, status) = decode_service_and_status(Lean::<E>::new(black_box(input))).unwrap();
        number(service, status.general, status.extended)
    };
    reader(input, ours, theirs)
}

/// Replies of four bytes of data each.
fn replies(n: usize) -> Vec<u8> {
    body(&(0..n as u32).map(|i| [&[0x8E, 0, 0, 0][..], &(i * 0x01020304).to_le_bytes()].concat()).collect::<Vec<_>>())
}

/// How many replies, and the sum of their numbers.
fn sum_of<'a>(replies: impl Iterator<Item = barkcushion::Result<Reply<'a>>>) -> (u32, u32) {
    let (mut items, mut sum) = (0u32, 0u32);
    for reply in replies {
        let reply = reply.unwrap();
        assert!(reply.status.is_success());
        sum = sum.wrapping_add(u32::from_le_bytes(reply.data.try_into().unwrap()));
        items += 1;
    }
    (items, sum)
}

/// Ours goes from item to item, or takes all in one call into a lent run of rows; the crate has the first way alone.
fn walk<E: Error + Debug>(n: usize, shared: bool, once: bool) -> Operation {
    let input = replies(n);
    let s: &'static [u8] = place::input(&input);
    let bytes = if shared { Bytes::from(input.clone()) } else { Bytes::from_static(s) };
    let other = bytes.clone();
    let mut rows = vec![0; n * REPLY_ROW];
    let ours = move || match once {
        false => sum_of(Body::read(black_box(s)).unwrap().replies()),
        true => sum_of(read_replies(black_box(s), black_box(&mut rows)).unwrap()),
    };
    let theirs = move || {
        let _ = &other;
        let mut it = Nobody::oracle_walk(dec::<E>(black_box(&bytes)));
        let (mut items, mut sum) = (0u32, 0u32);
        while let Some(r) = it.next::<u32>() {
            sum = sum.wrapping_add(r.unwrap().data);
            items += 1;
        }
        (items, sum)
    };
    reader(&input, ours, theirs)
}
