//! Bodies written and joined; nested messages.
use super::{by_ref, our_reader, our_writer, writer, Entry, Operation};
use crate::place;
use crate::theirs::Nobody;
use barkcushion::{join_bodies, read_nested, write_body, Row};
use bytes::Bytes;
use rseip_cip::service::CommonServices;
use smallvec::SmallVec;
use std::hint::black_box;

pub const WRITES: &[Entry] = &[
    ("body-3", "body of 3 items", || write(3)),
    ("body-100", "body of 100 items", || write(100)),
    ("join-3", "join of two bodies of 3 items", || join(3)),
    ("join-50", "join of two bodies of 50 items", || join(50)),
];

pub const READS: &[Entry] = &[
    ("nested-example", "nested read, document 01's example", || nested(2)),
    ("nested-100", "nested read, packet of 100 messages", || nested(100)),
];

/// Get Attribute Single of class 1, instance 1.
fn items(n: usize) -> Vec<Vec<u8>> {
    (0..n).map(|i| vec![0x0E, 3, 0x20, 1, 0x24, 1, 0x30, 7 - i as u8 % 7]).collect()
}

/// A body, written here by hand: what is read by both sides.
pub fn body(items: &[Vec<u8>]) -> Vec<u8> {
    let mut b = (items.len() as u16).to_le_bytes().to_vec();
    let mut at = 2 + 2 * items.len();
    for i in items {
        b.extend((at as u16).to_le_bytes());
        at += i.len();
    }
    b.extend(items.concat());
    b
}

fn write(n: usize) -> Operation {
    let items = items(n);
    let theirs =
        Nobody::oracle_body(place::input(&items.concat()).chunks(8).map(Bytes::from_static).collect::<SmallVec<[Bytes; 4]>>());
    let (bytes, lengths) = (place::input(&items.concat()), items.iter().map(Vec::len).collect::<Vec<_>>());
    writer(move |out| write_body(black_box(bytes), black_box(&lengths), out), by_ref(theirs))
}

fn join(n: usize) -> Operation {
    let all = items(2 * n);
    let (first, second) = (place::input(&body(&all[..n])), place::second_input(&body(&all[n..])));
    our_writer(move |out| join_bodies(black_box(first), black_box(second), out), &body(&all))
}

fn nested(n: usize) -> Operation {
    let input = [&[0x0A, 2, 0x20, 2, 0x24, 1][..], &body(&items(n))].concat();
    let mut numbers = vec![0u16; 4 * (n + 1)];
    let mut rows = read_nested(&input, &mut numbers).unwrap();
    assert_eq!(rows.len(), n + 1);
    assert_eq!(rows.next(), Some(Row { depth: 0, service: 0x0A, path_bytes: 4, data_bytes: input.len() as u16 - 6 }));
    assert!(rows.all(|r| r == Row { depth: 1, service: 0x0E, path_bytes: 6, data_bytes: 0 }));
    let s = place::input(&input);
    our_reader(&input, move || {
        let n = read_nested(black_box(s), black_box(&mut numbers[..])).unwrap().len();
        black_box(&numbers[..]);
        n
    })
}
