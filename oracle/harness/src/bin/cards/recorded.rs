//! What the crate answers to document 01's bench cards, for the program `cards`: a line of hex for each, in the order of
//! crates/cards/src, and behind it the card. `none` stands where the crate gives an error, panics or has no such function.
use crate::shown::{port, segs};
use bytes::Bytes;
use harness::*;
use rseip_cip::codec::decode::message_reply::decode_service_and_status;
use rseip_cip::connection::OpenOptions;
use rseip_cip::epath::*;
use rseip_cip::service::CommonServices;

/// A segment, by itself and in a path.
fn segment(s: Segment) -> Option<Vec<u8>> {
    guard(|| {
        let alone = bytes_of(&s);
        assert_eq!(alone, bytes_of(&segs(vec![s])));
        alone
    })
    .ok()
}

/// A part of a Forward Open.
fn part(o: OpenOptions<EPath>, start: usize, len: usize) -> Option<Vec<u8>> {
    guard(|| bytes_of(&o)[start..start + len].to_vec()).ok()
}

/// The word of extended status, low byte first.
fn extended(reply: &[u8]) -> Option<Vec<u8>> {
    let (_, status) = decode_service_and_status(&mut dec(reply)).ok()?;
    Some(status.extended.map_or(vec![], |w| w.to_le_bytes().to_vec()))
}

/// The data of each item, the first one asked for first, as one caller of the walk gets them.
fn items(body: &[u8]) -> Vec<Option<Vec<u8>>> {
    let mut walk = Capture::oracle_walk(dec(body));
    (0..2).map(|_| guard(|| walk.next::<[u8; 4]>()).ok()??.ok().map(|m| m.data.to_vec())).collect()
}

pub fn print() {
    let o = || OpenOptions::default().connection_serial_number(0x1234);
    let two = items(&unhex("02 00 06 00 0E 00 8E 00 01 02 00 00 00 00 8E 00 00 00 00 00 48 42"));
    let both = body_of([&b"\xAA"[..], b"\xBB\xCC"].map(Bytes::from_static));
    let cards = [
        ("port 14 link [5]", segment(port(14, &[5]))),
        ("port 15 link [5]", segment(port(15, &[5]))),
        ("port 1 empty link", segment(port(1, &[]))),
        ("port 1 link [0]", segment(port(1, &[0]))),
        ("port 2 link 10.0.0.7", segment(port(2, b"10.0.0.7"))),
        ("element 255", segment(Segment::Element(255))),
        ("element 256", segment(Segment::Element(256))),
        ("element 65535", segment(Segment::Element(65535))),
        ("element 65536", segment(Segment::Element(65536))),
        ("symbol Flow1", segment(Segment::Symbol("Flow1".into()))),
        ("read 21 00 05 00: the crate has no reader", None),
        ("port 3 link of 254", segment(port(3, &[b'A'; 254]))),
        ("port 3 link of 255", segment(port(3, &[b'A'; 255]))),
        ("default Forward Open, class and trigger", part(o(), 34, 1)),
        ("default Forward Open, parameters", part(o(), 26, 2)),
        ("large, parameters", part(o().large_open(true), 26, 4)),
        ("small, how many bytes", guard(|| vec![bytes_of(&o()).len() as u8]).ok()),
        ("small connection size 511, parameters", part(o().connection_size(511), 26, 2)),
        ("small connection size 512", part(o().connection_size(512), 26, 2)),
        ("reply 8E 00 08 01 03 00, extended", extended(&unhex("8E 00 08 01 03 00"))),
        ("without its last byte", extended(&unhex("8E 00 08 01 03"))),
        ("body with a two-word item, item 0", two[0].clone()),
        ("the same body, data of item 1", two[1].clone()),
        ("join: the crate has none, so its encoder is given both items", guard(|| bytes_of(&both)).ok()),
    ];
    for (name, answer) in cards {
        println!("{}  # {name}", answer.map_or("none".into(), |b| hex(&b)));
    }
}
