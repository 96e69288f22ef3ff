//! Segments and paths. P1 to P23 are rows of docs/DIFFERENCES.md.
use crate::shown::{out, port, segs, short, T};
use bytes::BytesMut;
use harness::*;
use rseip_cip::epath::*;

fn seg(s: Segment) -> String {
    let by_path = out(segs(vec![s.clone()]));
    let by_seg = out(s);
    if by_path != by_seg {
        return format!("{} / as path {}", by_seg, by_path);
    }
    by_seg.split_once("] ").map(|x| x.1.to_string()).unwrap_or(by_seg)
}

/// What stood in the buffer when the crate panicked, and its count.
fn until_panic(p: EPath) -> String {
    let mut b = BytesMut::new();
    let r = guard(|| p.encode_by_ref(&mut b, &mut enc()).is_ok());
    let how = match r {
        Ok(ok) => format!("returned, ok: {ok}"),
        Err(text) => format!("PANIC {text}"),
    };
    format!("{} in the buffer, bytes_count {}, {how}", short(&b), p.bytes_count())
}

pub fn run(t: &mut T) {
    println!("\n== segments");
    t.card("port 14 link [5]", "0E 05", seg(port(14, &[5])));
    t.card("port 15 link [5]", "0F 00 0F 05", seg(port(15, &[5])));
    t.card("port 1 empty link", "01 00", seg(port(1, &[])));
    t.card("port 1 link [0]", "01 00", seg(port(1, &[0])));
    t.card("port 2 link 10.0.0.7", "12 08 31 30 2E 30 2E 30 2E 37", seg(port(2, b"10.0.0.7")));
    t.card("element 255", "28 FF", seg(Segment::Element(255)));
    t.card("element 256", "29 00 00 01", seg(Segment::Element(256)));
    t.card("element 65535", "29 00 FF FF", seg(Segment::Element(65535)));
    t.card("element 65536", "2A 00 00 00 01 00", seg(Segment::Element(65536)));
    t.card("symbol Flow1", "91 05 46 6C 6F 77 31 00", seg(Segment::Symbol("Flow1".into())));
    t.card("class 5 is the one form that 21 00 05 00 is not", "20 05", seg(Segment::Class(5)));
    t.card("class 256", "21 00 00 01", seg(Segment::Class(256)));
    t.card(
        "instance 255 / 256",
        "24 FF | 25 00 00 01",
        format!("{} | {}", seg(Segment::Instance(255)), seg(Segment::Instance(256))),
    );
    t.card(
        "attribute 255 / 65535",
        "30 FF | 31 00 FF FF",
        format!("{} | {}", seg(Segment::Attribute(255)), seg(Segment::Attribute(65535))),
    );
    t.card("port 0 link [0]", "00 00", seg(port(0, &[0])));
    t.card("port 65535 empty", "0F FF FF 00", seg(port(65535, &[])));
    t.card("port 258 link [1,2,3]", "1F 03 01 02 01 02 03 00", seg(port(258, &[1, 2, 3])));
    t.card("empty symbol", "91 00", seg(Segment::Symbol("".into())));
    t.note("link of 253 bytes, port 1", out(port(1, &[7; 253])));
    t.note("link of 254 bytes, port 1", out(port(1, &[7; 254])));
    t.note("link of 254 bytes, port 15", out(port(15, &[7; 254])));
    t.note("link of 255 bytes, port 1", out(port(1, &[7; 255])));
    t.note("link of 256 bytes, port 1", out(port(1, &[7; 256])));
    t.note("link of 257 bytes, port 1", out(port(1, &[7; 257])));
    t.note("symbol of 254 bytes", out(Segment::Symbol("a".repeat(254))));
    t.note("symbol of 255 bytes", out(Segment::Symbol("a".repeat(255))));
    t.note("symbol of 256 bytes", out(Segment::Symbol("a".repeat(256))));
    t.note("empty path", out(EPath::new()));
    t.note("path of 128 class segments, alone", out(segs(vec![Segment::Class(1); 128])));
    let long = Segment::Symbol("a".repeat(256));
    t.note("P7: symbol of 256 bytes: buffer and count", until_panic(segs(vec![long.clone()])));
    t.note("P8: class 1, then a symbol of 256 bytes", until_panic(segs(vec![Segment::Class(1), long])));
    t.note("P5 to P8: class 1, then a link of 255 bytes", until_panic(segs(vec![Segment::Class(1), port(1, &[7; 255])])));
    t.note("P9: empty link and link [0] are the same value", (port(1, &[]) == port(1, &[0])).to_string());
    t.note("P10: default port", format!("{:?}", PortSegment::default()));
    t.note("P12: symbol é", seg(Segment::Symbol("é".into())));
    t.note("P12: the byte 80 as a String", format!("{:?}", String::from_utf8(vec![0x80])));
    let count = |f: fn(&[u8]) -> bool| {
        (0..=65_535)
            .filter(|n| {
                [Segment::Class(*n), Segment::Instance(*n), Segment::Attribute(*n), Segment::Element((*n).into()), port(*n, &[5])]
                    .iter()
                    .any(|s| f(&bytes_of(s)))
            })
            .count()
    };
    t.note(
        "P14: wide forms of a number up to 255, in all segments with a 16-bit number",
        count(|b| b.len() == 4 && b[0] & 0x21 == 0x21 && b[3] == 0).to_string(),
    );
    t.note("P15: long link forms of a one-byte link, in the same", count(|b| b[0] & 0xF0 == 0x10).to_string());
    t.note("P22: class 1 into a buffer of no capacity", until_panic(segs(vec![Segment::Class(1)])));
}
