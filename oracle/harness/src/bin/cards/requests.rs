//! Forward Open, Forward Close, message, Unconnected Send.
use crate::shown::{out, segs, short, T};
use bytes::Bytes;
use harness::*;
use rseip_cip::connection::*;
use rseip_cip::epath::*;
use rseip_cip::service::request::UnconnectedSend;
use rseip_cip::MessageRequest;

pub fn run(t: &mut T) {
    println!("\n== Forward Open");
    let o = OpenOptions::default().connection_serial_number(0x1234);
    let s = bytes_of(&o);
    t.card("default small", "[42] 03 FA 00 00 00 00 00 00 00 00 34 12 FF 00 FF FF FF FF 03 00 00 00 40 42 00 00 F8 45 40 42 00 00 F8 45 A3 03 01 00 20 02 24 01", short(&s));
    t.card("class-and-trigger byte", "A3", format!("{:02X}", s[34]));
    t.card("parameters", "F8 45", hex(&s[26..28]));
    let l = bytes_of(&o.clone().large_open(true));
    t.card("default large", "[46] 03 FA 00 00 00 00 00 00 00 00 34 12 FF 00 FF FF FF FF 03 00 00 00 40 42 00 00 F8 01 00 44 40 42 00 00 F8 01 00 44 A3 03 01 00 20 02 24 01", short(&l));
    t.card("large parameters", "F8 01 00 44", hex(&l[26..30]));
    t.card("size 511 small", "FF 45", hex(&bytes_of(&o.clone().connection_size(511))[26..28]));
    t.note("size 512 small", hex(&bytes_of(&o.clone().connection_size(512))[26..28]));
    t.note("size 513 small", hex(&bytes_of(&o.clone().connection_size(513))[26..28]));
    t.note("size 65535 small", hex(&bytes_of(&o.clone().connection_size(65535))[26..28]));
    t.card("size 65535 large", "FF FF 00 44", hex(&bytes_of(&o.clone().connection_size(65535).large_open(true))[26..30]));
    t.card("setter mask F3", "03", format!("{:02X}", bytes_of(&o.clone().priority_tick_time(0xF3))[0]));
    let mut raw = o.clone();
    raw.priority_tick_time = 0xF3;
    t.card("record with F3 is written as it stands", "F3", format!("{:02X}", bytes_of(&raw)[0]));
    for n in [252usize, 254, 256, 258, 300, 510, 512, 514] {
        let p = segs(vec![Segment::Class(1); n / 2]);
        t.note(&format!("Forward Open, path of {} bytes", n), out(o.clone().connection_path(p)));
    }
    t.note(
        "Forward Close, odd raw path of 3 bytes (raw Bytes, not an EPath)",
        out(ForwardCloseRequest::<Bytes> { connection_path: Bytes::from_static(&[1, 2, 3]), ..Default::default() }),
    );

    println!("\n== Forward Close");
    let c = |n: usize| ForwardCloseRequest {
        priority_time_ticks: 3,
        timeout_ticks: 0xFA,
        connection_serial_number: 0x1234,
        originator_vendor_id: 0xFF,
        originator_serial_number: 0xFFFFFFFF,
        connection_path: segs(vec![Segment::Class(1); n / 2]),
    };
    t.card("close, path 20 01 20 01", "[16] 03 FA 34 12 FF 00 FF FF FF FF 02 00 20 01 20 01", out(c(4)));
    for n in [254usize, 256, 300] {
        t.note(&format!("Forward Close, path of {} bytes", n), out(c(n)));
    }

    println!("\n== message");
    let m = |n: usize| MessageRequest::new(0x0E, segs(vec![Segment::Class(1); n / 2]), Bytes::from_static(&[0xAA]));
    t.card("message", "[5] 0E 01 20 01 AA", out(m(2)));
    t.card("message, empty path and data", "[2] 0E 00", out(MessageRequest::new(0x0E, EPath::new(), ())));
    for n in [254usize, 256, 300, 510, 512, 514] {
        t.note(&format!("message, path of {} bytes", n), out(m(n)));
    }

    println!("\n== Unconnected Send");
    let u = |n: usize, d: &[u8]| {
        UnconnectedSend::new(
            segs(vec![Segment::Class(1); n / 2]),
            MessageRequest::new(0x0E, EPath::new().with_class(1), Bytes::copy_from_slice(d)),
        )
    };
    t.card("even message", "[12] 03 FA 04 00 0E 01 20 01 01 00 20 01", out(u(2, &[])));
    t.card("odd message", "[14] 03 FA 05 00 0E 01 20 01 AA 00 01 00 20 01", out(u(2, &[0xAA])));
    for n in [254usize, 256, 258, 300, 510, 512] {
        let b = out(u(n, &[]));
        let szb = guard(|| bytes_of(&u(n, &[]))[8]).map(|x| format!("{:02X}", x)).unwrap_or_else(|e| e);
        t.note(&format!("Unconnected Send, route of {} bytes", n), format!("{} ; path-words byte = {}", b, szb));
    }
    t.note("Unconnected Send, message of 65536 bytes", {
        let v =
            bytes_of(&UnconnectedSend::new(segs(vec![]), MessageRequest::new(0x0E, EPath::new(), Bytes::from(vec![0u8; 65534]))));
        format!("{} (size field {})", short(&v), hex(&v[2..4]))
    });
}
