//! Reply header, Forward Open and Close replies, envelope.
use crate::shown::T;
use bytes::Bytes;
use harness::*;
use rseip_cip::codec::decode::message_reply::*;
use rseip_cip::connection::*;
use rseip_cip::MessageReply;
use rseip_core::cip::CommonPacketIter;
use std::fmt::Debug;

fn header(b: &[u8]) -> String {
    match guard(|| {
        let mut d = dec(b);
        let r = decode_service_and_status(&mut d);
        (r, d.remaining(), hex(d.buf()))
    }) {
        Ok((Ok((s, st)), _, rest)) => {
            format!("service {:02X} general {} extended {:?} data [{}]", s, st.general, st.extended, rest)
        }
        Ok((Err(e), left, _)) => format!("Err {:?} ({} bytes left in cursor)", e, left),
        Err(p) => format!("PANIC {}", p),
    }
}
type Forward<S> = MessageReply<Either<S, ForwardRequestFail>>;
fn forward<S: Debug>(name: &str, read: impl FnOnce() -> Result<Forward<S>, OracleError>) -> String {
    match guard(read) {
        Ok(Ok(m)) => match m.data {
            Either::Left(s) => format!("{name} ok svc {:02X} {:?}", m.reply_service, s),
            Either::Right(f) => format!("{name} fail svc {:02X} status {:?} {:?}", m.reply_service, m.status, f),
        },
        Ok(Err(e)) => format!("Err {:?}", e),
        Err(p) => format!("PANIC {}", p),
    }
}
fn fopen(b: &[u8]) -> String {
    forward("Open", || ForwardOpenReply::decode(dec(b)).map(|r| r.0))
}
fn fclose(b: &[u8]) -> String {
    forward("Close", || ForwardCloseReply::decode(dec(b)).map(|r| r.0))
}

pub fn run(t: &mut T) {
    println!("\n== reply header");
    t.card("8E 00 08 01 03 00", "service 8E general 8 extended Some(3) data []", header(&unhex("8E0008010300")));
    t.note("8E 00 08 01 03 (last byte gone; doc: 1)", header(&unhex("8E00080103")));
    t.note("8E 00 08 (3 bytes; doc: 1)", header(&unhex("8E0008")));
    t.note("8E 77 00 00 AA (ignored byte 77)", header(&unhex("8E770000AA")));
    t.note("8E 00 00 01 34 12 AA (success with a word)", header(&unhex("8E000001 3412 AA")));
    t.note("8E 00 01 02 00 00 00 00 (two words; doc: 6)", header(&unhex("8E000102 00000000")));
    t.note("8E 00 01 02 00 00 00 (two words, one byte gone; doc: 1)", header(&unhex("8E000102 000000")));
    t.note("s=127, none present (doc: 1)", header(&unhex("8E00017F")));
    t.note("s=128, none present (doc: 1)", header(&unhex("8E000180")));
    t.note("s=128, all 256 present (doc: 6)", header(&[&unhex("8E000180")[..], &[0; 256]].concat()));
    t.note("s=129, two present (doc: 1)", header(&unhex("8E000181 0000")));
    t.note("s=255, none present (doc: 1)", header(&unhex("8E0001FF")));
    t.note("8E 00 08 00 AA (failed, with data)", header(&unhex("8E000800AA")));
    let long = header(&[&unhex("8E000000")[..], &[0; 65_532]].concat());
    t.note("65,536 bytes (doc: 3)", format!("{}.. len {}", &long[..45], long.len()));
    let mr = |b: &[u8]| match guard(|| MessageReply::<BytesHolder>::decode(dec(b))) {
        Ok(Ok(m)) => format!(
            "Ok {:02X} {:?} {:02X?} remaining_path_size {:?}",
            m.reply_service,
            m.status,
            Bytes::from(m.data).to_vec(),
            m.remaining_path_size
        ),
        Ok(Err(e)) => format!("Err {:?}", e),
        Err(p) => format!("PANIC {}", p),
    };
    t.note("MessageReply<bytes> of 8E 00 08 00 AA", mr(&unhex("8E000800AA")));
    t.note("MessageReply<bytes> of 8E 00 08 01 03 00 AA BB", mr(&unhex("8E0008010300AABB")));
    t.note("MessageReply<bytes> of CE 00 02 00 .. 9 bytes", mr(&unhex("CE000200 3412 FF00 FFFFFFFF 03")));
    t.note("MessageReply<bytes> of 8E 00 00 00 AA BB", mr(&unhex("8E000000AABB")));

    println!("\n== Forward Open / Close replies");
    let osucc = unhex("D4000000 01000000 02000000 3412 FF00 FFFFFFFF 40420000 41420000");
    let w = |tail: &str| [&osucc[..], &unhex(tail)[..]].concat();
    t.note("open success, 26 bytes, no app data", fopen(&w("00 00")));
    t.note("open success, reserved byte 99 and 2 bytes after", fopen(&w("00 99 EE EE")));
    t.note("open success, 25 bytes (reserved byte gone; doc: 1)", fopen(&w("00")));
    t.note("open success, 1 word, whole", fopen(&w("01 00 AA BB")));
    t.note("open success, 1 word, one byte short (doc: 1)", fopen(&w("01 00 AA")));
    t.note("open success, 1 word, two short (doc: 1)", fopen(&w("01 00")));
    t.note("open success, 2 words, one byte short (doc: 1)", fopen(&w("02 00 AA BB CC")));
    t.note("open success, 255 words, whole", {
        let mut v = w("FF 00");
        v.extend(vec![7u8; 510]);
        let r = fopen(&v);
        format!("{}.. len {}", &r[..40], r.len())
    });
    t.note("open fail 01/0204 (routing) 9 bytes", fopen(&unhex("D4000101 0402 3412 FF00 FFFFFFFF 03")));
    t.note("open fail 01/0204 (routing) 8 bytes (doc: 1)", fopen(&unhex("D4000101 0402 3412 FF00 FFFFFFFF")));
    t.note("open fail 01/0100 8 bytes + 1 ignored", fopen(&unhex("D4000101 0001 3412 FF00 FFFFFFFF 03")));
    t.note("open fail 01 no word, 9 bytes", fopen(&unhex("D4000100 3412 FF00 FFFFFFFF 03")));
    t.note("open fail 04 no word, 9 bytes", fopen(&unhex("D4000400 3412 FF00 FFFFFFFF 03")));
    t.note("open fail 02/1234, 9 bytes", fopen(&unhex("D4000201 3412 3412 FF00 FFFFFFFF 03")));
    t.note("open success with one extended word", fopen(&[&unhex("D4000001 7777")[..], &osucc[4..], &[0, 0]].concat()));
    let csucc = unhex("CE000000 3412 FF00 FFFFFFFF");
    let w = |tail: &str| [&csucc[..], &unhex(tail)[..]].concat();
    t.note("close success, 10 bytes", fclose(&w("00 00")));
    t.note("close success, 9 bytes (doc: 1)", fclose(&w("00")));
    t.note("close success, 1 word, whole", fclose(&w("01 00 AA BB")));
    t.note("close success, 1 word, one byte short (doc: 1)", fclose(&w("01 00 AA")));
    t.note("close success, 1 word, two short (doc: 1)", fclose(&w("01 00")));
    t.note("close fail 2, 9 bytes and 8 (doc: 1)", {
        let whole = unhex("CE000200 3412 FF00 FFFFFFFF 03");
        format!("{}; {}", fclose(&whole), fclose(&whole[..12]))
    });
    t.note("close fail 8", fclose(&unhex("CE000101 0701 3412 FF00 FFFFFFFF")));

    println!("\n== envelope (rests on the STAND-IN CommonPacketIter)");
    let un = |b: &[u8]| match guard(|| CommonPacketIter::new(dec(b)).and_then(decode_unconnected_send::<_, MessageReply<Bytes>>))
    {
        Ok(Ok(m)) => format!("Ok {:02X} {:02X?}", m.reply_service, m.data.to_vec()),
        Ok(Err(e)) => format!("Err {:?}", e),
        Err(p) => format!("PANIC {}", p),
    };
    let co = |b: &[u8]| match guard(|| CommonPacketIter::new(dec(b)).and_then(decode_connected_send::<_, MessageReply<Bytes>>)) {
        Ok(Ok((n, m))) => format!("Ok count {} {:02X} {:02X?}", n, m.reply_service, m.data.to_vec()),
        Ok(Err(e)) => format!("Err {:?}", e),
        Err(p) => format!("PANIC {}", p),
    };
    t.note("null/B2", un(&unhex("0200 0000 0000 B200 0500 8E000000AA")));
    t.note("null address with 2 bytes/B2", un(&unhex("0200 0000 0200 EEEE B200 0500 8E000000AA")));
    t.note("null/B1 (doc: 10)", un(&unhex("0200 0000 0000 B100 0500 8E000000AA")));
    t.note("null/B1 with a failed reply inside: which error? (doc: 10)", un(&unhex("0200 0000 0000 B100 0400 8E000800")));
    t.note("count 3 (doc: 10)", un(&unhex("0300 0000 0000 B200 0400 8E000000")));
    t.note("byte after the second item (doc: 8)", un(&unhex("0200 0000 0000 B200 0400 8E000000 FF")));
    t.note("A1/B1", co(&unhex("0200 A100 0400 01000000 B100 0700 2A00 8E000000AA")));
    t.note("A1 with length 0/B1", co(&unhex("0200 A100 0000 B100 0700 2A00 8E000000AA")));
    t.note("B1 of one byte (doc: 1)", co(&unhex("0200 A100 0000 B100 0100 2A")));
}
