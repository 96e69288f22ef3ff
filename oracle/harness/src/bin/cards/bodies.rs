//! Bodies: the encoder and the reply walk.
use crate::shown::{out, T};
use bytes::Bytes;
use harness::*;
use rseip_cip::epath::*;
use rseip_cip::service::CommonServices;
use rseip_cip::{MessageReply, MessageRequest};

fn item<D: std::fmt::Debug>(r: Result<Option<Result<MessageReply<D>, OracleError>>, String>) -> String {
    match r {
        Ok(None) => "None".into(),
        Ok(Some(Ok(m))) => format!(
            "Ok service {:02X} general {} ext {:?} data {:02X?}",
            m.reply_service, m.status.general, m.status.extended, m.data
        ),
        Ok(Some(Err(e))) => format!("Err {:?}", e),
        Err(p) => format!("PANIC {}", p),
    }
}

pub fn run(t: &mut T) {
    let walk = |b: &[u8]| Capture::oracle_walk(dec(b));
    println!("\n== bodies: encoder");
    let body = |v: Vec<&'static [u8]>| body_of(v.into_iter().map(Bytes::from_static));
    t.card("join card, first", "[5] 01 00 04 00 AA", out(body(vec![b"\xAA"])));
    t.card("join card, second", "[6] 01 00 04 00 BB CC", out(body(vec![b"\xBB\xCC"])));
    t.card(
        "join card, joined (encoded from the list of both items)",
        "[9] 02 00 06 00 07 00 AA BB CC",
        out(body(vec![b"\xAA", b"\xBB\xCC"])),
    );
    t.card("empty list, through the private encoder", "[2] 00 00", out(body(vec![])));
    t.note("an empty item between two (doc: 7)", out(body(vec![b"\xAA", b"", b"\xBB"])));
    let req = |a: u16| MessageRequest::new(0x0E, EPath::new().with_class(1).with_instance(1).with_attribute(a), ());
    let mut cap = Capture::new(&unhex("8A000000 0000"));
    let r = block_on(cap.multiple_service().push(req(7)).push(req(6)).call());
    t.card(
        "call() with two requests = the dump card's input",
        "0A 02 20 02 24 01 02 00 06 00 0E 00 0E 03 20 01 24 01 30 07 0E 03 20 01 24 01 30 06",
        hex(&cap.sent),
    );
    t.note("call(): bytes_count / sent", format!("{} / {}; reply iter ok: {}", cap.counted, cap.sent.len(), r.is_ok()));
    let mut cap = Capture::new(&[]);
    let mut r = block_on(cap.multiple_service::<EPath, ()>().call()).unwrap();
    t.note(
        "call() with no requests: sent, then next()",
        format!("sent {} bytes; {}", cap.sent.len(), item(guard(|| r.next::<u32>()))),
    );
    let long = [vec![1u8; 40000], vec![2u8; 40000], vec![3]].map(Bytes::from);
    t.note("body over 65535: two items of 40000, offsets wrap?", out(body_of(long)));
    t.note("items of 65,530 bytes and of 1 (doc: 3): the second offset", {
        let b = body_of([vec![1; 65_530], vec![2]].map(Bytes::from));
        guard(|| bytes_of(&b)).map_or_else(|p| format!("PANIC {}", p), |v| hex(&v[4..6]))
    });

    println!("\n== bodies: reply walk");
    let card = unhex("02 00 06 00 0E 00 8E 00 01 02 00 00 00 00 8E 00 00 00 00 00 48 42");
    let mut it = walk(&card);
    t.note("two-word card, item 0 (doc: 6)", item(guard(|| it.next::<[u8; 4]>())));
    let i1 = item(guard(|| it.next::<[u8; 4]>()));
    t.card(
        "two-word card, item 1 as the doc says the RUST reads it",
        "Ok service 00 general 0 ext None data [8E, 00, 00, 00]",
        i1,
    );
    t.note("two-word card, asked a third time", item(guard(|| it.next::<[u8; 4]>())));
    // the same through call()
    let mut cap = Capture::new(&[&unhex("8A 00 00 00")[..], &card[..]].concat());
    let mut it = block_on(cap.multiple_service().push(req(7)).push(req(6)).call()).unwrap();
    let a = item(guard(|| it.next::<[u8; 4]>()));
    let b = item(guard(|| it.next::<[u8; 4]>()));
    t.note("the same through call()", format!("{} / {}", a, b));
    macro_rules! w { ($name:expr, $h:expr, $($ty:ty),*) => {{ let mut it = walk(&unhex($h)); let v: Vec<String> = vec![$(item(guard(|| it.next::<$ty>()))),*]; t.note(&format!("{}: {}", $name, $h), v.join("  |  ")); }} }
    w!("good, two items", "0200 0600 0E00 8E000000 01020304 8E000000 05060708", u32, u32, u32);
    w!("good, failed item without data first", "0200 0600 0A00 8E000800 8E000000 05060708", u32, u32, u32);
    w!("failed item WITH one data byte first", "0200 0600 0B00 8E000800 AA 8E000000", (), [u8; 1], ());
    w!("failed item with one word, no data", "0200 0600 0C00 8E0001010402 8E000000 05060708", u32, u32, u32);
    w!("count 0", "0000", u32, u32);
    w!("count 0, bytes after (doc: 8)", "0000 AA", u32, u32);
    w!("no bytes (doc: 1)", "", u32, u32, u32);
    w!("one byte (doc: 1)", "01", u32, u32);
    w!("short offset table (doc: 1)", "0200 0600", u32, u32);
    w!("short offset table, none (doc: 1)", "0100", u32, u32);
    w!("last item missing, n=1 (doc: 7)", "0100 0400", u32, u32);
    w!("last item missing, n=2 (doc: 7)", "0200 0600 0E00 8E000000 01020304", u32, u32, u32);
    w!("first offset wrong (doc: 7)", "0100 FFFF 8E000000 01020304", u32, u32);
    w!("equal offsets (doc: 7)", "0200 0600 0600 8E000000 01020304", u32, u32);
    w!("offset past the end (doc: 7)", "0200 0600 FF00 8E000000 01020304", u32, u32);
    w!("item 0 too long for its type (type reads 2 of 4)", "0200 0600 0E00 8E000000 01020304 8E000000 05060708", u16, u32, u32);
    w!("type takes all: item 1 lost quietly", "0200 0600 0E00 8E000000 01020304 8E000000 05060708", Bytes, Bytes, Bytes);
    w!("item of 3 bytes (doc: 1 when asked)", "0200 0600 0900 8E0000 8E000000", (), (), ());
    w!("third offset not larger (doc: 7 before any item)", "0300 0800 0C00 0C00 8E000000 AA", (), (), ());
    w!(
        "third offset not larger, after item 0 was handed out (doc: 7 before any item)",
        "0300 0800 0C00 0C00 8E000000 8E000000",
        (),
        (),
        (),
        ()
    );
}
