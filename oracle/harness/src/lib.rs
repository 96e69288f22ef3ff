//! The harness around the crate's pages. This file has what its programs share: hex, a capturing MessageService, a
//! trivial block_on, panics caught. The modules are the comparing run's.

pub mod ask_crate;
pub mod case;
pub mod cases;
pub mod judge;
pub mod record;
pub mod refused;
pub mod rng;
pub mod run;
pub mod tally;

use bytes::{Bytes, BytesMut};
use rseip_cip::service::{CommonServices, MessageService};
use rseip_cip::{MessageReplyInterface, MessageRequest};
pub use rseip_core::{
    codec::{BytesHolder, Decode, Decoder, Encode, Encoder, LittleEndianDecoder, LittleEndianEncoder},
    Either, OracleError,
};
use smallvec::SmallVec;
use std::future::Future;
use std::panic::{catch_unwind, AssertUnwindSafe};

pub type Dec = LittleEndianDecoder<OracleError>;
pub type Enc = LittleEndianEncoder<OracleError>;

pub fn dec(b: &[u8]) -> Dec {
    LittleEndianDecoder::new(Bytes::copy_from_slice(b))
}
pub fn enc() -> Enc {
    LittleEndianEncoder::new()
}
pub fn hex(b: &[u8]) -> String {
    b.iter().map(|x| format!("{:02X}", x)).collect::<Vec<_>>().join(" ")
}
pub fn unhex(s: &str) -> Vec<u8> {
    let t: String = s.chars().filter(|c| !c.is_whitespace()).collect();
    (0..t.len() / 2).map(|i| u8::from_str_radix(&t[2 * i..2 * i + 2], 16).unwrap()).collect()
}
pub fn bytes_of<T: Encode>(v: &T) -> Vec<u8> {
    let mut b = BytesMut::new();
    v.encode_by_ref(&mut b, &mut enc()).unwrap();
    b.to_vec()
}
/// What the crate writes by reference and by value, and its count; or the panic's text
pub fn both_ways<T: Encode>(v: T) -> Result<(Vec<u8>, BytesMut, usize), String> {
    guard(move || {
        let (by_ref, count, mut by_value) = (bytes_of(&v), v.bytes_count(), BytesMut::new());
        v.encode(&mut by_value, &mut enc()).unwrap();
        (by_ref, by_value, count)
    })
}
/// The crate's body of these items
pub fn body_of(items: impl IntoIterator<Item = Bytes>) -> impl Encode {
    Capture::oracle_body(items.into_iter().collect::<SmallVec<[Bytes; 4]>>())
}

thread_local!(static LAST: std::cell::RefCell<String> = const { std::cell::RefCell::new(String::new()) });
thread_local!(static GUARDED: std::cell::Cell<bool> = const { std::cell::Cell::new(false) });
/// A panic of the crate's is kept for whoever guards it; one of the harness's own is told as ever.
pub fn quiet_panics() {
    let loud = std::panic::take_hook();
    std::panic::set_hook(Box::new(move |i| {
        if !GUARDED.get() {
            return loud(i);
        }
        let m = if let Some(s) = i.payload().downcast_ref::<&str>() {
            s.to_string()
        } else if let Some(s) = i.payload().downcast_ref::<String>() {
            s.clone()
        } else {
            "?".into()
        };
        let at = i.location().map(|l| format!("{}:{}", l.file().rsplit('/').next().unwrap(), l.line())).unwrap_or_default();
        LAST.with(|l| *l.borrow_mut() = format!("{} @ {}", m.replace('\n', " "), at));
    }));
}
/// Ok(value) or the panic's text
pub fn guard<T>(f: impl FnOnce() -> T) -> Result<T, String> {
    let outer = GUARDED.replace(true);
    let done = catch_unwind(AssertUnwindSafe(f)).map_err(|_| LAST.with(|l| l.borrow().clone()));
    GUARDED.set(outer);
    done
}

/// the sending side: keeps the encoded request, answers with a canned reply
pub struct Capture {
    pub sent: Vec<u8>,
    pub counted: usize,
    pub reply: Vec<u8>,
}
impl Capture {
    pub fn new(reply: &[u8]) -> Self {
        Self { sent: vec![], counted: 0, reply: reply.to_vec() }
    }
}
impl MessageService for Capture {
    type Error = OracleError;
    async fn send<'de, P, D, R>(&mut self, mr: MessageRequest<P, D>) -> Result<R, OracleError>
    where
        P: Encode + Send + Sync,
        D: Encode + Send + Sync,
        R: MessageReplyInterface + Decode<'de> + 'static,
    {
        self.counted = mr.bytes_count();
        let mut b = BytesMut::new();
        mr.encode(&mut b, &mut enc())?;
        self.sent = b.to_vec();
        R::decode(dec(&self.reply))
    }
}

pub fn block_on<F: Future>(f: F) -> F::Output {
    let mut f = Box::pin(f);
    let w = std::task::Waker::noop();
    let mut cx = std::task::Context::from_waker(w);
    loop {
        if let std::task::Poll::Ready(v) = f.as_mut().poll(&mut cx) {
            return v;
        }
    }
}
