//! What the crate needs around it, as lean as its pages allow: an error of one byte, a cursor over a slice, an encoder, and someone to ask
//! for its body and its walk.
use bytes::Bytes;
use rseip_cip::service::MessageService;
use rseip_cip::{MessageReplyInterface, MessageRequest};
use rseip_core::codec::{Decode, Decoder, Encode, LittleEndianDecoder, LittleEndianEncoder};
use std::fmt::Display;
use std::marker::PhantomData;

/// The smallest error that says anything: its kind. An error with a text makes every answer of the crate's go through memory.
#[derive(Debug)]
pub enum Kind {
    Custom,
    Value,
    Length,
}
impl rseip_core::Error for Kind {
    #[cold]
    fn custom<T: Display>(_: T) -> Self {
        Kind::Custom
    }
    #[cold]
    fn invalid_value<U: Display, V: Display>(_: U, _: V) -> Self {
        Kind::Value
    }
    #[cold]
    fn invalid_length(_: usize, _: usize) -> Self {
        Kind::Length
    }
}

/// An error with a text, as drivers have.
pub use rseip_core::OracleError as Text;

pub fn enc() -> LittleEndianEncoder<Kind> {
    LittleEndianEncoder::new()
}

/// Its own cursor, over `Bytes`.
#[inline]
pub fn dec<E>(b: &Bytes) -> LittleEndianDecoder<E> {
    LittleEndianDecoder::new(b.clone())
}

/// A borrowed slice, no reference counts.
pub struct Lean<'a, E>(&'a [u8], PhantomData<E>);
impl<'a, E> Lean<'a, E> {
    #[inline]
    pub fn new(s: &'a [u8]) -> Self {
        Self(s, PhantomData)
    }
}
impl<'de, E: rseip_core::Error> Decoder<'de> for Lean<'de, E> {
    type Error = E;
    type Buf = &'de [u8];
    #[inline]
    fn buf(&self) -> &&'de [u8] {
        &self.0
    }
    #[inline]
    fn buf_mut(&mut self) -> &mut &'de [u8] {
        &mut self.0
    }
}

/// The bridge to the crate's body and walk hangs on a service; this one sends nothing.
pub struct Nobody;
impl MessageService for Nobody {
    type Error = Kind;
    async fn send<'de, P, D, R>(&mut self, _: MessageRequest<P, D>) -> Result<R, Kind>
    where
        P: Encode + Send + Sync,
        D: Encode + Send + Sync,
        R: MessageReplyInterface + Decode<'de> + 'static,
    {
        unreachable!()
    }
}
