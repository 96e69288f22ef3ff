//! STAND-IN, ours: encoders and decoders as the pages call them.

use crate::Error;
use bytes::{Buf, BufMut, Bytes, BytesMut};
use core::marker::PhantomData;

pub trait Encoder {
    type Error: Error;
}
pub struct LittleEndianEncoder<E>(PhantomData<E>);
impl<E> LittleEndianEncoder<E> {
    pub fn new() -> Self {
        Self(PhantomData)
    }
}
impl<E: Error> Encoder for LittleEndianEncoder<E> {
    type Error = E;
}

pub trait Encode {
    #[inline]
    fn encode<A: Encoder>(self, buf: &mut BytesMut, encoder: &mut A) -> Result<(), A::Error>
    where
        Self: Sized,
    {
        self.encode_by_ref(buf, encoder)
    }
    fn encode_by_ref<A: Encoder>(&self, buf: &mut BytesMut, encoder: &mut A) -> Result<(), A::Error>;
    fn bytes_count(&self) -> usize;
}
// raw bytes and nothing, as lent data
impl Encode for Bytes {
    #[inline]
    fn encode_by_ref<A: Encoder>(&self, buf: &mut BytesMut, _: &mut A) -> Result<(), A::Error> {
        buf.put_slice(self);
        Ok(())
    }
    #[inline]
    fn bytes_count(&self) -> usize {
        self.len()
    }
}
impl Encode for () {
    #[inline]
    fn encode_by_ref<A: Encoder>(&self, _: &mut BytesMut, _: &mut A) -> Result<(), A::Error> {
        Ok(())
    }
    #[inline]
    fn bytes_count(&self) -> usize {
        0
    }
}

pub trait Decode<'de>: Sized {
    fn decode<D>(decoder: D) -> Result<Self, D::Error>
    where
        D: Decoder<'de>;
}

pub trait Decoder<'de>: Sized {
    type Error: Error;
    type Buf: Buf;
    fn buf(&self) -> &Self::Buf;
    fn buf_mut(&mut self) -> &mut Self::Buf;
    #[inline]
    fn remaining(&self) -> usize {
        self.buf().remaining()
    }
    /// refuses exactly when fewer than `n` bytes are left; consumes nothing
    #[inline]
    fn ensure_size(&self, n: usize) -> Result<(), Self::Error> {
        let have = self.remaining();
        if have < n {
            return Err(Error::invalid_length(have, n));
        }
        Ok(())
    }
    // unchecked by themselves: bytes::Buf panics when too few are left
    #[inline]
    fn decode_u8(&mut self) -> u8 {
        self.buf_mut().get_u8()
    }
    #[inline]
    fn decode_u16(&mut self) -> u16 {
        self.buf_mut().get_u16_le()
    }
    #[inline]
    fn decode_u32(&mut self) -> u32 {
        self.buf_mut().get_u32_le()
    }
    /// hands the same cursor to the type
    #[inline]
    fn decode_any<T: Decode<'de>>(&mut self) -> Result<T, Self::Error> {
        T::decode(self)
    }
}
impl<'de, X: Decoder<'de>> Decoder<'de> for &mut X {
    type Error = X::Error;
    type Buf = X::Buf;
    #[inline]
    fn buf(&self) -> &Self::Buf {
        (**self).buf()
    }
    #[inline]
    fn buf_mut(&mut self) -> &mut Self::Buf {
        (**self).buf_mut()
    }
}

pub struct LittleEndianDecoder<E> {
    buf: Bytes,
    _e: PhantomData<E>,
}
impl<E> LittleEndianDecoder<E> {
    #[inline]
    pub fn new(buf: Bytes) -> Self {
        Self { buf, _e: PhantomData }
    }
}
impl<'de, E: Error> Decoder<'de> for LittleEndianDecoder<E> {
    type Error = E;
    type Buf = Bytes;
    #[inline]
    fn buf(&self) -> &Bytes {
        &self.buf
    }
    #[inline]
    fn buf_mut(&mut self) -> &mut Bytes {
        &mut self.buf
    }
}

/// takes ALL bytes left
#[derive(Debug, Clone, PartialEq, Eq)]
pub struct BytesHolder(Bytes);
impl From<BytesHolder> for Bytes {
    fn from(h: BytesHolder) -> Bytes {
        h.0
    }
}
impl<'de> Decode<'de> for BytesHolder {
    #[inline]
    fn decode<D: Decoder<'de>>(mut d: D) -> Result<Self, D::Error> {
        let n = d.remaining();
        Ok(Self(d.buf_mut().copy_to_bytes(n)))
    }
}
impl<'de> Decode<'de> for Bytes {
    #[inline]
    fn decode<D: Decoder<'de>>(mut d: D) -> Result<Self, D::Error> {
        let n = d.remaining();
        Ok(d.buf_mut().copy_to_bytes(n))
    }
}
impl<'de> Decode<'de> for u32 {
    #[inline]
    fn decode<D: Decoder<'de>>(mut d: D) -> Result<Self, D::Error> {
        d.ensure_size(4)?;
        Ok(d.decode_u32())
    }
}
impl<'de> Decode<'de> for u16 {
    #[inline]
    fn decode<D: Decoder<'de>>(mut d: D) -> Result<Self, D::Error> {
        d.ensure_size(2)?;
        Ok(d.decode_u16())
    }
}
impl<'de> Decode<'de> for () {
    #[inline]
    fn decode<D: Decoder<'de>>(_: D) -> Result<Self, D::Error> {
        Ok(())
    }
}
impl<'de, const N: usize> Decode<'de> for [u8; N] {
    #[inline]
    fn decode<D: Decoder<'de>>(mut d: D) -> Result<Self, D::Error> {
        d.ensure_size(N)?;
        let mut a = [0u8; N];
        d.buf_mut().copy_to_slice(&mut a);
        Ok(a)
    }
}
impl<'de, A: Decode<'de>, B: Decode<'de>> Decode<'de> for (A, B) {
    #[inline]
    fn decode<D: Decoder<'de>>(mut d: D) -> Result<Self, D::Error> {
        let a = d.decode_any()?;
        let b = d.decode_any()?;
        Ok((a, b))
    }
}
