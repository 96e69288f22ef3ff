//! STAND-IN, ours: the common packet (envelope) as the pages call it. The pages say nothing of how it reads.

use crate::{
    codec::{Decode, Decoder, LittleEndianDecoder},
    Error,
};
use bytes::{Buf, Bytes};
use core::marker::PhantomData;

pub struct CommonPacket<T>(pub Vec<CommonPacketItem<T>>);

#[derive(Debug, Clone, PartialEq, Eq)]
pub struct CommonPacketItem<T> {
    pub type_code: u16,
    pub data: T,
}
impl<T> CommonPacketItem<T> {
    pub fn ensure_type_code<E: Error>(&self, code: u16) -> Result<(), E> {
        if self.type_code != code {
            return Err(E::custom(format_args!("item type {:#x}, expect {:#x}", self.type_code, code)));
        }
        Ok(())
    }
}

/// count (u16), then items of type (u16), length (u16), bytes. An item's bytes are cut out
/// first; a typed item is decoded from its own bytes alone (OUR choice).
pub struct CommonPacketIter<'de, D> {
    total: u16,
    at: u16,
    d: D,
    _p: PhantomData<&'de ()>,
}
impl<'de, D: Decoder<'de>> CommonPacketIter<'de, D> {
    pub fn new(mut d: D) -> Result<Self, D::Error> {
        d.ensure_size(2)?;
        let total = d.decode_u16();
        Ok(Self { total, at: 0, d, _p: PhantomData })
    }
    pub fn len(&self) -> usize {
        self.total as usize
    }
    pub fn next_item(&mut self) -> Option<Result<CommonPacketItem<Bytes>, D::Error>> {
        if self.at >= self.total {
            return None;
        }
        self.at += 1;
        Some(self.one())
    }
    fn one(&mut self) -> Result<CommonPacketItem<Bytes>, D::Error> {
        self.d.ensure_size(4)?;
        let type_code = self.d.decode_u16();
        let n = self.d.decode_u16() as usize;
        self.d.ensure_size(n)?;
        Ok(CommonPacketItem { type_code, data: self.d.buf_mut().copy_to_bytes(n) })
    }
    pub fn next_typed<T: Decode<'de>>(&mut self) -> Option<Result<CommonPacketItem<T>, D::Error>> {
        let it = match self.next_item()? {
            Ok(v) => v,
            Err(e) => return Some(Err(e)),
        };
        let d = LittleEndianDecoder::<D::Error>::new(it.data);
        Some(T::decode(d).map(|data| CommonPacketItem { type_code: it.type_code, data }))
    }
}
