//! Where bytes lie. A load from an address that has its last twelve bits in common with a store just before it is slow, so what is read lies
//! at the front of a page and what is written at its middle: the same for all sides, and in every run.
use bytes::{Buf, BytesMut};

const PAGE: usize = 4096;

fn pages(n: usize, at: usize) -> &'static mut [u8] {
    let all = Box::leak(vec![0u8; n + 2 * PAGE].into_boxed_slice());
    let start = all.as_ptr().align_offset(PAGE) + at;
    &mut all[start..start + n]
}

pub fn input(bytes: &[u8]) -> &'static [u8] {
    let to = pages(bytes.len(), 0);
    to.copy_from_slice(bytes);
    to
}

/// Another input, which does not hide behind the first.
pub fn second_input(bytes: &[u8]) -> &'static [u8] {
    let to = pages(bytes.len(), PAGE / 4);
    to.copy_from_slice(bytes);
    to
}

pub fn output(n: usize) -> &'static mut [u8] {
    pages(n, PAGE / 2)
}

/// The crate's output: empty, with room for n bytes.
pub fn buffer(n: usize) -> BytesMut {
    let mut b = BytesMut::with_capacity(n + 2 * PAGE);
    let skip = b.as_ptr().align_offset(PAGE) + PAGE / 2;
    b.resize(skip, 0);
    b.advance(skip);
    assert!(b.is_empty() && b.capacity() >= n && b.as_ptr() as usize % PAGE == PAGE / 2);
    b
}
