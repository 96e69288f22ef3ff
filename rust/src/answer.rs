//! The archive's numbers as results, and the parts of an input that they name.
use crate::error::{Error, Result};

/// A size or a count, or below 0 a refusal.
#[inline]
pub(crate) fn answer(n: i64) -> Result<usize> {
    usize::try_from(n).map_err(|_| refused(n.unsigned_abs()))
}

/// The refusal with a number.
#[cold]
pub(crate) fn refused(n: u64) -> Error {
    let number = u8::try_from(n).ok();
    // Another number would mean an archive that is not of this header: no answer of it can be trusted.
    number.and_then(Error::from_number).unwrap_or_else(|| panic!("libbarkcushion.a answered {n}"))
}

/// What a writer wrote.
#[inline]
pub(crate) fn written(out: &mut [u8], write: impl FnOnce(&mut [u8]) -> i64) -> Result<&[u8]> {
    let n = write(out);
    answer(n).map(|n| &out[..n])
}

/// What a reader filled: a run that is never too short for it.
#[inline]
pub(crate) fn filled<const N: usize>(read: impl FnOnce(&mut [usize; N]) -> i64) -> Result<[usize; N]> {
    let mut fields = [0; N];
    let n = read(&mut fields);
    answer(n).map(|_| fields)
}

/// A part of the input, as a reader names it.
#[inline]
pub(crate) fn part(s: &[u8], start: usize, len: usize) -> &[u8] {
    &s[start..][..len]
}
