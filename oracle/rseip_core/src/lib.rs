//! STAND-IN for rseip_core. Our own words; only what the given pages of rseip-cip call.
//! Nothing here is evidence of what the real rseip_core does.

pub mod cip;
pub mod codec;

use core::fmt::Display;

pub type String = std::string::String;

/// error trait: the pages call `custom` and `invalid_value`; `invalid_length` is ours for ensure_size
pub trait Error: Sized {
    fn custom<T: Display>(msg: T) -> Self;
    fn invalid_value<U: Display, V: Display>(expected: U, actual: V) -> Self;
    fn invalid_length(actual: usize, expected: usize) -> Self;
}

/// concrete error that keeps kind and text, so that a harness can look at both
#[derive(Debug, Clone, PartialEq, Eq)]
pub enum OracleError {
    Custom(std::string::String),
    InvalidValue(std::string::String),
    Short { actual: usize, expected: usize },
}
impl Error for OracleError {
    #[cold]
    fn custom<T: Display>(msg: T) -> Self {
        Self::Custom(msg.to_string())
    }
    #[cold]
    fn invalid_value<U: Display, V: Display>(expected: U, actual: V) -> Self {
        Self::InvalidValue(format!("expected {}, got {}", expected, actual))
    }
    #[cold]
    fn invalid_length(actual: usize, expected: usize) -> Self {
        Self::Short { actual, expected }
    }
}

#[derive(Debug, Clone, PartialEq, Eq)]
pub enum Either<L, R> {
    Left(L),
    Right(R),
}

pub mod iter {
    use smallvec::{Array, SmallVec};
    pub struct IntoIter<A: Array>(smallvec::IntoIter<A>);
    impl<A: Array> IntoIter<A> {
        #[inline]
        pub fn new(v: SmallVec<A>) -> Self {
            Self(v.into_iter())
        }
    }
    impl<A: Array> Iterator for IntoIter<A> {
        type Item = A::Item;
        #[inline]
        fn next(&mut self) -> Option<A::Item> {
            self.0.next()
        }
    }
}
