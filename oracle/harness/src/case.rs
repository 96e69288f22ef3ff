//! A case as a value, and the line that asks it. The judge does not use these files: it takes lines apart by itself.

pub mod bodies;
pub mod fields;
pub mod frames;
pub mod nested;
pub mod paths;
pub mod replies;
pub mod requests;

pub use fields::{digits, undigits};
pub use paths::*;
