//! How a case is handed over: its line, and who says what the answer must be.

use crate::case::replies::{Forward, Status};
use crate::case::requests::Record;
use crate::case::Plain;
use crate::refused::Beside;

/// Who says what the answer must be.
pub enum Truth {
    /// the crate: this line
    Crate(Vec<u8>),
    /// the crate: the input of 05 is what it wrote for this list, so the list has to come back
    List { list: Vec<Plain>, input: Vec<u8> },
    /// the crate: the input of 06 begins with what it wrote for this segment, in so many bytes
    Front { first: Plain, size: u32, input: Vec<u8> },
    /// the judge; where 05 or 06 accepts all the same, the crate has to write the input again from what was read
    Input(Vec<u8>),
    /// the judge; where 18 to 1B accepts all the same, the crate has to write the input again from what was read
    Record(Record),
    /// the judge; where 23 to 25 accepts, the crate has to read this reply back from what was written
    Written(Forward),
    /// the judge; of a failed item of a body the crate says this status, and nothing more
    Failed(Status),
    /// the judge; the crate was asked too, and what it did is counted by kind
    Beside(Beside),
    /// the judge, which may not accept it: it is not in the crate's domain
    Outside,
    /// the judge alone
    Judge,
}

impl Truth {
    pub fn is_crates(&self) -> bool {
        matches!(self, Truth::Crate(_) | Truth::List { .. } | Truth::Front { .. } | Truth::Failed(_))
    }
}

pub struct Case {
    pub line: Vec<u8>,
    pub truth: Truth,
}

pub type Sink<'a> = dyn FnMut(Case) + 'a;

/// The judge's alone.
pub fn judged(to: &mut Sink, line: Vec<u8>) {
    to(Case { line, truth: Truth::Judge });
}

/// Lengths, as digits, that run past the line, and past every memory.
pub const PAST_THE_END: [&str; 5] = ["01000000", "FFFFFFFF", "FFFFFF7F", "00000080", "FBFFFFFF"];

/// Each of those lengths behind each of these fronts of a line, alone and with something behind it.
pub fn past_the_end(to: &mut Sink, fronts: &[&str], behind: &str) {
    for front in fronts {
        for len in PAST_THE_END {
            judged(to, format!("{front}{len}").into_bytes());
            judged(to, format!("{front}{len}{behind}").into_bytes());
        }
    }
}
