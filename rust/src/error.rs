//! Refusals.
use core::fmt;

/// Why a call was refused: document 01's eleven numbers. A refused call has changed no byte that it was lent.
///
/// ```
/// use barkcushion::Error;
/// assert_eq!(Error::Words.number(), 6);
/// assert_eq!(Error::from_number(6), Some(Error::Words));
/// assert_eq!(Error::Words.to_string(), "refused 6: extended status of two words or more");
/// ```
#[derive(Clone, Copy, Debug, PartialEq, Eq, Hash)]
#[repr(u8)]
pub enum Error {
    /// The input ends before a byte that the layout needs.
    Short = 1,
    /// What is lent to be written is too short.
    Room = 2,
    /// A limit is passed.
    Limit = 3,
    /// Unknown segment byte or kind, a reserved code, or general status 0 given to a failure writer.
    Code = 4,
    /// Not the one form: longer than needed, a pad or a reserved bit not zero, odd application data.
    Form = 5,
    /// Extended status of two words or more.
    Words = 6,
    /// An offset, or an empty item to write, breaks the body rule.
    Offset = 7,
    /// Bytes are left over.
    Leftover = 8,
    /// A message is nested deeper than 3.
    Depth = 9,
    /// An envelope that has not two items, or another type.
    Envelope = 10,
    /// A start, a length or an index lies outside what was lent; or a frame collector's state that no calls leave.
    Outside = 11,
}

/// What every fallible call answers.
pub type Result<T> = core::result::Result<T, Error>;

impl Error {
    /// Every refusal, by number.
    pub const ALL: [Error; 11] = [
        Error::Short,
        Error::Room,
        Error::Limit,
        Error::Code,
        Error::Form,
        Error::Words,
        Error::Offset,
        Error::Leftover,
        Error::Depth,
        Error::Envelope,
        Error::Outside,
    ];

    /// Document 01's number, 1 to 11.
    pub const fn number(self) -> u8 {
        self as u8
    }

    /// The refusal with this number, if there is one.
    pub fn from_number(number: u8) -> Option<Error> {
        Error::ALL.into_iter().find(|e| e.number() == number)
    }
}

impl fmt::Display for Error {
    fn fmt(&self, f: &mut fmt::Formatter<'_>) -> fmt::Result {
        let why = match self {
            Error::Short => "the input ends too soon",
            Error::Room => "what is lent to be written is too short",
            Error::Limit => "a limit is passed",
            Error::Code => "an unknown or reserved code",
            Error::Form => "not the one form",
            Error::Words => "extended status of two words or more",
            Error::Offset => "an offset or an empty item breaks the body rule",
            Error::Leftover => "bytes are left over",
            Error::Depth => "a message is nested deeper than 3",
            Error::Envelope => "not the two-item envelope",
            Error::Outside => "a start, a length or an index lies outside",
        };
        write!(f, "refused {}: {why}", self.number())
    }
}

impl core::error::Error for Error {}
