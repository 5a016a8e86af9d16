//! Why a call returns nothing.

use std::error;
use std::fmt;

/// Why a call returns nothing: the first thing that is wrong, in the order `UnknownOption`, `TooLong`, `NotUtf8`, `NoContent`, `BlankLine`, `Definition`. A call
/// for many contents looks at all definitions first, and then at one content after another. `NoMemory` may come at any time.
#[derive(Clone, Copy, Debug, PartialEq, Eq, Hash)]
#[non_exhaustive]
pub enum Error {
    /// A bit of the options is none of an option.
    UnknownOption,
    /// The document is not UTF-8.
    NotUtf8,
    /// A line of the text is blank, or it ends with a line ending. A string may have both.
    BlankLine,
    /// Out of memory.
    NoMemory,
    /// The pieces are no content of the document.
    NoContent,
    /// A label of a definition is not UTF-8; in HTML, where it leads is not. A string looks at no definition.
    Definition,
    /// The document is longer than an eighth of `usize::MAX`.
    TooLong,
    /// The bytes are no character reference, or one whose name is not known.
    NoReference,
    /// References expand to more bytes than the limit.
    References,
    /// A string has a part that is not given, or one that is no text of the bytes.
    NoString,
}

impl Error {
    pub(crate) fn of(status: u32) -> Error {
        match status {
            2 => Error::UnknownOption,
            3 => Error::NotUtf8,
            4 => Error::BlankLine,
            7 => Error::NoContent,
            8 => Error::Definition,
            9 => Error::TooLong,
            10 => Error::NoReference,
            11 => Error::References,
            12 => Error::NoString,
            _ => Error::NoMemory,
        }
    }
}

impl fmt::Display for Error {
    fn fmt(&self, f: &mut fmt::Formatter<'_>) -> fmt::Result {
        f.write_str(match self {
            Error::UnknownOption => "unknown option",
            Error::NotUtf8 => "document is not UTF-8",
            Error::BlankLine => "blank line in text, or line ending at its end",
            Error::NoMemory => "out of memory",
            Error::NoContent => "pieces are no content of the document",
            Error::Definition => "range of a definition is no text of the labels",
            Error::TooLong => "document too long",
            Error::NoReference => "no character reference",
            Error::References => "references bring more than the limit",
            Error::NoString => "part of a string is no text of the bytes",
        })
    }
}

impl error::Error for Error {}

/// Why a call for many contents or strings returns nothing, and which of them, or which definition, is refused.
#[derive(Clone, Copy, Debug, PartialEq, Eq, Hash)]
pub struct Refusal {
    /// Why.
    pub error: Error,
    /// The number of the content where the error is `NoContent`, `BlankLine` or `References`, or that of the start of a line; that of the string where it is `NoString`;
    /// that of the definition where it is `Definition`, with the footnotes counted on after the definitions; and where it is `NotUtf8` the first byte of the document that is not UTF-8.
    pub at: Option<usize>,
}

impl From<Error> for Refusal {
    fn from(error: Error) -> Refusal {
        Refusal { error, at: None }
    }
}

impl From<Refusal> for Error {
    fn from(refusal: Refusal) -> Error {
        refusal.error
    }
}

impl fmt::Display for Refusal {
    fn fmt(&self, f: &mut fmt::Formatter<'_>) -> fmt::Result {
        match self.at {
            Some(byte) if self.error == Error::NotUtf8 => write!(f, "{}: byte {byte}", self.error),
            Some(number) => write!(f, "{}: number {number}", self.error),
            None => self.error.fmt(f),
        }
    }
}

impl error::Error for Refusal {
    fn source(&self) -> Option<&(dyn error::Error + 'static)> {
        Some(&self.error)
    }
}
