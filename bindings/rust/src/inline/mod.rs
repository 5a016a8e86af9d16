//! The text inside blocks: of a paragraph, a heading, a cell of a table. [`text`] returns the events of one text, and an [`Input`] reads one or many, as events,
//! HTML, leaves or links.
//!
//! ```
//! # fn main() -> Result<(), markdown_inline::Error> {
//! let events = markdown_inline::inline::text("a *b*")?;
//! let names: Vec<_> = events.iter().map(|event| event.name.to_string()).collect();
//! assert_eq!(names[..4], ["Data", "Data", "Emphasis", "EmphasisSequence"]);
//! assert_eq!(events.iter().last().map(|event| event.to_string()).as_deref(), Some("Exit Emphasis 1 6 5 0"));
//! # Ok(())
//! # }
//! ```
//!
//! A block parser passes its document, and which pieces of it make up a paragraph. This paragraph is in a block quote:
//!
//! ```
//! use markdown_inline::inline::{Constructs, Input, Piece};
//! # fn main() -> Result<(), markdown_inline::Error> {
//! // Where the paragraph begins on each line, after the `>`.
//! let pieces = Piece::of_lines("> a *b\n> c* `d`", &[1, 8])?;
//! assert_eq!(pieces, [Piece::from(2..7), Piece::from(9..15)]);
//! let events = Input::new("> a *b\n> c* `d`")
//!     .pieces(&pieces)
//!     .options(Constructs::COMMONMARK | Constructs::GFM)
//!     .definition("a label")
//!     .text()?;
//! for event in &events {
//!     println!("{event}");
//! }
//! # assert_eq!(events.get(3).unwrap().point.index, 4);
//! # Ok(())
//! # }
//! ```
//!
//! # Memory and time
//!
//! A call asks for room by the length of what it reads, and mostly reads it once. A text of little else than constructs has more events than that: then the call
//! is made once more, with room for all. [`Input::text_into`] and its like use the memory of an earlier result again. Rust's own memory is asked for by
//! `try_reserve`, so if there is none, the error is [`Error::NoMemory`], but for what an [`Input`] keeps.

mod constructs;
mod event;
mod htmls;
mod input;
mod joined;
mod leaf;
mod lines;
mod links;
mod lists;
mod name;
mod short;
mod strings;
mod texts;

pub use crate::raw::Piece;
pub use constructs::{Constructs, HtmlOptions, StringOptions, NO_LIMIT};
pub use event::{Chain, Content, Event, EventSlice, Events, Iter, Kind, Link, Point};
pub use htmls::{Htmls, HtmlsIter};
pub use input::Input;
pub use joined::Joined;
pub use leaf::{Leaf, LeafIter, Leaves};
pub use links::FoundLink;
pub(crate) use links::{is_literal, left_of, scheme_of};
pub use name::{Name, UnknownName};
pub use short::{ShortEvent, ShortIter, ShortTexts, ShortTextsIter};
pub use strings::{strings, strings_with, Strings, StringsIter};
pub use texts::{TextContent, Texts, TextsIter};

use crate::fill::text_by;
use crate::{raw, Error};

/// The events of a whole document as a text, read as CommonMark says.
///
/// # Errors
///
/// `TooLong`, `NotUtf8`, `BlankLine` or `NoMemory`.
pub fn text<D: AsRef<[u8]> + ?Sized>(document: &D) -> Result<Events, Error> {
    Input::new(document).text()
}

/// The events of a whole document as a string: of escapes, character references and data.
///
/// # Errors
///
/// `TooLong`, `NotUtf8` or `NoMemory`.
pub fn string<D: AsRef<[u8]> + ?Sized>(document: &D) -> Result<Events, Error> {
    Input::new(document).string()
}

/// The identifier of a label, as labels are compared: its words joined by one space and case folded.
///
/// # Errors
///
/// `NotUtf8` or `NoMemory`.
///
/// ```
/// assert_eq!(markdown_inline::inline::identifier(" A\n B ").unwrap(), "a b");
/// ```
pub fn identifier<L: AsRef<[u8]> + ?Sized>(label: &L) -> Result<String, Error> {
    let label = label.as_ref();
    // SAFETY: each pointer goes with the length of its array, and nothing is kept.
    text_by(label.len() + 8, |array, len, count| unsafe {
        raw::markdown_inline_identifier(label.as_ptr(), label.len(), array, len, count)
    })
}

/// The text that a character reference stands for. The bytes are the whole reference, with its `&` and its `;`. It is read as CommonMark says;
/// [`reference_with`] takes options.
///
/// # Errors
///
/// `NoReference` or `NoMemory`.
///
/// ```
/// assert_eq!(markdown_inline::inline::reference("&amp;").unwrap(), "&");
/// assert_eq!(markdown_inline::inline::reference("&#x41;").unwrap(), "A");
/// ```
pub fn reference<R: AsRef<[u8]> + ?Sized>(reference: &R) -> Result<String, Error> {
    reference_with(Constructs::COMMONMARK, reference)
}

/// The text that a character reference stands for, by the options with which a document is read: by `Constructs::STANDARD_RULES`, which
/// `Constructs::COMMONMARK` has, each name of HTML is known, and a number stands for a control or a noncharacter too. By `Constructs::HTML_REFERENCES` each name is known.
///
/// # Errors
///
/// `UnknownOption`, `NoReference` or `NoMemory`.
///
/// ```
/// use markdown_inline::inline::{Constructs, reference_with};
/// assert_eq!(reference_with(Constructs::COMMONMARK, "&check;").unwrap(), "\u{2713}");
/// assert!(reference_with(Constructs::CRATE, "&check;").is_err());
/// ```
pub fn reference_with<R: AsRef<[u8]> + ?Sized>(
    options: Constructs,
    reference: &R,
) -> Result<String, Error> {
    let given = reference.as_ref();
    // SAFETY: each pointer goes with the length of its array, and nothing is kept.
    text_by(8, |array, len, count| unsafe {
        raw::markdown_inline_reference(
            options.bits(),
            given.as_ptr(),
            given.len(),
            array,
            len,
            count,
        )
    })
}
