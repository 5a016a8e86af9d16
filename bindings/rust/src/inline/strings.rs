//! The texts of strings.

use super::lists::walks;
use super::{Constructs, StringOptions};
use crate::fill::{fill_many, range_of};
use crate::raw::{self, RawRange};
use crate::{Error, Refusal};
use std::ops::Range;

/// The texts of strings.
#[derive(Clone, Debug, Default, PartialEq, Eq)]
pub struct Strings {
    texts: String,
    ends: Vec<usize>,
}

impl Strings {
    /// The text of the string with this number.
    #[must_use]
    pub fn get(&self, number: usize) -> Option<&str> {
        self.texts.get(range_of(&self.ends, number)?)
    }
}

walks! {
    /// The texts one after another.
    StringsIter over Strings gives &'a str
}

fn raw_ranges(ranges: &[Range<usize>]) -> Result<Vec<RawRange>, Error> {
    let mut found = Vec::new();
    found
        .try_reserve_exact(ranges.len())
        .map_err(|_| Error::NoMemory)?;
    found.extend(ranges.iter().map(|it| RawRange {
        start: it.start,
        end: it.end,
    }));
    Ok(found)
}

/// The texts of strings, such as titles and destinations, with escapes and character references resolved. A part is a range of the bytes; a string is a range of
/// numbers of parts, whose bytes are one text. Where a string is in a paragraph, its parts are what `Data` and `LineEnding` cover inside it.
///
/// References are read as CommonMark says: [`strings_with`] takes options.
///
/// # Errors
///
/// `NoString` or `NoMemory`.
///
/// ```
/// # fn main() -> Result<(), markdown_inline::Refusal> {
/// let found = markdown_inline::inline::strings(r#"[a](b\*c "d &amp; e")"#, &[4..8, 10..19], &[0..1, 1..2])?;
/// assert_eq!(found.iter().collect::<Vec<_>>(), ["b*c", "d & e"]);
/// # Ok(())
/// # }
/// ```
pub fn strings<D: AsRef<[u8]> + ?Sized>(
    document: &D,
    parts: &[Range<usize>],
    strings: &[Range<usize>],
) -> Result<Strings, Refusal> {
    strings_with(
        Constructs::COMMONMARK,
        StringOptions::default(),
        document,
        parts,
        strings,
    )
}

/// The texts of strings as of [`strings`], with character references resolved as [`reference_with`](super::reference_with) says by these options: take those with
/// which the document is read. The text is written as the other options say: by default line endings and NUL stay.
///
/// # Errors
///
/// `UnknownOption`, `NoString` or `NoMemory`.
///
/// ```
/// # fn main() -> Result<(), markdown_inline::Refusal> {
/// use markdown_inline::inline::{Constructs, StringOptions, strings_with};
/// let how = StringOptions::default().line_feeds(true);
/// let found = strings_with(Constructs::HTML_REFERENCES, how, "&check;\r\n", &[0..9], &[0..1])?;
/// assert_eq!(found.get(0), Some("\u{2713}\n"));
/// # Ok(())
/// # }
/// ```
pub fn strings_with<D: AsRef<[u8]> + ?Sized>(
    options: Constructs,
    string_options: StringOptions,
    document: &D,
    parts: &[Range<usize>],
    strings: &[Range<usize>],
) -> Result<Strings, Refusal> {
    let document = document.as_ref();
    let (parts, strings) = (raw_ranges(parts)?, raw_ranges(strings)?);
    let (mut texts, mut ends) = (Vec::new(), Vec::new());
    let len = |part: &RawRange| part.end.saturating_sub(part.start).min(document.len());
    let expected = parts.iter().map(len).fold(0, usize::saturating_add);
    // SAFETY: each pointer goes with the length of its array, and nothing is kept.
    fill_many(
        &mut texts,
        &mut ends,
        strings.len(),
        expected,
        true,
        |lent, outcome| unsafe {
            raw::markdown_inline_strings(
                options.bits(),
                string_options.bits(),
                document.as_ptr(),
                document.len(),
                parts.as_ptr(),
                parts.len(),
                strings.as_ptr().add(lent.from),
                lent.ends_len,
                lent.array,
                lent.len,
                lent.ends,
                lent.ends_len,
                outcome,
            )
        },
    )?;
    let texts = String::from_utf8(texts).map_err(|_| Error::NotUtf8)?;
    Ok(Strings { texts, ends })
}
