//! Many strings as contents of one document.

use super::{Input, Piece, TextContent};

/// A document of strings, each of which is a content: so that many short texts are read by one call.
///
/// ```
/// use markdown_inline::inline::{HtmlOptions, Joined};
/// # fn main() -> Result<(), markdown_inline::Refusal> {
/// let joined: Joined = ["a *b*", "`c`"].into_iter().collect();
/// let htmls = joined.input().htmls(joined.contents(), HtmlOptions::default())?;
/// assert!(htmls.iter().eq(["a <em>b</em>", "<code>c</code>"]));
/// // Places are those of the document; the second string begins at byte 6, on line 2.
/// assert_eq!(joined.start(1), Some(6));
/// # Ok(())
/// # }
/// ```
#[derive(Clone, Debug, Default, PartialEq, Eq)]
pub struct Joined {
    document: Vec<u8>,
    pieces: Vec<Piece>,
    contents: Vec<TextContent>,
}

impl Joined {
    /// A document of no strings.
    #[must_use]
    pub fn new() -> Joined {
        Joined::default()
    }

    /// Adds a string, which is the next content.
    pub fn push(&mut self, text: impl AsRef<[u8]>) {
        let start = self.document.len();
        self.document.extend_from_slice(text.as_ref());
        self.pieces.push((start..self.document.len()).into());
        self.document.push(b'\n');
        let number = self.contents.len();
        self.contents.push((number..number + 1).into());
    }

    /// An input with the document and its pieces, to which options and definitions can be added.
    #[must_use]
    pub fn input(&self) -> Input<'_> {
        Input::new(&self.document).pieces(&self.pieces)
    }

    /// The contents, in the order of the strings.
    #[must_use]
    pub fn contents(&self) -> &[TextContent] {
        &self.contents
    }

    /// Where the string with this number begins in the document. It begins a line.
    #[must_use]
    pub fn start(&self, number: usize) -> Option<usize> {
        Some(self.pieces.get(number)?.start)
    }
}

impl<T: AsRef<[u8]>> Extend<T> for Joined {
    fn extend<I: IntoIterator<Item = T>>(&mut self, texts: I) {
        texts.into_iter().for_each(|text| self.push(text));
    }
}

impl<T: AsRef<[u8]>> FromIterator<T> for Joined {
    fn from_iter<I: IntoIterator<Item = T>>(texts: I) -> Joined {
        let mut joined = Joined::new();
        joined.extend(texts);
        joined
    }
}
