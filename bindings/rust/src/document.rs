//! A document that is parsed.

use crate::inline::{Input, TextContent};
use crate::rows::Rows;
use crate::tree::{Text, Tree};
use crate::{Blocks, Error, Events, OffsetIter, Options, Refusal};
use std::fmt;
use std::str;

/// A document that is parsed. Lines, columns and bytes are those of the text that was given, and count from 1, 1 and 0.
#[derive(Clone)]
pub struct Document<'a> {
    pub(crate) rows: Rows<'a>,
    pub(crate) tree: Tree,
    pub(crate) options: Options,
}

/// Parses a document, following CommonMark 0.31.2, with the constructs that the options add. A byte order mark at the front is no text, but positions count it.
///
/// # Errors
///
/// `TooLong`, `NotUtf8`, `References` or `NoMemory`. Where it is `NotUtf8`, `at` of the refusal is the first byte that is not UTF-8. It is `References` if the
/// document's references expand to more bytes than the limit of the options, so that what is rendered of its events is bounded too.
pub fn parse<'a, D: AsRef<[u8]> + ?Sized>(
    document: &'a D,
    options: &Options,
) -> Result<Document<'a>, Refusal> {
    let text = str::from_utf8(document.as_ref()).map_err(|error| Refusal {
        error: Error::NotUtf8,
        at: Some(error.valid_up_to()),
    })?;
    let rows = Rows::read(text, options.blocks())?;
    Ok(Document {
        tree: Tree::of(&rows, options)?,
        rows,
        options: options.clone(),
    })
}

impl Document<'_> {
    /// The events, in order: what begins, what ends, and what is in between. [`html::push_html`](crate::html::push_html) renders them.
    #[must_use]
    pub fn events(&self) -> Events<'_> {
        Events::of(self)
    }

    /// The events, each with the bytes of what it is about. Those of a start and of its end are the same.
    ///
    /// ```
    /// use markdown_inline::{parse, Event, Options};
    /// let text = "a `b`\n";
    /// let document = parse(text, &Options::commonmark()).unwrap();
    /// let code = document.offset_iter().find(|(event, _)| *event == Event::Code("b".into()));
    /// assert_eq!(code.map(|(_, range)| &text[range]), Some("`b`"));
    /// ```
    #[must_use]
    pub fn offset_iter(&self) -> OffsetIter<'_> {
        OffsetIter::of(self)
    }

    pub(crate) fn str(&self, text: Text) -> &str {
        self.tree.str(&self.rows, text)
    }

    /// The blocks, one row each: for what nodes do not tell, such as blank lines and the pieces of a text.
    #[must_use]
    pub fn blocks(&self) -> Blocks<'_> {
        Blocks::of(self)
    }

    /// The texts of headings and paragraphs, in order, as the calls of an [`Input`] take them.
    #[must_use]
    pub fn contents(&self) -> &[TextContent] {
        &self.rows.contents
    }

    /// An input with the document, the pieces of its texts, its definitions and the constructs of its options.
    #[must_use]
    pub fn input(&self) -> Input<'_> {
        let input = self.rows.input().reference_limit(self.options.limit.raw());
        input.options(self.options.constructs())
    }
}

impl fmt::Debug for Document<'_> {
    fn fmt(&self, f: &mut fmt::Formatter<'_>) -> fmt::Result {
        f.debug_list().entries(self.blocks()).finish()
    }
}
