//! The blocks of a document, one row each.

use crate::inline::{strings, Piece};
use crate::raw::RawBlock;
use crate::{Document, Error};
use std::borrow::Cow;
use std::fmt;
use std::iter::FusedIterator;
use std::ops::Range;
use std::slice::from_ref;

/// What a block is.
#[derive(Clone, Copy, Debug, PartialEq, Eq, Hash)]
#[non_exhaustive]
pub enum BlockKind {
    /// A blank line.
    BlankLine,
    /// A thematic break, as `***` (CommonMark 4.1).
    ThematicBreak,
    /// A heading, as `# a`, or with a line of `=` or `-` below (CommonMark 4.2 and 4.3).
    Heading,
    /// A paragraph (CommonMark 4.8).
    Paragraph,
    /// Code that is indented (CommonMark 4.4).
    IndentedCode,
    /// Code between fences (CommonMark 4.5). Math has the marker `$`.
    FencedCode,
    /// HTML (CommonMark 4.6).
    Html,
    /// A block quote (CommonMark 5.1).
    Quote,
    /// An item of a list (CommonMark 5.2).
    Item,
    /// Front matter, which [`Options::front_matter`](crate::Options::front_matter) reads.
    FrontMatter,
}

impl BlockKind {
    /// Each kind, by its number in `markdown_inline.h`.
    pub(crate) const ALL: [BlockKind; 10] = [
        BlockKind::BlankLine,
        BlockKind::ThematicBreak,
        BlockKind::Heading,
        BlockKind::Paragraph,
        BlockKind::IndentedCode,
        BlockKind::FencedCode,
        BlockKind::Html,
        BlockKind::Quote,
        BlockKind::Item,
        BlockKind::FrontMatter,
    ];
}

impl RawBlock {
    pub(crate) fn kind(&self) -> BlockKind {
        BlockKind::ALL[usize::from(self.kind)]
    }
}

/// A block of a document.
#[derive(Clone, Copy)]
#[non_exhaustive]
pub struct Block<'d> {
    /// What it is.
    pub kind: BlockKind,
    /// How many quotes and items it is in. What they hold follows them, one deeper.
    pub depth: usize,
    /// The level of a heading, the number of an item of an ordered list, or the kind of HTML; else 0.
    pub number: usize,
    /// The line on which it begins, from 1. Fenced code begins with its fence, and a text with the definitions at its front.
    pub line: usize,
    /// The character of an item's marker or of a fence.
    pub marker: Option<char>,
    /// Whether an item begins its list.
    pub begins_list: bool,
    /// Whether an item ends its list.
    pub ends_list: bool,
    /// Whether an item's list is loose.
    pub is_loose: bool,
    /// The pieces of a heading's or a paragraph's text; of code, HTML and front matter the lines, one piece each. Of fenced code the first piece is the info
    /// string.
    pub pieces: &'d [Piece],
    /// The number of its text among [`Document::contents`]. Headings and paragraphs have a text, which is empty in a paragraph of definitions alone.
    pub content: Option<usize>,
    document: &'d Document<'d>,
}

impl<'d> Block<'d> {
    pub(crate) fn of(document: &'d Document<'d>, number: usize) -> Option<Block<'d>> {
        let rows = &document.rows;
        let row = rows.blocks.get(number)?;
        Some(Block {
            kind: row.kind(),
            depth: row.depth,
            number: row.number,
            line: row.line,
            marker: Some(char::from(row.marker)).filter(|_| row.marker > 0),
            begins_list: row.begins_list(),
            ends_list: row.ends_list(),
            is_loose: row.is_loose(),
            pieces: rows.pieces_of(row),
            content: rows.numbers.binary_search(&number).ok(),
            document,
        })
    }

    /// The lines of a text, of code, of HTML or of front matter, each with its line ending, if it has one. Of a tab that a container cuts, the remaining columns
    /// are spaces. The blank lines after indented code are among them, which HTML leaves out.
    ///
    /// ```
    /// use markdown_inline::{parse, Options};
    /// let document = parse("- ~~~ a\n  b\n\n      c\n", &Options::commonmark()).unwrap();
    /// let code = document.blocks().nth(1).unwrap();
    /// assert_eq!(code.lines().collect::<String>(), "b\n\n    c\n");
    /// assert_eq!(code.info().unwrap().as_deref(), Some("a"));
    /// ```
    pub fn lines(&self) -> impl Iterator<Item = Cow<'d, str>> + 'd {
        let (block, skipped) = (*self, usize::from(self.kind == BlockKind::FencedCode));
        let pieces = self.pieces.get(skipped..).unwrap_or_default();
        let lines = pieces
            .iter()
            .map(move |piece| block.document.rows.cut(piece));
        // What has no codes is a line of code, but none of HTML.
        lines.filter(move |line| !line.is_empty() || block.kind != BlockKind::Html)
    }

    /// The info string of fenced code, with escapes and character references resolved; none of other blocks. Its first word names the language.
    ///
    /// # Errors
    ///
    /// `NoMemory`.
    pub fn info(&self) -> Result<Option<String>, Error> {
        if self.kind != BlockKind::FencedCode {
            return Ok(None);
        }
        let info = self
            .pieces
            .first()
            .map(|piece| self.document.rows.cut(piece));
        let info = info.unwrap_or_default();
        let (part, string) = (0..info.len(), 0..1);
        let found = strings(info.as_bytes(), from_ref(&part), from_ref(&string))?;
        Ok(found.get(0).map(str::to_string))
    }
}

/// The blocks of a document, in order.
#[derive(Clone, Debug)]
pub struct Blocks<'d> {
    document: &'d Document<'d>,
    left: Range<usize>,
}

impl<'d> Blocks<'d> {
    pub(crate) fn of(document: &'d Document<'d>) -> Blocks<'d> {
        Blocks {
            document,
            left: 0..document.rows.blocks.len(),
        }
    }
}

impl<'d> Iterator for Blocks<'d> {
    type Item = Block<'d>;

    fn next(&mut self) -> Option<Block<'d>> {
        Block::of(self.document, self.left.next()?)
    }

    fn nth(&mut self, number: usize) -> Option<Block<'d>> {
        Block::of(self.document, self.left.nth(number)?)
    }

    fn size_hint(&self) -> (usize, Option<usize>) {
        self.left.size_hint()
    }
}

impl DoubleEndedIterator for Blocks<'_> {
    fn next_back(&mut self) -> Option<Self::Item> {
        Block::of(self.document, self.left.next_back()?)
    }
}

impl ExactSizeIterator for Blocks<'_> {}

impl FusedIterator for Blocks<'_> {}

impl fmt::Debug for Block<'_> {
    fn fmt(&self, f: &mut fmt::Formatter<'_>) -> fmt::Result {
        f.debug_struct("Block")
            .field("kind", &self.kind)
            .field("depth", &self.depth)
            .field("number", &self.number)
            .field("line", &self.line)
            .finish_non_exhaustive()
    }
}
