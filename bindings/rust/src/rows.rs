//! The blocks and the definitions of a document as the library returns them.

use crate::blocks::BlockKind;
use crate::fill::{fitted, is_done};
use crate::inline::{Input, Piece, TextContent};
use crate::raw::{self, RawBlock, RawBlocksCount, RawDefinitionsCount, RawRange, RawTarget};
use crate::Error;
use std::borrow::Cow;

/// The blocks of a document, in order, and its definitions.
#[derive(Clone)]
pub(crate) struct Rows<'a> {
    pub text: &'a str,
    pub blocks: Vec<RawBlock>,
    pub pieces: Vec<Piece>,
    /// The texts of headings and paragraphs, and the numbers of their blocks.
    pub contents: Vec<TextContent>,
    pub numbers: Vec<usize>,
    /// The bytes at which lines begin.
    pub starts: Vec<usize>,
    pub labels: String,
    pub definitions: Vec<RawRange>,
    pub targets: Vec<RawTarget>,
}

impl<'a> Rows<'a> {
    /// Reads a document with these blocks beside CommonMark's.
    pub fn read(text: &'a str, options: u32) -> Result<Rows<'a>, Error> {
        let (blocks, pieces) = found_blocks(text.as_bytes(), options)?;
        // The call reads the whole document again.
        let defined = match text.contains("]:") {
            true => found_definitions(text.as_bytes(), options)?,
            false => Defined::default(),
        };
        let (contents, numbers) = contents_of(&blocks)?;
        Ok(Rows {
            text,
            starts: line_starts(text.as_bytes())?,
            blocks,
            pieces,
            contents,
            numbers,
            labels: String::from_utf8(defined.labels).map_err(|_| Error::NotUtf8)?,
            definitions: defined.definitions,
            targets: defined.targets,
        })
    }

    /// An input with the document, the pieces of its texts, and its definitions.
    pub fn input(&self) -> Input<'_> {
        Input::new(self.text).pieces(&self.pieces).defined(
            self.labels.as_bytes(),
            &self.definitions,
            &self.targets,
        )
    }

    pub fn pieces_of(&self, block: &RawBlock) -> &[Piece] {
        &self.pieces[block.pieces.start..block.pieces.end]
    }

    /// The number of the line that has this byte, from 1.
    pub fn line_of(&self, byte: usize) -> usize {
        self.starts.partition_point(|start| *start <= byte)
    }

    pub fn line_count(&self) -> usize {
        let is_last_empty = self.starts.last() == Some(&self.text.len());
        self.starts.len() - usize::from(is_last_empty && self.starts.len() > 1)
    }

    /// Where a line begins, after a byte order mark at the front of the document.
    pub fn line_start(&self, line: usize) -> usize {
        match self.starts[line - 1] {
            0 if self.text.starts_with('\u{feff}') => '\u{feff}'.len_utf8(),
            start => start,
        }
    }

    /// Where a line ends, before its line ending.
    pub fn line_end(&self, line: usize) -> usize {
        let start = self.starts[line - 1];
        let end = self.starts.get(line).copied().unwrap_or(self.text.len());
        let text = &self.text[start..end];
        let text = text.strip_suffix('\n').unwrap_or(text);
        start + text.strip_suffix('\r').unwrap_or(text).len()
    }

    /// How many columns are before a byte on its line.
    fn column(&self, byte: usize) -> usize {
        let begun = self.starts[self.line_of(byte) - 1];
        let before = self.text.as_bytes()[begun..byte].iter();
        before.fold(0, |column, byte| column + width_at(column, *byte))
    }

    /// Where the four columns of indentation before code begin (CommonMark 4.4), or the tab that has the first of them.
    pub fn indentation(&self, code: &Piece) -> usize {
        let column = self.column(code.start) + code.start_vs;
        let mut starts = (0..=code.start).rev();
        let start = starts.find(|at| self.column(*at) + 4 <= column);
        start.unwrap_or(code.start)
    }

    /// What is in a piece. Of a tab in which it begins, the remaining columns are spaces (CommonMark 2.2).
    pub fn cut(&self, piece: &Piece) -> Cow<'_, str> {
        if piece.start_vs == 0 {
            return Cow::Borrowed(&self.text[piece.start..piece.end]);
        }
        let left = width_at(self.column(piece.start), b'\t') - piece.start_vs;
        let rest = self.text.get(piece.start + 1..piece.end).unwrap_or("");
        Cow::Owned(" ".repeat(left) + rest)
    }
}

/// How many columns a byte has after the given number of columns.
fn width_at(column: usize, byte: u8) -> usize {
    match byte {
        b'\t' => 4 - column % 4,
        _ => 1,
    }
}

/// The rows of the blocks, and their pieces.
fn found_blocks(document: &[u8], options: u32) -> Result<(Vec<RawBlock>, Vec<Piece>), Error> {
    let (mut rows, mut pieces) = (Vec::new(), Vec::new());
    // Prose has a block and a piece for each line.
    let _ = rows.try_reserve_exact(document.len() / 16 + 64);
    let _ = pieces.try_reserve_exact(document.len() / 16 + 64);
    loop {
        let mut count = RawBlocksCount::default();
        // SAFETY: each pointer goes with the length of its array, and nothing is kept.
        let status = unsafe {
            raw::markdown_inline_blocks(
                document.as_ptr(),
                document.len(),
                options,
                rows.as_mut_ptr(),
                rows.capacity(),
                pieces.as_mut_ptr(),
                pieces.capacity(),
                &mut count,
            )
        };
        if is_done(status)? {
            // SAFETY: with this status so many stand at the front of the room.
            unsafe {
                rows.set_len(count.blocks);
                pieces.set_len(count.pieces);
            }
            return Ok((fitted(rows), fitted(pieces)));
        }
        reserve(&mut rows, count.blocks)?;
        reserve(&mut pieces, count.pieces)?;
    }
}

/// The definitions as an input takes them: the texts of labels and targets, where the labels are among them, and where each leads.
#[derive(Default)]
struct Defined {
    labels: Vec<u8>,
    definitions: Vec<RawRange>,
    targets: Vec<RawTarget>,
}

fn found_definitions(document: &[u8], options: u32) -> Result<Defined, Error> {
    let (mut labels, mut definitions, mut targets) = (Vec::new(), Vec::new(), Vec::new());
    // As many as most documents have.
    let _ = labels.try_reserve_exact(document.len() / 8 + 1024);
    let _ = definitions.try_reserve_exact(document.len() / 128 + 64);
    let _ = targets.try_reserve_exact(document.len() / 128 + 64);
    loop {
        let mut count = RawDefinitionsCount::default();
        // SAFETY: each pointer goes with the length of its array, and nothing is kept.
        let status = unsafe {
            raw::markdown_inline_definitions(
                document.as_ptr(),
                document.len(),
                options,
                labels.as_mut_ptr(),
                labels.capacity(),
                definitions.as_mut_ptr(),
                definitions.capacity(),
                targets.as_mut_ptr(),
                targets.capacity(),
                &mut count,
            )
        };
        if is_done(status)? {
            // SAFETY: with this status so many stand at the front of the room.
            unsafe {
                labels.set_len(count.labels);
                definitions.set_len(count.definitions);
                targets.set_len(count.definitions);
            }
            return Ok(Defined {
                labels: fitted(labels),
                definitions: fitted(definitions),
                targets: fitted(targets),
            });
        }
        reserve(&mut labels, count.labels)?;
        reserve(&mut definitions, count.definitions)?;
        reserve(&mut targets, count.definitions)?;
    }
}

fn reserve<T>(found: &mut Vec<T>, count: usize) -> Result<(), Error> {
    found.try_reserve(count).map_err(|_| Error::NoMemory)
}

/// The bytes at which lines begin.
fn line_starts(document: &[u8]) -> Result<Vec<usize>, Error> {
    let is_end = |at: &usize| match document[*at] {
        b'\n' => true,
        b'\r' => document.get(*at + 1) != Some(&b'\n'),
        _ => false,
    };
    let mut starts = Vec::new();
    reserve(&mut starts, (0..document.len()).filter(is_end).count() + 1)?;
    starts.push(0);
    starts.extend((0..document.len()).filter(is_end).map(|at| at + 1));
    Ok(starts)
}

/// The texts of headings and paragraphs as contents, and the numbers of their blocks. A paragraph is the first of an item if only blank lines and definitions are
/// before it in the item.
fn contents_of(rows: &[RawBlock]) -> Result<(Vec<TextContent>, Vec<usize>), Error> {
    let (mut contents, mut numbers) = (Vec::new(), Vec::new());
    let has_text =
        |row: &&RawBlock| matches!(row.kind(), BlockKind::Heading | BlockKind::Paragraph);
    let many = rows.iter().filter(has_text).count();
    reserve(&mut contents, many)?;
    reserve(&mut numbers, many)?;
    // The depth of what would be the first of an item.
    let mut first_in = None;
    for (number, row) in rows.iter().enumerate() {
        let (kind, pieces) = (row.kind(), row.pieces.start..row.pieces.end);
        let is_first = first_in == Some(row.depth);
        if has_text(&row) {
            numbers.push(number);
            contents.push(TextContent {
                pieces: pieces.clone(),
                first_of_item: is_first && kind == BlockKind::Paragraph,
            });
        }
        first_in = match kind {
            BlockKind::Item => Some(row.depth + 1),
            BlockKind::BlankLine => first_in.filter(|_| is_first),
            BlockKind::Paragraph if pieces.is_empty() => first_in.filter(|_| is_first),
            _ => None,
        };
    }
    Ok((contents, numbers))
}
