//! The functions of the C interface, as `markdown_inline.h` declares them.

use std::mem::size_of;
use std::ops::Range;

pub(crate) const DONE: u32 = 0;
pub(crate) const TOO_SMALL: u32 = 6;

/// Blocks beside CommonMark's, each by a bit.
pub(crate) const BLOCKS_MATH: u32 = 0x1;
pub(crate) const BLOCKS_FRONT_MATTER: u32 = 0x2;

/// A piece of a document, from a place to a place. A place is a byte, and the columns of the tab there that come before; 0 outside of tabs.
#[derive(Clone, Copy, Debug, Default, PartialEq, Eq, Hash)]
#[repr(C)]
pub struct Piece {
    /// The byte at which it starts.
    pub start: usize,
    /// How many columns of the tab at `start` come before the piece.
    pub start_vs: usize,
    /// The byte before which it ends.
    pub end: usize,
    /// How many columns of the tab at `end` the piece still has.
    pub end_vs: usize,
}

impl From<Range<usize>> for Piece {
    /// The bytes of a range, with no part of a tab.
    fn from(bytes: Range<usize>) -> Piece {
        Piece {
            start: bytes.start,
            end: bytes.end,
            ..Piece::default()
        }
    }
}

#[derive(Clone, Copy, Debug)]
#[repr(C)]
pub(crate) struct RawRange {
    pub start: usize,
    pub end: usize,
}

#[repr(C)]
pub(crate) struct RawInput {
    pub bytes: *const u8,
    pub bytes_len: usize,
    pub pieces: *const Piece,
    pub pieces_len: usize,
    pub labels: *const u8,
    pub labels_len: usize,
    pub definitions: *const RawRange,
    pub definitions_len: usize,
    pub footnotes: *const RawRange,
    pub footnotes_len: usize,
    pub options: u32,
    pub reserved: u32,
}

/// An event as it crosses.
#[derive(Clone, Copy, Debug, PartialEq, Eq)]
#[repr(C)]
pub(crate) struct RawEvent {
    pub(crate) kind: u8,
    pub(crate) name: u8,
    pub(crate) link: u8,
    pub(crate) line: usize,
    pub(crate) column: usize,
    pub(crate) index: usize,
    pub(crate) vs: usize,
    pub(crate) previous: usize,
    pub(crate) next: usize,
}

/// A short event as it crosses.
#[derive(Clone, Copy, Debug, PartialEq, Eq)]
#[repr(C)]
pub(crate) struct RawShortEvent {
    pub(crate) kind: u8,
    pub(crate) name: u8,
    pub(crate) link: u8,
    pub(crate) vs: u8,
    pub(crate) definition: u32,
    pub(crate) index: usize,
}

/// A leaf as it crosses.
#[derive(Clone, Copy, Debug, PartialEq, Eq)]
#[repr(C)]
pub(crate) struct RawLeaf {
    pub(crate) name: u8,
    pub(crate) start_line: usize,
    pub(crate) start_column: usize,
    pub(crate) start: usize,
    pub(crate) start_vs: usize,
    pub(crate) end_line: usize,
    pub(crate) end_column: usize,
    pub(crate) end: usize,
    pub(crate) end_vs: usize,
    pub(crate) before: usize,
    pub(crate) bytes_len: usize,
    pub(crate) after: usize,
}

/// Where a definition leads, as it crosses.
#[derive(Clone, Copy, Debug)]
#[repr(C)]
pub(crate) struct RawTarget {
    pub destination: RawRange,
    pub title: RawRange,
    pub has_title: u32,
    pub reserved: u32,
}

/// A content as it crosses.
#[derive(Clone, Copy, Debug)]
#[repr(C)]
pub(crate) struct RawContent {
    pub pieces: RawRange,
    pub first_of_item: u32,
    pub reserved: u32,
}

/// A block as it crosses.
#[derive(Clone, Copy, Debug)]
#[repr(C)]
pub(crate) struct RawBlock {
    pub(crate) pieces: RawRange,
    pub(crate) depth: usize,
    pub(crate) number: usize,
    pub(crate) line: usize,
    pub(crate) kind: u8,
    pub(crate) marker: u8,
    pub(crate) list: u8,
    pub(crate) reserved: u8,
    pub(crate) reserved_too: u32,
}

impl RawBlock {
    pub(crate) fn begins_list(&self) -> bool {
        self.list & 1 > 0
    }

    pub(crate) fn ends_list(&self) -> bool {
        self.list & 2 > 0
    }

    pub(crate) fn is_loose(&self) -> bool {
        self.list & 4 > 0
    }
}

/// How many blocks a document has, and how many pieces.
#[derive(Clone, Copy, Debug, Default)]
#[repr(C)]
pub(crate) struct RawBlocksCount {
    pub blocks: usize,
    pub pieces: usize,
}

/// How many definitions a document has, and how many bytes their labels and targets.
#[derive(Clone, Copy, Debug, Default)]
#[repr(C)]
pub(crate) struct RawDefinitionsCount {
    pub definitions: usize,
    pub labels: usize,
}

/// How a document is read and written. What is reserved is 0.
#[derive(Clone, Copy, Debug, Default)]
#[repr(C)]
pub(crate) struct RawDocumentOptions {
    pub options: u32,
    pub html: u32,
    pub blocks: u32,
    pub reserved: u32,
    pub limit: usize,
    pub reserved_words: [usize; 13],
}

/// How far a call comes.
#[derive(Clone, Copy, Debug, Default)]
#[repr(C)]
pub(crate) struct RawOutcome {
    pub done: usize,
    pub count: usize,
    pub blamed: usize,
}

const _: () = assert!(size_of::<usize>() == 8 && size_of::<Piece>() == 32);
const _: () = assert!(size_of::<RawInput>() == 88 && size_of::<RawEvent>() == 56);
const _: () = assert!(size_of::<RawLeaf>() == 96 && size_of::<RawTarget>() == 40);
const _: () = assert!(size_of::<RawContent>() == 24 && size_of::<RawOutcome>() == 24);
const _: () = assert!(size_of::<RawShortEvent>() == 16 && size_of::<RawBlock>() == 48);
const _: () = assert!(size_of::<RawDocumentOptions>() == 128);

/// A call that fills an array by what is found in an input.
pub(crate) type Call<T> = unsafe extern "C" fn(*const RawInput, *mut T, usize, *mut usize) -> u32;

/// A call that fills an array by what is found in many contents of an input.
pub(crate) type TextsCall<T> = unsafe extern "C" fn(
    *const RawInput,
    *const RawContent,
    usize,
    *mut T,
    usize,
    *mut usize,
    usize,
    *mut RawOutcome,
) -> u32;

extern "C" {
    pub(crate) fn markdown_inline_version() -> u32;
    pub(crate) fn markdown_inline_document_html(
        bytes: *const u8,
        bytes_len: usize,
        options: *const RawDocumentOptions,
        html: *mut u8,
        html_len: usize,
        outcome: *mut RawOutcome,
    ) -> u32;
    pub(crate) fn markdown_inline_blocks(
        bytes: *const u8,
        bytes_len: usize,
        block_options: u32,
        blocks: *mut RawBlock,
        blocks_len: usize,
        pieces: *mut Piece,
        pieces_len: usize,
        count: *mut RawBlocksCount,
    ) -> u32;
    pub(crate) fn markdown_inline_definitions(
        bytes: *const u8,
        bytes_len: usize,
        block_options: u32,
        labels: *mut u8,
        labels_len: usize,
        definitions: *mut RawRange,
        definitions_len: usize,
        targets: *mut RawTarget,
        targets_len: usize,
        count: *mut RawDefinitionsCount,
    ) -> u32;
    pub(crate) fn markdown_inline_is_content(
        bytes: *const u8,
        bytes_len: usize,
        pieces: *const Piece,
        pieces_len: usize,
    ) -> u32;
    pub(crate) fn markdown_inline_is_text(
        bytes: *const u8,
        bytes_len: usize,
        pieces: *const Piece,
        pieces_len: usize,
    ) -> u32;
    pub(crate) fn markdown_inline_pieces_of_lines(
        bytes: *const u8,
        bytes_len: usize,
        starts: *const usize,
        starts_len: usize,
        pieces: *mut Piece,
        pieces_len: usize,
        outcome: *mut RawOutcome,
    ) -> u32;
    pub(crate) fn markdown_inline_string(
        input: *const RawInput,
        events: *mut RawEvent,
        events_len: usize,
        count: *mut usize,
    ) -> u32;
    pub(crate) fn markdown_inline_text(
        input: *const RawInput,
        events: *mut RawEvent,
        events_len: usize,
        count: *mut usize,
    ) -> u32;
    pub(crate) fn markdown_inline_identifier(
        label: *const u8,
        label_len: usize,
        identifier: *mut u8,
        identifier_len: usize,
        count: *mut usize,
    ) -> u32;
    pub(crate) fn markdown_inline_leaves(
        input: *const RawInput,
        leaves: *mut RawLeaf,
        leaves_len: usize,
        count: *mut usize,
    ) -> u32;
    pub(crate) fn markdown_inline_reference(
        options: u32,
        reference: *const u8,
        reference_len: usize,
        text: *mut u8,
        text_len: usize,
        count: *mut usize,
    ) -> u32;
    pub(crate) fn markdown_inline_texts(
        input: *const RawInput,
        contents: *const RawContent,
        contents_len: usize,
        events: *mut RawEvent,
        events_len: usize,
        ends: *mut usize,
        ends_len: usize,
        outcome: *mut RawOutcome,
    ) -> u32;
    pub(crate) fn markdown_inline_short_texts(
        input: *const RawInput,
        contents: *const RawContent,
        contents_len: usize,
        events: *mut RawShortEvent,
        events_len: usize,
        ends: *mut usize,
        ends_len: usize,
        outcome: *mut RawOutcome,
    ) -> u32;
    pub(crate) fn markdown_inline_html(
        input: *const RawInput,
        targets: *const RawTarget,
        targets_len: usize,
        options: u32,
        limit: usize,
        html: *mut u8,
        html_len: usize,
        count: *mut usize,
    ) -> u32;
    pub(crate) fn markdown_inline_strings(
        options: u32,
        string_options: u32,
        bytes: *const u8,
        bytes_len: usize,
        parts: *const RawRange,
        parts_len: usize,
        strings: *const RawRange,
        strings_len: usize,
        texts: *mut u8,
        texts_len: usize,
        ends: *mut usize,
        ends_len: usize,
        outcome: *mut RawOutcome,
    ) -> u32;
    pub(crate) fn markdown_inline_htmls(
        input: *const RawInput,
        targets: *const RawTarget,
        targets_len: usize,
        contents: *const RawContent,
        contents_len: usize,
        options: u32,
        limit: usize,
        html: *mut u8,
        html_len: usize,
        ends: *mut usize,
        ends_len: usize,
        outcome: *mut RawOutcome,
    ) -> u32;
}

#[cfg(test)]
mod tests {
    use super::markdown_inline_is_text;
    use crate::Error;

    // No slice is so long. The library looks at the length before the bytes, so it may be lent fewer.
    #[test]
    fn a_document_that_is_too_long_is_refused() {
        let piece = crate::inline::Piece::default();
        let len = (usize::MAX >> 3) + 1;
        // SAFETY: with this length no byte is read.
        let status = unsafe { markdown_inline_is_text([0u8].as_ptr(), len, &piece, 1) };
        assert_eq!(Error::of(status), Error::TooLong);
    }
}
