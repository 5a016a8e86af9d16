//! Many contents of one document.

use super::event::EventSlice;
use super::lists::walks;
use crate::fill::range_of;
use crate::raw::{RawContent, RawEvent, RawRange};
use std::fmt;
use std::ops::Range;

/// One of many contents of a document.
#[derive(Clone, Debug, Default, PartialEq, Eq, Hash)]
pub struct TextContent {
    /// The numbers of its pieces among those of the input.
    pub pieces: Range<usize>,
    /// Whether it is the first of a list item, which may begin with a task list checkbox.
    pub first_of_item: bool,
}

impl From<Range<usize>> for TextContent {
    /// These pieces, not the first of a list item.
    fn from(pieces: Range<usize>) -> TextContent {
        TextContent {
            pieces,
            first_of_item: false,
        }
    }
}

/// The events of many contents, of each by itself: their numbers count within a content.
#[derive(Clone, Default, PartialEq, Eq)]
pub struct Texts {
    pub(crate) events: Vec<RawEvent>,
    pub(crate) ends: Vec<usize>,
}

impl RawContent {
    pub(crate) fn of(content: &TextContent) -> RawContent {
        RawContent {
            pieces: RawRange {
                start: content.pieces.start,
                end: content.pieces.end,
            },
            first_of_item: u32::from(content.first_of_item),
            reserved: 0,
        }
    }
}

impl Texts {
    /// No contents, and no memory for any.
    #[must_use]
    pub fn new() -> Texts {
        Texts::default()
    }

    /// The events of the content with this number.
    #[must_use]
    pub fn get(&self, number: usize) -> Option<EventSlice<'_>> {
        Some(EventSlice::of(&self.events[range_of(&self.ends, number)?]))
    }
}

walks! {
    /// The contents one after another, of each its events.
    TextsIter over Texts gives EventSlice<'a>
}

impl fmt::Debug for Texts {
    fn fmt(&self, f: &mut fmt::Formatter<'_>) -> fmt::Result {
        f.debug_list().entries(self.iter()).finish()
    }
}
