//! Events in 16 bytes each.

use super::event::{Content, Kind};
use super::lists::walks;
use super::Name;
use crate::fill::range_of;
use crate::raw::RawShortEvent;
use std::fmt;
use std::iter::FusedIterator;
use std::slice;

/// The beginning or the end of something in a document, without its line, its column and its chain.
#[derive(Clone, Copy, Debug, PartialEq, Eq, Hash)]
pub struct ShortEvent {
    /// Whether it begins or ends.
    pub kind: Kind,
    /// What begins or ends.
    pub name: Name,
    /// How it is to be read again, if it is.
    pub link: Option<Content>,
    /// How many columns of the tab at `index` come before the place; 0 outside of tabs.
    pub vs: u8,
    /// Where a link or an image begins that refers to a definition, the number of that, in the order in which they were given; where a footnote call begins, the
    /// number of the footnote. Of several with one identifier it is the first.
    pub definition: Option<usize>,
    /// Where a character reference begins, the character that it stands for; none where it stands for two.
    pub stands_for: Option<char>,
    /// The byte, from 0.
    pub index: usize,
}

/// The short events of many contents, of each by itself.
#[derive(Clone, Default, PartialEq, Eq)]
pub struct ShortTexts {
    pub(crate) events: Vec<RawShortEvent>,
    pub(crate) ends: Vec<usize>,
}

impl ShortEvent {
    fn of(raw: &RawShortEvent) -> ShortEvent {
        let name = Name::ALL[usize::from(raw.name)];
        let told = Some(raw.definition).filter(|told| *told != u32::MAX);
        let (definition, stands_for) = match name {
            Name::CharacterReference => (None, told.and_then(char::from_u32)),
            _ => (told.map(|told| told as usize), None),
        };
        ShortEvent {
            kind: Kind::of(raw.kind),
            name,
            link: Content::of(raw.link),
            vs: raw.vs,
            definition,
            stands_for,
            index: raw.index,
        }
    }

    /// Whether it begins what it names.
    #[must_use]
    pub fn is_enter(&self) -> bool {
        self.kind == Kind::Enter
    }

    /// Whether it ends what it names.
    #[must_use]
    pub fn is_exit(&self) -> bool {
        self.kind == Kind::Exit
    }
}

impl ShortTexts {
    /// No contents, and no memory for any.
    #[must_use]
    pub fn new() -> ShortTexts {
        ShortTexts::default()
    }

    /// The events of the content with this number, one after another.
    #[must_use]
    pub fn get(&self, number: usize) -> Option<ShortIter<'_>> {
        let events = &self.events[range_of(&self.ends, number)?];
        Some(ShortIter(events.iter()))
    }
}

walks! {
    /// The contents one after another, of each its events.
    ShortTextsIter over ShortTexts gives ShortIter<'a>
}

/// The short events of a content one after another.
#[derive(Clone, Debug)]
pub struct ShortIter<'a>(slice::Iter<'a, RawShortEvent>);

impl Iterator for ShortIter<'_> {
    type Item = ShortEvent;

    fn next(&mut self) -> Option<ShortEvent> {
        self.0.next().map(ShortEvent::of)
    }

    fn nth(&mut self, number: usize) -> Option<ShortEvent> {
        self.0.nth(number).map(ShortEvent::of)
    }

    fn size_hint(&self) -> (usize, Option<usize>) {
        self.0.size_hint()
    }
}

impl DoubleEndedIterator for ShortIter<'_> {
    fn next_back(&mut self) -> Option<ShortEvent> {
        self.0.next_back().map(ShortEvent::of)
    }
}

impl ExactSizeIterator for ShortIter<'_> {}

impl FusedIterator for ShortIter<'_> {}

impl fmt::Debug for ShortTexts {
    fn fmt(&self, f: &mut fmt::Formatter<'_>) -> fmt::Result {
        f.debug_list()
            .entries(self.iter().map(Vec::from_iter))
            .finish()
    }
}
