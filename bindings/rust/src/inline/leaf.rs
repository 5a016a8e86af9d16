//! Leaves, and lists of them.

use super::{Name, Point};
use crate::raw::RawLeaf;
use std::fmt;
use std::iter::FusedIterator;
use std::slice;

/// An event with no other inside it, from where it begins to where it ends, and its bytes.
#[derive(Clone, Copy, Debug, PartialEq, Eq, Hash)]
pub struct Leaf<'a> {
    /// What it is.
    pub name: Name,
    /// Where it begins.
    pub start: Point,
    /// Where it ends.
    pub end: Point,
    /// How many virtual spaces come before its bytes, of a tab that is not among them.
    pub before: usize,
    /// Its bytes, as the document has them.
    pub bytes: &'a [u8],
    /// How many virtual spaces of the tab that ends its bytes it has.
    pub after: usize,
}

impl<'a> Leaf<'a> {
    fn of(document: &'a [u8], raw: &RawLeaf) -> Leaf<'a> {
        let from = raw.start + usize::from(raw.start_vs > 0);
        Leaf {
            name: Name::ALL[usize::from(raw.name)],
            start: Point {
                line: raw.start_line,
                column: raw.start_column,
                index: raw.start,
                vs: raw.start_vs,
            },
            end: Point {
                line: raw.end_line,
                column: raw.end_column,
                index: raw.end,
                vs: raw.end_vs,
            },
            before: raw.before,
            bytes: &document[from..from + raw.bytes_len],
            after: raw.after,
        }
    }
}

/// The leaves of a content's inline tree, in order: together they cover the content.
#[derive(Clone, Default, PartialEq, Eq)]
pub struct Leaves<'a> {
    pub(crate) document: &'a [u8],
    pub(crate) raw: Vec<RawLeaf>,
}

/// The leaves one after another.
#[derive(Clone, Debug)]
pub struct LeafIter<'a, 'b> {
    document: &'a [u8],
    left: slice::Iter<'b, RawLeaf>,
}

impl<'a> Iterator for LeafIter<'a, '_> {
    type Item = Leaf<'a>;

    fn next(&mut self) -> Option<Leaf<'a>> {
        self.left.next().map(|raw| Leaf::of(self.document, raw))
    }

    fn size_hint(&self) -> (usize, Option<usize>) {
        self.left.size_hint()
    }
}

impl DoubleEndedIterator for LeafIter<'_, '_> {
    fn next_back(&mut self) -> Option<Self::Item> {
        self.left
            .next_back()
            .map(|raw| Leaf::of(self.document, raw))
    }
}

impl ExactSizeIterator for LeafIter<'_, '_> {}

impl FusedIterator for LeafIter<'_, '_> {}

impl<'a> Leaves<'a> {
    /// No leaves, and no memory for any.
    #[must_use]
    pub fn new() -> Leaves<'a> {
        Leaves::default()
    }

    /// How many they are.
    #[must_use]
    pub fn len(&self) -> usize {
        self.raw.len()
    }

    /// Whether there are none.
    #[must_use]
    pub fn is_empty(&self) -> bool {
        self.raw.is_empty()
    }

    /// The leaves one after another.
    #[must_use]
    pub fn iter(&self) -> LeafIter<'a, '_> {
        LeafIter {
            document: self.document,
            left: self.raw.iter(),
        }
    }
}

impl<'a, 'b> IntoIterator for &'b Leaves<'a> {
    type Item = Leaf<'a>;
    type IntoIter = LeafIter<'a, 'b>;

    fn into_iter(self) -> LeafIter<'a, 'b> {
        self.iter()
    }
}

impl fmt::Debug for Leaves<'_> {
    fn fmt(&self, f: &mut fmt::Formatter<'_>) -> fmt::Result {
        f.debug_list().entries(self).finish()
    }
}
