//! Events, and lists of them.

use super::Name;
use crate::fill::number_of;
use crate::raw::RawEvent;
use std::fmt;
use std::iter::FusedIterator;
use std::slice;

/// Whether an event begins or ends what it names.
#[derive(Clone, Copy, Debug, PartialEq, Eq, Hash)]
pub enum Kind {
    /// It begins.
    Enter,
    /// It ends.
    Exit,
}

/// How linked content is to be read.
#[derive(Clone, Copy, Debug, PartialEq, Eq, Hash)]
pub enum Content {
    /// As a string: escapes and references count, nothing else.
    String,
    /// As text: every inline construct counts.
    Text,
}

/// A place between two codes of a document.
#[derive(Clone, Copy, Debug, PartialEq, Eq, Hash)]
pub struct Point {
    /// The line, from 1.
    pub line: usize,
    /// The column, from 1: one more than the bytes, tabs' columns counted, before the place on its line.
    pub column: usize,
    /// The byte, from 0.
    pub index: usize,
    /// How many columns of the tab at `index` come before the place; 0 outside of tabs.
    pub vs: usize,
}

/// The chain of an Enter event: what is linked is one string or text, perhaps on several lines. The numbers are those of Enter events in the
/// list, to be asked for by [`Events::get`] or walked by [`Events::chain`].
#[derive(Clone, Copy, Debug, PartialEq, Eq, Hash)]
pub struct Link {
    /// How the linked content is to be read.
    pub content: Content,
    /// The event before on the chain.
    pub previous: Option<usize>,
    /// The event after on the chain.
    pub next: Option<usize>,
}

/// The beginning or the end of something in a document.
#[derive(Clone, Copy, Debug, PartialEq, Eq, Hash)]
pub struct Event {
    /// Whether it begins or ends.
    pub kind: Kind,
    /// What begins or ends.
    pub name: Name,
    /// Where: the place of the first code at an Enter, the place after the last one at an Exit.
    pub point: Point,
    /// Its chain. Only an Enter has one.
    pub link: Option<Link>,
}

impl Kind {
    pub(crate) fn of(number: u8) -> Kind {
        match number {
            0 => Kind::Enter,
            _ => Kind::Exit,
        }
    }
}

impl Content {
    pub(crate) fn of(number: u8) -> Option<Content> {
        match number {
            0 => None,
            1 => Some(Content::String),
            _ => Some(Content::Text),
        }
    }
}

impl Event {
    /// Whether it begins what it names.
    #[must_use]
    pub fn is_enter(&self) -> bool {
        self.kind == Kind::Enter
    }

    /// Whether it ends what it names.
    #[must_use]
    pub fn is_exit(&self) -> bool {
        self.kind == Kind::Exit
    }

    fn of(raw: &RawEvent) -> Event {
        Event {
            kind: Kind::of(raw.kind),
            name: Name::ALL[usize::from(raw.name)],
            point: Point {
                line: raw.line,
                column: raw.column,
                index: raw.index,
                vs: raw.vs,
            },
            link: Content::of(raw.link).map(|content| Link {
                content,
                previous: number_of(raw.previous),
                next: number_of(raw.next),
            }),
        }
    }
}

/// The events of a content's inline tree, in order.
#[derive(Clone, Default, PartialEq, Eq)]
pub struct Events {
    pub(crate) raw: Vec<RawEvent>,
}

/// The events of a content's inline tree, in order, that a list of events lends.
#[derive(Clone, Copy, PartialEq, Eq)]
pub struct EventSlice<'a> {
    raw: &'a [RawEvent],
}

/// The events one after another.
#[derive(Clone, Debug)]
pub struct Iter<'a>(slice::Iter<'a, RawEvent>);

/// The events of a chain one after another, each with its number.
#[derive(Clone, Debug)]
pub struct Chain<'a> {
    events: EventSlice<'a>,
    number: Option<usize>,
}

impl Iterator for Iter<'_> {
    type Item = Event;

    fn next(&mut self) -> Option<Event> {
        self.0.next().map(Event::of)
    }

    fn nth(&mut self, number: usize) -> Option<Event> {
        self.0.nth(number).map(Event::of)
    }

    fn size_hint(&self) -> (usize, Option<usize>) {
        self.0.size_hint()
    }
}

impl DoubleEndedIterator for Iter<'_> {
    fn next_back(&mut self) -> Option<Event> {
        self.0.next_back().map(Event::of)
    }
}

impl ExactSizeIterator for Iter<'_> {}

impl FusedIterator for Iter<'_> {}

impl Iterator for Chain<'_> {
    type Item = (usize, Event);

    fn next(&mut self) -> Option<(usize, Event)> {
        let number = self.number?;
        let event = self.events.get(number);
        self.number = event.and_then(|event| event.link?.next);
        Some((number, event?))
    }
}

impl FusedIterator for Chain<'_> {}

impl<'a> EventSlice<'a> {
    pub(crate) fn of(raw: &'a [RawEvent]) -> EventSlice<'a> {
        EventSlice { raw }
    }

    /// How many they are.
    #[must_use]
    pub fn len(&self) -> usize {
        self.raw.len()
    }

    /// Whether there are none.
    #[must_use]
    pub fn is_empty(&self) -> bool {
        self.raw.is_empty()
    }

    /// The event with this number, as links name it.
    pub fn get(&self, number: usize) -> Option<Event> {
        self.raw.get(number).map(Event::of)
    }

    /// The events one after another.
    #[must_use]
    pub fn iter(&self) -> Iter<'a> {
        Iter(self.raw.iter())
    }

    /// The event with this number, and those after it on its chain.
    #[must_use]
    pub fn chain(&self, number: usize) -> Chain<'a> {
        Chain {
            events: *self,
            number: Some(number),
        }
    }
}

impl Events {
    /// No events, and no memory for any.
    #[must_use]
    pub fn new() -> Events {
        Events::default()
    }

    /// The events, lent.
    #[must_use]
    pub fn as_slice(&self) -> EventSlice<'_> {
        EventSlice::of(&self.raw)
    }

    /// How many they are.
    #[must_use]
    pub fn len(&self) -> usize {
        self.raw.len()
    }

    /// Whether there are none.
    #[must_use]
    pub fn is_empty(&self) -> bool {
        self.raw.is_empty()
    }

    /// The event with this number, as links name it.
    #[must_use]
    pub fn get(&self, number: usize) -> Option<Event> {
        self.as_slice().get(number)
    }

    /// The events one after another.
    #[must_use]
    pub fn iter(&self) -> Iter<'_> {
        self.as_slice().iter()
    }

    /// The event with this number, and those after it on its chain: what is linked is one string, of which each line is some of these events.
    ///
    /// ```
    /// use markdown_inline::inline::{Name, text};
    /// # fn main() -> Result<(), markdown_inline::Error> {
    /// let events = text("[a](b \"c\nd\")")?;
    /// let title = events.iter().position(|event| event.name == Name::ResourceTitleString).unwrap();
    /// let names: Vec<_> = events.chain(title + 1).map(|(_, event)| event.name).collect();
    /// assert_eq!(names, [Name::Data, Name::LineEnding, Name::Data]);
    /// # Ok(())
    /// # }
    /// ```
    #[must_use]
    pub fn chain(&self, number: usize) -> Chain<'_> {
        self.as_slice().chain(number)
    }
}

impl<'a> IntoIterator for &'a Events {
    type Item = Event;
    type IntoIter = Iter<'a>;

    fn into_iter(self) -> Iter<'a> {
        self.iter()
    }
}

impl<'a> IntoIterator for &EventSlice<'a> {
    type Item = Event;
    type IntoIter = Iter<'a>;

    fn into_iter(self) -> Iter<'a> {
        self.iter()
    }
}

impl<'a> IntoIterator for EventSlice<'a> {
    type Item = Event;
    type IntoIter = Iter<'a>;

    fn into_iter(self) -> Iter<'a> {
        self.iter()
    }
}

impl fmt::Debug for Events {
    fn fmt(&self, f: &mut fmt::Formatter<'_>) -> fmt::Result {
        f.debug_list().entries(self).finish()
    }
}

impl fmt::Debug for EventSlice<'_> {
    fn fmt(&self, f: &mut fmt::Formatter<'_>) -> fmt::Result {
        f.debug_list().entries(self.iter()).finish()
    }
}

/// The line that the program `mdinline` prints for the event.
impl fmt::Display for Event {
    fn fmt(&self, f: &mut fmt::Formatter<'_>) -> fmt::Result {
        let Point {
            line,
            column,
            index,
            vs,
        } = self.point;
        write!(
            f,
            "{:?} {} {line} {column} {index} {vs}",
            self.kind, self.name
        )?;
        if let Some(link) = self.link {
            write!(f, " link {:?}", link.content)?;
            for number in [link.previous, link.next] {
                match number {
                    Some(number) => write!(f, " {number}")?,
                    None => f.write_str(" -")?,
                }
            }
        }
        Ok(())
    }
}
