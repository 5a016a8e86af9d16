//! Where links lead.

use super::{strings_with, Event, Input, Name, Point, ShortEvent, StringOptions, TextContent};
use crate::raw::{RawRange, RawTarget};
use crate::{Error, Refusal};
use std::ops::Range;

/// A link, an image, an autolink or a literal, and where it leads.
#[derive(Clone, Debug, PartialEq, Eq, Hash)]
#[non_exhaustive]
pub struct FoundLink {
    /// The number of the content that it is in.
    pub content: usize,
    /// What it is: `Link`, `Image`, `Autolink`, or one of the literals.
    pub name: Name,
    /// Where it begins.
    pub start: Point,
    /// Where it ends.
    pub end: Point,
    /// Where it leads, with escapes and character references resolved. An address without a scheme has the one that is meant, `mailto:` or `http://`.
    pub destination: String,
    /// Its title, resolved alike, if it has one.
    pub title: Option<String>,
    /// The number of the definition that it refers to, in the order in which they were given; none where it says itself where it leads.
    pub definition: Option<usize>,
}

/// What is met on a walk over events.
#[derive(Default)]
struct Walk {
    found: Vec<FoundLink>,
    /// The numbers of those that have not ended.
    open: Vec<usize>,
    /// Of each that is found the numbers of the strings of its destination and its title.
    named: Vec<[Option<usize>; 2]>,
    parts: Vec<Range<usize>>,
    strings: Vec<Range<usize>>,
    is_in_string: bool,
}

pub(crate) fn is_literal(name: Name) -> bool {
    name.as_str().starts_with("GfmAutolinkLiteral")
}

fn is_link(name: Name) -> bool {
    matches!(name, Name::Link | Name::Image | Name::Autolink) || is_literal(name)
}

/// The scheme that an address of this name leaves out.
pub(crate) fn scheme_of(name: Name) -> &'static str {
    match name {
        Name::AutolinkEmail | Name::GfmAutolinkLiteralEmail => "mailto:",
        Name::GfmAutolinkLiteralWww => "http://",
        _ => "",
    }
}

impl Walk {
    /// Passes the events of a content.
    fn pass(
        &mut self,
        document: &[u8],
        content: usize,
        events: impl Iterator<Item = (Event, ShortEvent)>,
    ) {
        let (mut starts, mut depth) = (Vec::new(), 0);
        for (event, short) in events {
            if is_literal(event.name) && depth > 0 {
                continue;
            }
            if event.is_enter() {
                starts.push(event.point.index);
                depth += usize::from(event.name == Name::Link);
                self.enter(content, event, short);
            } else {
                depth -= usize::from(event.name == Name::Link);
                self.exit(document, starts.pop().unwrap_or(0), event);
            }
        }
    }

    fn enter(&mut self, content: usize, event: Event, short: ShortEvent) {
        if is_link(event.name) {
            self.open.push(self.found.len());
            self.named.push([None; 2]);
            self.found.push(FoundLink {
                content,
                name: event.name,
                start: event.point,
                end: event.point,
                destination: String::new(),
                title: None,
                definition: short.definition,
            });
        } else if let Some(which) = string_of(event.name) {
            if let Some(number) = self.open.last() {
                self.named[*number][which] = Some(self.strings.len());
            }
            self.strings.push(self.parts.len()..self.parts.len());
            self.is_in_string = true;
        } else if self.is_in_string {
            self.parts.push(event.point.index..event.point.index);
        }
    }

    fn exit(&mut self, document: &[u8], start: usize, event: Event) {
        let end = event.point.index;
        if matches!(event.name, Name::AutolinkEmail | Name::AutolinkProtocol)
            || is_literal(event.name)
        {
            if let Some(number) = self.open.last() {
                let address = String::from_utf8_lossy(&document[start..end]);
                self.found[*number].destination = format!("{}{address}", scheme_of(event.name));
            }
        }
        if is_link(event.name) {
            if let Some(number) = self.open.pop() {
                self.found[number].end = event.point;
            }
        } else if string_of(event.name).is_some() {
            self.is_in_string = false;
        } else if self.is_in_string {
            if let (Some(part), Some(string)) = (self.parts.last_mut(), self.strings.last_mut()) {
                part.end = end;
                string.end = self.parts.len();
            }
        }
    }
}

/// Which of the two strings of a link begins or ends here.
fn string_of(name: Name) -> Option<usize> {
    match name {
        Name::ResourceDestinationString => Some(0),
        Name::ResourceTitleString => Some(1),
        _ => None,
    }
}

/// What is left of a limit, if there is one, after a link in this content that refers to this definition.
pub(crate) fn left_of(
    limit: Option<usize>,
    target: &RawTarget,
    content: usize,
) -> Result<Option<usize>, Refusal> {
    let len = |range: RawRange| range.end - range.start;
    let title = if target.has_title == 0 {
        0
    } else {
        len(target.title)
    };
    let refusal = Refusal {
        error: Error::References,
        at: Some(content),
    };
    let left = limit.map(|limit| limit.checked_sub(len(target.destination) + title));
    left.map(|left| left.ok_or(refusal)).transpose()
}

impl Input<'_> {
    /// The links, images, autolinks and literals of many contents as texts, in order, with where each leads. A literal in the text of a link is none.
    ///
    /// # Errors
    ///
    /// Those of `texts`, `Definition` where the destination or the title of a definition is no UTF-8, and `References` where references expand to more
    /// than `reference_limit` says, since each link and image has a copy.
    ///
    /// ```
    /// use markdown_inline::inline::{Input, TextContent};
    /// # fn main() -> Result<(), markdown_inline::Refusal> {
    /// let input = Input::new("[a](/b \"c\")\n![d] <e@f.g>").definition_to("d", "/h", None);
    /// let links = input.links(&[TextContent::from(0..1)])?;
    /// let found = links.iter().map(|it| (it.start.line, it.start.column, it.destination.as_str(), it.definition));
    /// assert!(found.eq([(1, 1, "/b", None), (2, 1, "/h", Some(0)), (2, 6, "mailto:e@f.g", None)]));
    /// assert_eq!(links[0].title.as_deref(), Some("c"));
    /// # Ok(())
    /// # }
    /// ```
    pub fn links(&self, contents: &[TextContent]) -> Result<Vec<FoundLink>, Refusal> {
        let (all, shorts) = (self.texts(contents)?, self.short_texts(contents)?);
        let mut walk = Walk::default();
        for (content, (events, shorts)) in all.iter().zip(&shorts).enumerate() {
            walk.pass(self.document(), content, events.iter().zip(shorts));
        }
        self.led(walk)
    }

    /// The links with where they lead: what their own strings say, or their definitions.
    fn led(&self, walk: Walk) -> Result<Vec<FoundLink>, Refusal> {
        let mut found = walk.found;
        let texts = strings_with(
            self.options_given(),
            StringOptions::default(),
            self.document(),
            &walk.parts,
            &walk.strings,
        )?;
        let text = |number: usize| texts.get(number).unwrap_or("").to_string();
        let mut left = self.limit_given();
        for (link, [destination, title]) in found.iter_mut().zip(walk.named) {
            if let Some(number) = destination {
                link.destination = text(number);
            }
            link.title = title.map(text);
            if let Some(number) = link.definition {
                let target = self.target(number);
                left = left_of(left, &target, link.content)?;
                link.destination = self.label_text(target.destination, number)?;
                if target.has_title != 0 {
                    link.title = Some(self.label_text(target.title, number)?);
                }
            }
        }
        Ok(found)
    }

    fn label_text(&self, range: RawRange, definition: usize) -> Result<String, Refusal> {
        let text = String::from_utf8(self.label(range).to_vec());
        text.map_err(|_| Refusal {
            error: Error::Definition,
            at: Some(definition),
        })
    }
}
