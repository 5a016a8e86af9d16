//! The inline constructs of a tree.

use super::builder::Builder;
use super::{LinkItem, Text, What};
use crate::inline::{is_literal, left_of, reference_with, scheme_of};
use crate::inline::{Name, Piece, ShortEvent, ShortIter};
use crate::{Error, LinkType};
use std::borrow::Cow;

/// What is known of the events so far of a text.
#[derive(Default)]
struct Inline<'p> {
    pieces: &'p [Piece],
    /// Where the events that are open begin.
    starts: Vec<usize>,
    links: Vec<OpenLink>,
    /// How many of these are links, and not images.
    link_count: usize,
    /// How many constructs are open inside which there is no text.
    silent: usize,
    is_in_string: bool,
    /// Where the inside of a span or an autolink begins and ends.
    inside: Option<(usize, usize)>,
    /// The character that a reference stands for, if it is one.
    stands_for: Option<char>,
    is_checked: bool,
    is_after_break: bool,
}

/// A link or an image that is open.
struct OpenLink {
    number: usize,
    /// Where its label begins and ends, if it is a reference.
    label: (usize, usize),
}

impl Builder<'_> {
    /// Adds the constructs of a text.
    pub fn inline(&mut self, pieces: &[Piece], events: ShortIter) -> Result<(), Error> {
        let mut state = Inline {
            pieces,
            ..Inline::default()
        };
        for event in events {
            if event.is_enter() {
                state.starts.push(event.index);
                self.enter(&mut state, event)?;
            } else if let Some(start) = state.starts.pop() {
                self.exit(&mut state, event.name, start, event.index)?;
            }
        }
        Ok(())
    }

    fn enter(&mut self, state: &mut Inline, event: ShortEvent) -> Result<(), Error> {
        let at = event.index;
        if is_silent(event.name) {
            state.silent += 1;
        }
        match event.name {
            Name::Emphasis => self.open(What::Emphasis, at),
            Name::Strong => self.open(What::Strong, at),
            Name::GfmStrikethrough => self.open(What::Strikethrough, at),
            Name::Link | Name::Image => self.open_link(state, event)?,
            Name::CodeText | Name::MathText => state.inside = None,
            Name::CharacterReference => state.stands_for = event.stands_for,
            Name::Resource => self.change_link(state, |link| link.link_type = LinkType::Inline),
            Name::Reference => {
                self.change_link(state, |link| link.link_type = LinkType::Collapsed);
            }
            Name::ResourceTitle => {
                let empty = self.make("");
                self.change_link(state, |link| link.title = Some(empty));
            }
            Name::ResourceDestinationString => {
                let url = self.begin_string();
                state.is_in_string = true;
                self.change_link(state, |link| link.url = url);
            }
            Name::ResourceTitleString => {
                let title = self.begin_string();
                state.is_in_string = true;
                self.change_link(state, |link| link.title = Some(title));
            }
            _ => {}
        }
        Ok(())
    }

    fn exit(
        &mut self,
        state: &mut Inline,
        name: Name,
        start: usize,
        end: usize,
    ) -> Result<(), Error> {
        if is_silent(name) {
            state.silent -= 1;
        }
        match name {
            Name::Emphasis | Name::Strong | Name::GfmStrikethrough => self.close(end),
            Name::Data | Name::LineEnding if state.is_in_string => self.push_part(start, end),
            Name::Data if state.silent == 0 => self.data(start, start, end),
            Name::LineEnding if state.silent == 0 => self.line_ending(state, start, end),
            Name::HardBreakEscape | Name::HardBreakTrailing => {
                self.push(What::HardBreak, start, end);
                state.is_after_break = true;
            }
            Name::CharacterEscape => self.data(start, start + 1, end),
            Name::CharacterReference => self.reference(state, start, end)?,
            Name::CodeTextSequence | Name::MathTextSequence => {
                let (from, to) = state.inside.map_or((end, end), |(from, _)| (from, start));
                state.inside = Some((from, to));
            }
            Name::CodeText | Name::MathText => self.span(state, name, start, end),
            Name::HtmlText => {
                let html = self.within(state.pieces, start, end);
                let html = self.keep(html, start);
                self.push(What::Html(html), start, end);
            }
            Name::GfmTaskListItemValueChecked => state.is_checked = true,
            Name::GfmTaskListItemCheck => self.check(state.is_checked, start, end),
            name => self.exit_link(state, name, start, end),
        }
        Ok(())
    }

    /// Ends a link, an image, or a part of them.
    fn exit_link(&mut self, state: &mut Inline, name: Name, start: usize, end: usize) {
        match name {
            Name::Link | Name::Image => self.close_link(state, end),
            Name::LabelText => state.set_label(start, end),
            Name::ReferenceString => {
                state.set_label(start, end);
                self.change_link(state, |link| link.link_type = LinkType::Reference);
            }
            Name::ResourceDestinationString | Name::ResourceTitleString => {
                state.is_in_string = false;
            }
            Name::AutolinkProtocol | Name::AutolinkEmail => {
                self.autolink(name, (start - 1, end + 1), (start, end));
            }
            name if is_literal(name) => match state.link_count {
                0 => self.autolink(name, (start, end), (start, end)),
                _ => self.data(start, start, end),
            },
            _ => {}
        }
    }

    /// Adds a text, which says what is from a byte on.
    fn data(&mut self, start: usize, from: usize, end: usize) {
        let text = self.text(from, end);
        self.push_text(What::Text(text), start, end);
    }

    /// A hard break goes on to the end of its line ending.
    fn line_ending(&mut self, state: &mut Inline, start: usize, end: usize) {
        match self.items.last_mut().filter(|_| state.is_after_break) {
            Some(hard_break) => hard_break.end = end,
            None => self.push_text(What::SoftBreak, start, end),
        }
        state.is_after_break = false;
    }

    fn reference(&mut self, state: &Inline, start: usize, end: usize) -> Result<(), Error> {
        let text = match state.stands_for {
            Some(character) => character.to_string(),
            None => reference_with(self.constructs, &self.rows.text[start..end])?,
        };
        let text = self.make(&text);
        self.push_text(What::Text(text), start, end);
        Ok(())
    }

    /// A text that is in the document from a byte on, or was made of it.
    fn keep(&mut self, text: Cow<str>, start: usize) -> Text {
        match text {
            Cow::Borrowed(text) => self.text(start, start + text.len()),
            Cow::Owned(text) => self.make(&text),
        }
    }

    /// Code or math, with a space for each line ending, and without one space at each end, if both are there and not all are spaces (CommonMark 6.1).
    fn span(&mut self, state: &Inline, name: Name, start: usize, end: usize) {
        let (from, to) = state.inside.unwrap_or((start, end));
        let mut text = self.within(state.pieces, from, to);
        if text.contains('\n') {
            text = Cow::Owned(text.replace('\n', " "));
        }
        let is_padded =
            text.starts_with(' ') && text.ends_with(' ') && !text.trim_matches(' ').is_empty();
        let padding = usize::from(is_padded);
        let text = match text {
            Cow::Borrowed(text) => self.text(from + padding, from + text.len() - padding),
            Cow::Owned(text) => self.make(&text[padding..text.len() - padding]),
        };
        let what = match name {
            Name::CodeText => What::Code(text),
            _ => What::Math(text),
        };
        self.push(what, start, end);
    }

    fn check(&mut self, is_checked: bool, start: usize, end: usize) {
        let mut open = self.open.iter().rev();
        let item = open.find(|it| matches!(self.items[**it].what, What::ListItem { .. }));
        if let Some(number) = item {
            let checked = Some(is_checked);
            self.items[*number].what = What::ListItem { checked };
        }
        self.push(What::Check(is_checked), start, end);
    }

    /// Opens a link or an image, which leads where its definition says, if it refers to one.
    fn open_link(&mut self, state: &mut Inline, event: ShortEvent) -> Result<(), Error> {
        let (mut url, mut title) = (self.make(""), None);
        if let Some(number) = event.definition {
            let target = self.rows.targets[number];
            self.left = left_of(self.left, &target, number)?;
            (url, title) = self.target(&target);
        }
        state.link_count += usize::from(event.name == Name::Link);
        state.links.push(OpenLink {
            number: self.links.len(),
            label: (event.index, event.index),
        });
        self.push_link(
            LinkItem {
                item: self.items.len(),
                is_image: event.name == Name::Image,
                link_type: LinkType::Shortcut,
                url,
                title,
                label: None,
            },
            event.index,
        );
        Ok(())
    }

    fn push_link(&mut self, link: LinkItem, start: usize) {
        self.open(What::Link(self.links.len()), start);
        self.links.push(link);
    }

    /// Changes the innermost link or image that is open.
    fn change_link(&mut self, state: &Inline, change: impl FnOnce(&mut LinkItem)) {
        if let Some(link) = state.links.last() {
            change(&mut self.links[link.number]);
        }
    }

    fn close_link(&mut self, state: &mut Inline, end: usize) {
        if let Some(OpenLink { number, label }) = state.links.pop() {
            state.link_count -= usize::from(!self.links[number].is_image);
            if self.links[number].link_type != LinkType::Inline {
                let text = self.within(state.pieces, label.0, label.1);
                self.links[number].label = Some(self.keep(text, label.0));
            }
        }
        self.close(end);
    }

    /// Adds a link whose text is its address.
    fn autolink(&mut self, name: Name, whole: (usize, usize), address: (usize, usize)) {
        let text = self.text(address.0, address.1);
        let link_type = match name {
            Name::AutolinkEmail | Name::GfmAutolinkLiteralEmail => LinkType::Email,
            _ => LinkType::Autolink,
        };
        let url = match scheme_of(name) {
            "" => text,
            scheme => self.make(&format!(
                "{scheme}{}",
                &self.rows.text[address.0..address.1]
            )),
        };
        self.push_link(
            LinkItem {
                item: self.items.len(),
                is_image: false,
                link_type,
                url,
                title: None,
                label: None,
            },
            whole.0,
        );
        self.push_text(What::Text(text), address.0, address.1);
        self.close(whole.1);
    }
}

impl Inline<'_> {
    /// Sets the label of the innermost link or image that is open.
    fn set_label(&mut self, start: usize, end: usize) {
        if let Some(link) = self.links.last_mut() {
            link.label = (start, end);
        }
    }
}

/// Whether the line endings inside are no soft breaks, and data inside is no text.
fn is_silent(name: Name) -> bool {
    matches!(
        name,
        Name::CodeText | Name::HtmlText | Name::MathText | Name::Reference | Name::Resource
    )
}
