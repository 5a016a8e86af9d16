//! What a tree is built of: items, which are opened and closed, and texts.

use super::{DefinitionItem, Item, LinkItem, Text, Tree, What};
use crate::inline::{strings_with, Constructs, Piece, StringOptions};
use crate::raw::{RawBlock, RawRange, RawTarget};
use crate::rows::Rows;
use crate::{Error, Options};
use std::borrow::Cow;
use std::ops::Range;

pub(super) struct Builder<'r> {
    pub rows: &'r Rows<'r>,
    pub constructs: Constructs,
    /// How many bytes references may still expand to, if there is a limit.
    pub left: Option<usize>,
    pub items: Vec<Item>,
    pub links: Vec<LinkItem>,
    /// The numbers of the items that are open.
    pub open: Vec<usize>,
    pub definitions: Vec<DefinitionItem>,
    /// The quotes and list items that are open.
    pub containers: Vec<&'r RawBlock>,
    /// How many of these are quotes.
    pub quotes: usize,
    /// The line on which the last block begins, and where what it holds begins there.
    pub line: usize,
    pub at: usize,
    /// Where what was last read ends.
    pub end: usize,
    /// The first of the texts and soft breaks that may go on.
    run: Option<usize>,
    made: String,
    parts: Vec<Range<usize>>,
    strings: Vec<Range<usize>>,
}

impl<'r> Builder<'r> {
    pub fn new(rows: &'r Rows<'r>, options: &Options) -> Builder<'r> {
        let input = rows.input().reference_limit(options.limit.raw());
        Builder {
            rows,
            constructs: options.constructs(),
            left: input.limit_given(),
            items: Vec::new(),
            links: Vec::new(),
            open: Vec::new(),
            definitions: Vec::new(),
            containers: Vec::new(),
            quotes: 0,
            line: 0,
            at: 0,
            end: 0,
            run: None,
            made: String::new(),
            parts: Vec::new(),
            strings: Vec::new(),
        }
    }

    pub fn finish(self) -> Result<Tree, Error> {
        let how = StringOptions::default().line_feeds(true).replaced_nul(true);
        let (text, parts, strings) = (self.rows.text, &self.parts, &self.strings);
        Ok(Tree {
            strings: strings_with(self.constructs, how, text, parts, strings)?,
            items: self.items,
            links: self.links,
            definitions: self.definitions,
            made: self.made,
        })
    }

    /// Adds an item that holds no others.
    pub fn push(&mut self, what: What, start: usize, end: usize) {
        let after = self.items.len() + 1;
        self.run = None;
        self.items.push(Item {
            what,
            start,
            end,
            after,
        });
    }

    /// Adds a text or a soft break, which go on with those before them.
    pub fn push_text(&mut self, what: What, start: usize, end: usize) {
        let first = self.run.unwrap_or(self.items.len());
        self.push(what, start, end);
        self.items[first].after = self.items.len();
        self.run = Some(first);
    }

    /// Adds an item that holds those that follow, until it is closed.
    pub fn open(&mut self, what: What, start: usize) {
        self.open.push(self.items.len());
        self.push(what, start, start);
    }

    pub fn close(&mut self, end: usize) {
        if let Some(number) = self.open.pop() {
            self.items[number].end = end;
            self.items[number].after = self.items.len();
        }
        self.run = None;
        self.end = end;
    }

    /// A part of the document as a text, in which NUL is U+FFFD (CommonMark 2.3).
    pub fn text(&mut self, start: usize, end: usize) -> Text {
        let text = &self.rows.text[start..end];
        match text.contains('\0') {
            true => self.make(text),
            false => Text::Document(RawRange { start, end }),
        }
    }

    /// A part of the texts of the definitions, alike.
    pub fn label(&mut self, range: RawRange) -> Text {
        let text = &self.rows.labels[range.start..range.end];
        match text.contains('\0') {
            true => self.make(text),
            false => Text::Label(range),
        }
    }

    /// The destination and the title of a definition.
    pub fn target(&mut self, target: &RawTarget) -> (Text, Option<Text>) {
        let url = self.label(target.destination);
        let title = (target.has_title > 0).then(|| self.label(target.title));
        (url, title)
    }

    pub fn make(&mut self, text: &str) -> Text {
        let start = self.made.len();
        self.made += &text.replace('\0', "\u{fffd}");
        let end = self.made.len();
        Text::Made(RawRange { start, end })
    }

    /// Begins a string, of which the parts follow.
    pub fn begin_string(&mut self) -> Text {
        self.strings.push(self.parts.len()..self.parts.len());
        Text::String(self.strings.len() - 1)
    }

    pub fn push_part(&mut self, start: usize, end: usize) {
        self.parts.push(start..end);
        if let Some(string) = self.strings.last_mut() {
            string.end = self.parts.len();
        }
    }

    /// What a content has from a byte to a byte: nothing of what its pieces leave out, and a line feed for each line ending.
    pub fn within(&self, pieces: &[Piece], start: usize, end: usize) -> Cow<'r, str> {
        let text = self.rows.text;
        let first = pieces.partition_point(|piece| piece.end <= start);
        let parts = pieces[first..].iter().take_while(|it| it.start < end);
        let mut parts = parts.map(|it| &text[it.start.max(start)..it.end.min(end)]);
        match (parts.next(), parts.next()) {
            (None, _) => Cow::Borrowed(""),
            (Some(one), None) if !one.contains('\r') => Cow::Borrowed(one),
            (Some(one), next) => {
                let all = [one].into_iter().chain(next).chain(parts);
                Cow::Owned(all.map(with_line_feed).collect())
            }
        }
    }
}

/// A line, with a line feed for its ending, if it has one.
pub(super) fn with_line_feed(line: &str) -> Cow<'_, str> {
    let text = line.strip_suffix('\n').unwrap_or(line);
    match text.strip_suffix('\r') {
        Some(text) => Cow::Owned(format!("{text}\n")),
        None => Cow::Borrowed(line),
    }
}
