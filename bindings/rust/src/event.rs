//! The events of a document.

use crate::tree::{Item, LinkItem, Text, What};
use crate::{Document, Html};
use std::borrow::Cow;
use std::iter::FusedIterator;
use std::ops::Range;

/// What begins or ends in a document, or is in it.
#[derive(Clone, Debug, PartialEq, Eq, Hash)]
#[non_exhaustive]
pub enum Event<'a> {
    /// Something begins. What it holds follows, and then its [`End`](Event::End).
    Start(Tag<'a>),
    /// Something ends.
    End(TagEnd),
    /// Text, or a line of a code block or of front matter, with a line feed. Several may follow one another.
    Text(Cow<'a, str>),
    /// A code span (CommonMark 6.1).
    Code(Cow<'a, str>),
    /// A math span.
    InlineMath(Cow<'a, str>),
    /// A math block: its lines, each with a line feed.
    DisplayMath(Cow<'a, str>),
    /// A line of an HTML block, with a line feed (CommonMark 4.6). A document has it with [`Html::Raw`]; else the line is a `Text`.
    Html(Cow<'a, str>),
    /// Inline HTML (CommonMark 6.6). A document has it with [`Html::Raw`]; else it is a `Text`.
    InlineHtml(Cow<'a, str>),
    /// A line ending in a text (CommonMark 6.8).
    SoftBreak,
    /// A hard line break (CommonMark 6.7).
    HardBreak,
    /// A thematic break (CommonMark 4.1).
    Rule,
    /// The checkbox of a task list item, and whether it is checked (GFM 5.3).
    TaskListMarker(bool),
}

/// What begins.
#[derive(Clone, Debug, PartialEq, Eq, Hash)]
#[non_exhaustive]
pub enum Tag<'a> {
    /// A paragraph (CommonMark 4.8). Those directly in items of a tight list have no tag.
    Paragraph,
    /// A heading (CommonMark 4.2 and 4.3).
    Heading {
        /// Its level, 1 to 6.
        level: u8,
        /// An id for its HTML. A document gives none.
        id: Option<Cow<'a, str>>,
    },
    /// A block quote (CommonMark 5.1).
    BlockQuote,
    /// A code block (CommonMark 4.4 and 4.5).
    CodeBlock(CodeBlockKind<'a>),
    /// An HTML block (CommonMark 4.6).
    HtmlBlock,
    /// Front matter, whose lines are `Text`. HTML leaves it out.
    MetadataBlock(MetadataBlockKind),
    /// A list (CommonMark 5.3), with the number of its first item if it is ordered.
    List(Option<usize>),
    /// A list item (CommonMark 5.2).
    Item,
    /// Emphasis (CommonMark 6.2).
    Emphasis,
    /// Strong emphasis (CommonMark 6.2).
    Strong,
    /// Strikethrough (GFM 6.5).
    Strikethrough,
    /// A link (CommonMark 6.3).
    Link {
        /// How it is written.
        link_type: LinkType,
        /// Its destination. In a document it is empty if its scheme is not listed, unless [`Options::any_link`](crate::Options::any_link) is set.
        dest_url: Cow<'a, str>,
        /// Its title, if it has one.
        title: Option<Cow<'a, str>>,
        /// The label of a reference, as it is written; else nothing.
        id: Cow<'a, str>,
    },
    /// An image (CommonMark 6.4). What it holds describes it.
    Image {
        /// How it is written.
        link_type: LinkType,
        /// Its destination. In a document it is empty if its scheme is not listed, unless [`Options::any_link`](crate::Options::any_link) is set.
        dest_url: Cow<'a, str>,
        /// Its title, if it has one.
        title: Option<Cow<'a, str>>,
        /// The label of a reference, as it is written; else nothing.
        id: Cow<'a, str>,
    },
}

/// What ends.
#[derive(Clone, Copy, Debug, PartialEq, Eq, Hash)]
#[non_exhaustive]
pub enum TagEnd {
    /// A paragraph.
    Paragraph,
    /// A heading of this level.
    Heading(u8),
    /// A block quote.
    BlockQuote,
    /// A code block.
    CodeBlock,
    /// An HTML block.
    HtmlBlock,
    /// Front matter.
    MetadataBlock(MetadataBlockKind),
    /// A list, and whether it is ordered.
    List(bool),
    /// A list item.
    Item,
    /// Emphasis.
    Emphasis,
    /// Strong emphasis.
    Strong,
    /// Strikethrough.
    Strikethrough,
    /// A link.
    Link,
    /// An image.
    Image,
}

/// How code is written.
#[derive(Clone, Debug, PartialEq, Eq, Hash)]
pub enum CodeBlockKind<'a> {
    /// Indented (CommonMark 4.4).
    Indented,
    /// Between fences (CommonMark 4.5), with this info string, whose first word names the language.
    Fenced(Cow<'a, str>),
}

/// How front matter is written.
#[derive(Clone, Copy, Debug, PartialEq, Eq, Hash)]
pub enum MetadataBlockKind {
    /// Between two lines of `---`: YAML.
    YamlStyle,
    /// Between two lines of `+++`: TOML.
    PlusesStyle,
}

/// How a link or an image is written.
#[derive(Clone, Copy, Debug, PartialEq, Eq, Hash)]
#[non_exhaustive]
pub enum LinkType {
    /// `[a](b)`.
    Inline,
    /// `[a][b]`, a full reference.
    Reference,
    /// `[a][]`.
    Collapsed,
    /// `[a]`.
    Shortcut,
    /// `<a:b>`, or a bare URL.
    Autolink,
    /// `<a@b.c>`, or a bare email address. Its destination begins with `mailto:`.
    Email,
}

impl Tag<'_> {
    /// The end of what begins.
    #[must_use]
    pub fn to_end(&self) -> TagEnd {
        match self {
            Tag::Paragraph => TagEnd::Paragraph,
            Tag::Heading { level, .. } => TagEnd::Heading(*level),
            Tag::BlockQuote => TagEnd::BlockQuote,
            Tag::CodeBlock(_) => TagEnd::CodeBlock,
            Tag::HtmlBlock => TagEnd::HtmlBlock,
            Tag::MetadataBlock(kind) => TagEnd::MetadataBlock(*kind),
            Tag::List(start) => TagEnd::List(start.is_some()),
            Tag::Item => TagEnd::Item,
            Tag::Emphasis => TagEnd::Emphasis,
            Tag::Strong => TagEnd::Strong,
            Tag::Strikethrough => TagEnd::Strikethrough,
            Tag::Link { .. } => TagEnd::Link,
            Tag::Image { .. } => TagEnd::Image,
        }
    }
}

/// The events of a document, each with the bytes of what it is about: [`Document::offset_iter`].
#[derive(Clone, Debug)]
pub struct OffsetIter<'d> {
    document: &'d Document<'d>,
    next: usize,
    /// The numbers of the items that have not ended.
    open: Vec<usize>,
}

/// The events of a document: [`Document::events`].
#[derive(Clone, Debug)]
pub struct Events<'d>(OffsetIter<'d>);

impl<'d> OffsetIter<'d> {
    pub(crate) fn of(document: &'d Document<'d>) -> OffsetIter<'d> {
        OffsetIter {
            document,
            next: 0,
            open: Vec::new(),
        }
    }

    /// The next item that begins or ends, and its event, if it has one.
    fn step(&mut self) -> Option<(&'d Item, Option<Event<'d>>)> {
        let items = &self.document.tree.items;
        if let Some(number) = self.open.pop() {
            let item = &items[number];
            if item.after == self.next {
                let tag = self.document.tag(&item.what);
                return Some((item, tag.map(|tag| Event::End(tag.to_end()))));
            }
            self.open.push(number);
        }
        let item = items.get(self.next)?;
        if item.what.is_container() {
            self.open.push(self.next);
        }
        self.next += 1;
        Some((item, self.document.event(&item.what)))
    }
}

impl<'d> Iterator for OffsetIter<'d> {
    type Item = (Event<'d>, Range<usize>);

    fn next(&mut self) -> Option<Self::Item> {
        loop {
            if let (item, Some(event)) = self.step()? {
                return Some((event, item.start..item.end));
            }
        }
    }
}

impl FusedIterator for OffsetIter<'_> {}

impl<'d> Events<'d> {
    pub(crate) fn of(document: &'d Document<'d>) -> Events<'d> {
        Events(OffsetIter::of(document))
    }
}

impl<'d> Iterator for Events<'d> {
    type Item = Event<'d>;

    fn next(&mut self) -> Option<Event<'d>> {
        self.0.next().map(|(event, _)| event)
    }
}

impl FusedIterator for Events<'_> {}

/// Schemes that a link or an image may have, if its destination has one.
const LINK_SCHEMES: [&str; 6] = ["http", "https", "irc", "ircs", "mailto", "xmpp"];
const IMAGE_SCHEMES: [&str; 2] = ["http", "https"];

/// Whether a destination has no scheme, or one of these.
fn is_safe(url: &str, schemes: &[&str]) -> bool {
    match url.find([':', '/', '?', '#']) {
        Some(end) if url[end..].starts_with(':') => schemes
            .iter()
            .any(|it| it.eq_ignore_ascii_case(&url[..end])),
        _ => true,
    }
}

impl<'a> Document<'a> {
    fn event(&self, what: &What) -> Option<Event<'_>> {
        let text = |it: Text| Cow::Borrowed(self.str(it));
        let is_raw = self.options.html == Html::Raw;
        Some(match *what {
            What::Rule => Event::Rule,
            What::Text(it) => Event::Text(text(it)),
            What::SoftBreak => Event::SoftBreak,
            What::HardBreak => Event::HardBreak,
            What::Code(it) => Event::Code(text(it)),
            What::Math(it) => Event::InlineMath(text(it)),
            What::MathBlock { text: it, .. } => Event::DisplayMath(text(it)),
            // Raw HTML that is escaped is text.
            What::HtmlLine(it) | What::Html(it) if !is_raw => Event::Text(text(it)),
            What::HtmlLine(it) => Event::Html(text(it)),
            What::Html(it) => Event::InlineHtml(text(it)),
            What::Check(is_checked) => Event::TaskListMarker(is_checked),
            _ => Event::Start(self.tag(what)?),
        })
    }

    /// The tag of what holds others; a paragraph directly in an item of a tight list has none.
    fn tag(&self, what: &What) -> Option<Tag<'_>> {
        Some(match *what {
            What::Paragraph { is_tight: false } => Tag::Paragraph,
            What::Heading { level } => Tag::Heading { level, id: None },
            What::BlockQuote => Tag::BlockQuote,
            What::CodeBlock { info } => Tag::CodeBlock(match info {
                None => CodeBlockKind::Indented,
                Some(info) => CodeBlockKind::Fenced(Cow::Borrowed(self.str(info))),
            }),
            What::HtmlBlock => Tag::HtmlBlock,
            What::FrontMatter(kind) => Tag::MetadataBlock(kind),
            What::List { start, .. } => Tag::List(start),
            What::ListItem { .. } => Tag::Item,
            What::Emphasis => Tag::Emphasis,
            What::Strong => Tag::Strong,
            What::Strikethrough => Tag::Strikethrough,
            What::Link(number) => self.link_tag(&self.tree.links[number]),
            _ => return None,
        })
    }

    fn link_tag(&self, link: &LinkItem) -> Tag<'_> {
        let text = |it: Text| Cow::Borrowed(self.str(it));
        let schemes = if link.is_image {
            &IMAGE_SCHEMES[..]
        } else {
            &LINK_SCHEMES
        };
        let url = self.str(link.url);
        let is_shown = self.options.any_link || is_safe(url, schemes);
        let dest_url = Cow::Borrowed(if is_shown { url } else { "" });
        let (link_type, title) = (link.link_type, link.title.map(text));
        let id = link.label.map(text).unwrap_or_default();
        match link.is_image {
            true => Tag::Image {
                link_type,
                dest_url,
                title,
                id,
            },
            false => Tag::Link {
                link_type,
                dest_url,
                title,
                id,
            },
        }
    }
}
