//! The nodes of a document.

use crate::tree::{Item, LinkItem, What};
use crate::{Document, LinkType, MetadataBlockKind};
use std::fmt;
use std::iter::FusedIterator;
use std::ops::Range;

/// What a node is, with what only such a node has.
#[derive(Clone, Copy, Debug, PartialEq, Eq, Hash)]
#[non_exhaustive]
pub enum NodeKind<'d> {
    /// A paragraph (CommonMark 4.8).
    Paragraph,
    /// A heading (CommonMark 4.2 and 4.3).
    #[non_exhaustive]
    Heading {
        /// Its level, 1 to 6.
        level: u8,
    },
    /// A thematic break (CommonMark 4.1).
    ThematicBreak,
    /// A block quote (CommonMark 5.1).
    BlockQuote,
    /// A list (CommonMark 5.3).
    #[non_exhaustive]
    List {
        /// The number of its first item, if it is ordered.
        start_number: Option<usize>,
        /// Whether it is tight.
        is_tight: bool,
    },
    /// A list item (CommonMark 5.2).
    #[non_exhaustive]
    ListItem {
        /// Whether its checkbox is checked, if it has one (GFM 5.3).
        checked: Option<bool>,
    },
    /// Code that is indented or between fences (CommonMark 4.4 and 4.5).
    #[non_exhaustive]
    Code {
        /// The info string of fenced code.
        info: Option<&'d str>,
        /// Its first word, which names the language.
        lang: Option<&'d str>,
    },
    /// A math block, between fences of dollars.
    #[non_exhaustive]
    Math {
        /// Its info string.
        info: &'d str,
    },
    /// Front matter.
    #[non_exhaustive]
    FrontMatter {
        /// Its language: `yaml` between lines of `---`, `toml` between lines of `+++`.
        lang: &'static str,
    },
    /// HTML, as a block or inline (CommonMark 4.6 and 6.6).
    Html,
    /// A link reference definition (CommonMark 4.7).
    #[non_exhaustive]
    Definition {
        /// Its label, as it is written.
        label: &'d str,
        /// Its destination.
        url: &'d str,
        /// Its title, if it has one.
        title: Option<&'d str>,
    },
    /// Text.
    Text,
    /// Emphasis (CommonMark 6.2).
    Emphasis,
    /// Strong emphasis (CommonMark 6.2).
    Strong,
    /// Strikethrough (GFM 6.5).
    Delete,
    /// A code span (CommonMark 6.1).
    InlineCode,
    /// A math span.
    InlineMath,
    /// A hard line break (CommonMark 6.7).
    Break,
    /// A link (CommonMark 6.3).
    #[non_exhaustive]
    Link {
        /// How it is written.
        link_type: LinkType,
        /// Its destination.
        url: &'d str,
        /// Its title, if it has one.
        title: Option<&'d str>,
        /// The label of a reference, as it is written.
        label: Option<&'d str>,
    },
    /// An image (CommonMark 6.4), which its text describes.
    #[non_exhaustive]
    Image {
        /// How it is written.
        link_type: LinkType,
        /// Its destination.
        url: &'d str,
        /// Its title, if it has one.
        title: Option<&'d str>,
        /// The label of a reference, as it is written.
        label: Option<&'d str>,
    },
}

/// A block or an inline construct of a document.
#[derive(Clone, Copy)]
pub struct Node<'d> {
    document: &'d Document<'d>,
    number: usize,
}

/// A link reference definition of a document.
#[derive(Clone, Copy, Debug)]
#[non_exhaustive]
pub struct Definition<'d> {
    /// Its label, as it is written.
    pub label: &'d str,
    /// Its destination, with escapes and character references resolved.
    pub url: &'d str,
    /// Its title, resolved alike, if it has one.
    pub title: Option<&'d str>,
    /// Its node, which says where it is.
    pub node: Node<'d>,
}

/// A heading of a document.
#[derive(Clone, Copy, Debug)]
#[non_exhaustive]
pub struct Heading<'d> {
    /// Its level, 1 to 6.
    pub level: u8,
    /// Its node, which has its text and where it is.
    pub node: Node<'d>,
}

/// A link or an image of a document.
#[derive(Clone, Copy, Debug)]
#[non_exhaustive]
pub struct Link<'d> {
    /// Whether it is an image.
    pub is_image: bool,
    /// How it is written.
    pub link_type: LinkType,
    /// Its destination.
    pub url: &'d str,
    /// Its title, if it has one.
    pub title: Option<&'d str>,
    /// Its node, which has its text and where it is.
    pub node: Node<'d>,
}

impl<'d> Node<'d> {
    fn item(&self) -> &'d Item {
        &self.document.tree.items[self.number]
    }

    /// What it is.
    #[must_use]
    pub fn kind(&self) -> NodeKind<'d> {
        let document = self.document;
        match self.item().what {
            What::Paragraph { .. } => NodeKind::Paragraph,
            What::Heading { level } => NodeKind::Heading { level },
            What::Rule => NodeKind::ThematicBreak,
            What::BlockQuote => NodeKind::BlockQuote,
            What::List { start, is_tight } => NodeKind::List {
                start_number: start,
                is_tight,
            },
            What::ListItem { checked } => NodeKind::ListItem { checked },
            What::CodeBlock { info } => {
                let info = info.map(|info| document.str(info));
                let lang = info.and_then(|info| info.split_ascii_whitespace().next());
                NodeKind::Code { info, lang }
            }
            What::MathBlock { info, .. } => NodeKind::Math {
                info: document.str(info),
            },
            What::FrontMatter(kind) => NodeKind::FrontMatter {
                lang: match kind {
                    MetadataBlockKind::YamlStyle => "yaml",
                    MetadataBlockKind::PlusesStyle => "toml",
                },
            },
            What::Definition(number) => {
                let Definition {
                    label, url, title, ..
                } = document.definition(number);
                NodeKind::Definition { label, url, title }
            }
            What::HtmlBlock | What::HtmlLine(_) | What::Html(_) => NodeKind::Html,
            What::Text(_) | What::SoftBreak | What::Check(_) => NodeKind::Text,
            What::HardBreak => NodeKind::Break,
            What::Code(_) => NodeKind::InlineCode,
            What::Math(_) => NodeKind::InlineMath,
            What::Emphasis => NodeKind::Emphasis,
            What::Strong => NodeKind::Strong,
            What::Strikethrough => NodeKind::Delete,
            What::Link(number) => self.link_kind(number),
        }
    }

    fn link_kind(&self, number: usize) -> NodeKind<'d> {
        let link = &self.document.tree.links[number];
        let Link {
            link_type,
            url,
            title,
            ..
        } = self.document.link(link);
        let label = link.label.map(|label| self.document.str(label));
        match link.is_image {
            true => NodeKind::Image {
                link_type,
                url,
                title,
                label,
            },
            false => NodeKind::Link {
                link_type,
                url,
                title,
                label,
            },
        }
    }

    /// The bytes of the document that it has.
    #[must_use]
    pub fn range(&self) -> Range<usize> {
        let (item, items) = (self.item(), &self.document.tree.items);
        let end = match item.what {
            What::Text(_) | What::SoftBreak => items[item.after - 1].end,
            _ => item.end,
        };
        item.start..end
    }

    fn position(&self, byte: usize) -> (usize, usize) {
        let rows = &self.document.rows;
        let line = rows.line_of(byte);
        (line, byte - rows.starts[line - 1] + 1)
    }

    /// The line on which it begins, from 1.
    #[must_use]
    pub fn line(&self) -> usize {
        self.position(self.range().start).0
    }

    /// The column at which it begins: one more than the bytes before it on its line.
    #[must_use]
    pub fn column(&self) -> usize {
        self.position(self.range().start).1
    }

    /// The line on which it ends.
    #[must_use]
    pub fn end_line(&self) -> usize {
        self.position(self.range().end).0
    }

    /// The column before which it ends.
    #[must_use]
    pub fn end_column(&self) -> usize {
        self.position(self.range().end).1
    }

    /// The nodes directly in it, in order.
    #[must_use]
    pub fn children(&self) -> Nodes<'d> {
        self.inside(false)
    }

    /// All nodes in it, each before those that it holds.
    #[must_use]
    pub fn nodes(&self) -> Nodes<'d> {
        self.inside(true)
    }

    fn inside(&self, is_deep: bool) -> Nodes<'d> {
        let (item, document) = (self.item(), self.document);
        let next = match item.what.holds_nodes() {
            true => self.number + 1,
            false => item.after,
        };
        Nodes {
            document,
            next,
            end: item.after,
            is_deep,
        }
    }

    /// Its text, without markup, in which each line ending is a line feed. Of code, math, HTML and front matter it is the source. Other nodes have none of the
    /// HTML in them, and a blank line between blocks.
    #[must_use]
    pub fn text(&self) -> String {
        let items = &self.document.tree.items[self.number..self.item().after];
        let is_html = self.kind() == NodeKind::Html;
        let (mut text, mut is_apart) = (String::new(), false);
        for item in items {
            is_apart |= item.what.is_block();
            let said = match item.what {
                What::Text(it) | What::Code(it) | What::Math(it) => self.document.str(it),
                What::MathBlock { text, .. } => self.document.str(text),
                What::Html(it) | What::HtmlLine(it) if is_html => self.document.str(it),
                What::SoftBreak | What::HardBreak => "\n",
                _ => "",
            };
            if is_apart && !said.is_empty() && !text.is_empty() {
                // The last line of code has a line feed already.
                text += if text.ends_with('\n') { "\n" } else { "\n\n" };
            }
            is_apart &= said.is_empty();
            text += said;
        }
        if self.item().what.holds_blocks() && text.ends_with('\n') {
            text.pop();
        }
        text
    }
}

impl fmt::Debug for Node<'_> {
    fn fmt(&self, f: &mut fmt::Formatter<'_>) -> fmt::Result {
        write!(f, "{:?} {:?}", self.kind(), self.range())
    }
}

/// Nodes of a document, in order.
#[derive(Clone, Debug)]
pub struct Nodes<'d> {
    document: &'d Document<'d>,
    next: usize,
    end: usize,
    /// Whether those that nodes hold follow them.
    is_deep: bool,
}

impl<'d> Iterator for Nodes<'d> {
    type Item = Node<'d>;

    fn next(&mut self) -> Option<Node<'d>> {
        let document = self.document;
        while self.next < self.end {
            let number = self.next;
            let item = &document.tree.items[number];
            let is_entered = self.is_deep && item.what.holds_nodes();
            self.next = if is_entered { number + 1 } else { item.after };
            if !matches!(item.what, What::Check(_)) {
                return Some(Node { document, number });
            }
        }
        None
    }
}

impl FusedIterator for Nodes<'_> {}

impl Document<'_> {
    /// All nodes, each before those that it holds.
    ///
    /// ```
    /// use markdown_inline::{parse, NodeKind, Options};
    /// let document = parse("# a *b*\n\n~~~ c\nd\n~~~\n", &Options::commonmark()).unwrap();
    /// for node in document.nodes() {
    ///     if let NodeKind::Code { lang: Some(lang), .. } = node.kind() {
    ///         assert_eq!((lang, node.line(), node.text().as_str()), ("c", 3, "d\n"));
    ///     }
    /// }
    /// ```
    #[must_use]
    pub fn nodes(&self) -> Nodes<'_> {
        self.top(true)
    }

    /// The nodes that no other holds.
    #[must_use]
    pub fn children(&self) -> Nodes<'_> {
        self.top(false)
    }

    fn top(&self, is_deep: bool) -> Nodes<'_> {
        Nodes {
            document: self,
            next: 0,
            end: self.tree.items.len(),
            is_deep,
        }
    }

    /// The language of the front matter, `yaml` or `toml`, and its text, if [`Options::front_matter`](crate::Options::front_matter) is set and there is one.
    ///
    /// ```
    /// use markdown_inline::{parse, Options};
    /// let options = Options::commonmark().front_matter(true);
    /// let document = parse("---\ntitle: a\n---\n# b\n", &options).unwrap();
    /// assert_eq!(document.front_matter(), Some(("yaml", "title: a\n".to_string())));
    /// ```
    #[must_use]
    pub fn front_matter(&self) -> Option<(&'static str, String)> {
        let first = self.children().next()?;
        match first.kind() {
            NodeKind::FrontMatter { lang } => Some((lang, first.text())),
            _ => None,
        }
    }

    /// The headings.
    ///
    /// ```
    /// use markdown_inline::{parse, Options};
    /// let document = parse("# a *b*\n\n> c\n> -\n", &Options::commonmark()).unwrap();
    /// let toc: Vec<_> = document.headings().map(|it| (it.level, it.node.text(), it.node.line())).collect();
    /// assert_eq!(toc, [(1, "a b".to_string(), 1), (2, "c".to_string(), 3)]);
    /// ```
    pub fn headings(&self) -> impl Iterator<Item = Heading<'_>> {
        self.nodes().filter_map(|node| match node.kind() {
            NodeKind::Heading { level } => Some(Heading { level, node }),
            _ => None,
        })
    }

    /// The links and images.
    ///
    /// ```
    /// use markdown_inline::{parse, Options};
    /// let document = parse("[a](/b)\n\n- ![c]\n\n[c]: /d 'e'\n", &Options::commonmark()).unwrap();
    /// let links: Vec<_> = document.links().map(|it| (it.url, it.title, it.node.line(), it.node.column())).collect();
    /// assert_eq!(links, [("/b", None, 1, 1), ("/d", Some("e"), 3, 3)]);
    /// ```
    pub fn links(&self) -> impl Iterator<Item = Link<'_>> {
        let links = self.tree.links.iter();
        links.map(move |link| self.link(link))
    }

    /// The link reference definitions. If several have the same label, the first counts.
    ///
    /// ```
    /// use markdown_inline::{parse, Options};
    /// let document = parse("[a] [b]\n\n[a]: </c&amp;>\n> [B]: /d 'e'\n", &Options::commonmark()).unwrap();
    /// let definitions = document.definitions().map(|it| (it.label, it.url, it.title, it.node.line()));
    /// assert!(definitions.eq([("a", "/c&", None, 3), ("B", "/d", Some("e"), 4)]));
    /// ```
    pub fn definitions(&self) -> impl ExactSizeIterator<Item = Definition<'_>> {
        (0..self.tree.definitions.len()).map(move |number| self.definition(number))
    }

    fn definition(&self, number: usize) -> Definition<'_> {
        let definition = &self.tree.definitions[number];
        Definition {
            label: self.str(definition.label),
            url: self.str(definition.url),
            title: definition.title.map(|title| self.str(title)),
            node: Node {
                document: self,
                number: definition.item,
            },
        }
    }

    fn link<'d>(&'d self, link: &LinkItem) -> Link<'d> {
        Link {
            is_image: link.is_image,
            link_type: link.link_type,
            url: self.str(link.url),
            title: link.title.map(|title| self.str(title)),
            node: Node {
                document: self,
                number: link.item,
            },
        }
    }
}
