//! The tree of a document: its blocks and inline constructs in preorder. Nodes and events are views of it.

mod blocks;
mod builder;
mod definitions;
mod inline;

use crate::inline::Strings;
use crate::raw::RawRange;
use crate::rows::Rows;
use crate::{Error, LinkType, MetadataBlockKind, Options};
use builder::Builder;

/// A text: a part of the document, of its labels or of what was made; or one of the strings.
#[derive(Clone, Copy)]
pub(crate) enum Text {
    Document(RawRange),
    Label(RawRange),
    Made(RawRange),
    String(usize),
}

/// What an item is.
#[derive(Clone, Copy)]
pub(crate) enum What {
    Paragraph {
        is_tight: bool,
    },
    Heading {
        level: u8,
    },
    Rule,
    BlockQuote,
    List {
        start: Option<usize>,
        is_tight: bool,
    },
    ListItem {
        checked: Option<bool>,
    },
    /// Code, which holds its lines. Fenced code has an info string.
    CodeBlock {
        info: Option<Text>,
    },
    /// Math between fences, with an info string.
    MathBlock {
        info: Text,
        text: Text,
    },
    /// HTML, which holds its lines.
    HtmlBlock,
    /// Front matter, which holds its lines.
    FrontMatter(MetadataBlockKind),
    /// A link reference definition, by its number.
    Definition(usize),
    Text(Text),
    SoftBreak,
    HardBreak,
    Code(Text),
    Math(Text),
    Html(Text),
    HtmlLine(Text),
    Check(bool),
    Emphasis,
    Strong,
    Strikethrough,
    /// A link or an image, by its number.
    Link(usize),
}

impl What {
    pub fn is_block(&self) -> bool {
        matches!(
            self,
            What::Paragraph { .. }
                | What::Heading { .. }
                | What::Rule
                | What::BlockQuote
                | What::List { .. }
                | What::ListItem { .. }
                | What::CodeBlock { .. }
                | What::MathBlock { .. }
                | What::HtmlBlock
                | What::FrontMatter(_)
                | What::Definition(_)
        )
    }

    pub fn holds_blocks(&self) -> bool {
        matches!(
            self,
            What::BlockQuote | What::List { .. } | What::ListItem { .. }
        )
    }

    /// Whether it may hold others.
    pub fn is_container(&self) -> bool {
        match self {
            What::Emphasis | What::Strong | What::Strikethrough | What::Link(_) => true,
            What::Rule | What::MathBlock { .. } | What::Definition(_) => false,
            what => what.is_block(),
        }
    }

    /// Whether what it holds are nodes, and not lines.
    pub fn holds_nodes(&self) -> bool {
        let holds_lines = matches!(
            self,
            What::CodeBlock { .. } | What::HtmlBlock | What::FrontMatter(_)
        );
        self.is_container() && !holds_lines
    }
}

#[derive(Clone, Copy)]
pub(crate) struct Item {
    pub what: What,
    pub start: usize,
    pub end: usize,
    /// The number of the first item after this one and what it holds. Of the first of a run of texts and soft breaks, the number of the first item after the run.
    pub after: usize,
}

/// A link or an image.
#[derive(Clone, Copy)]
pub(crate) struct LinkItem {
    /// The number of its item.
    pub item: usize,
    pub is_image: bool,
    pub link_type: LinkType,
    pub url: Text,
    pub title: Option<Text>,
    /// The label of a reference.
    pub label: Option<Text>,
}

/// A link reference definition.
#[derive(Clone, Copy)]
pub(crate) struct DefinitionItem {
    /// The number of its item.
    pub item: usize,
    pub label: Text,
    pub url: Text,
    pub title: Option<Text>,
}

#[derive(Clone)]
pub(crate) struct Tree {
    pub items: Vec<Item>,
    pub links: Vec<LinkItem>,
    pub definitions: Vec<DefinitionItem>,
    made: String,
    strings: Strings,
}

impl Tree {
    pub fn of(rows: &Rows, options: &Options) -> Result<Tree, Error> {
        let mut builder = Builder::new(rows, options);
        builder.read()?;
        builder.finish()
    }

    /// What a text says.
    pub fn str<'t>(&'t self, rows: &'t Rows, text: Text) -> &'t str {
        match text {
            Text::Document(RawRange { start, end }) => &rows.text[start..end],
            Text::Label(RawRange { start, end }) => &rows.labels[start..end],
            Text::Made(RawRange { start, end }) => &self.made[start..end],
            Text::String(number) => self.strings.get(number).unwrap_or(""),
        }
    }
}
