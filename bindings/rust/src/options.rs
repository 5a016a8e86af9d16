//! How a document is read and rendered.

use crate::inline::{Constructs, HtmlOptions, NO_LIMIT};
use crate::raw::{RawDocumentOptions, BLOCKS_FRONT_MATTER, BLOCKS_MATH};

/// What becomes of raw HTML.
#[derive(Clone, Copy, Debug, Default, PartialEq, Eq, Hash)]
#[non_exhaustive]
pub enum Html {
    /// It is escaped, so it is text.
    #[default]
    Escape,
    /// It stays HTML.
    Raw,
}

/// How line endings are written in HTML.
#[derive(Clone, Copy, Debug, Default, PartialEq, Eq, Hash)]
#[non_exhaustive]
pub enum LineEnds {
    /// Those of the document stay as they are, and a page adds line feeds.
    #[default]
    Kept,
    /// Each is a line feed.
    Lf,
    /// Each is a carriage return and a line feed.
    CrLf,
}

/// How many bytes references may expand to: those of the destination and of the title, for each link and image that refers to a definition. Without a limit,
/// n references to a definition of n bytes expand to n * n bytes.
#[derive(Clone, Copy, Debug, Default, PartialEq, Eq, Hash)]
#[non_exhaustive]
pub enum Limit {
    /// As many as the document has, or 100,000 if it is shorter.
    #[default]
    Default,
    /// This number. 0 is the default.
    Bytes(usize),
    /// There is no limit.
    None,
}

impl From<usize> for Limit {
    fn from(bytes: usize) -> Limit {
        Limit::Bytes(bytes)
    }
}

/// How a document is read and rendered. By default it is CommonMark 0.31.2, raw HTML is escaped, and no link leads to a script.
///
/// ```
/// use markdown_inline::{to_html, Options};
/// let options = Options::commonmark().strikethrough(true).bare_urls(true);
/// let html = to_html("~a~ www.b.c", &options).unwrap();
/// assert_eq!(html, "<p><del>a</del> <a href=\"http://www.b.c\">www.b.c</a></p>\n");
/// ```
#[derive(Clone, Debug, Default, PartialEq, Eq, Hash)]
#[non_exhaustive]
pub struct Options {
    /// Whether text between one or two tildes is struck through (GFM 6.5).
    pub strikethrough: bool,
    /// Whether URLs and email addresses without angle brackets are links (GFM 6.9).
    pub bare_urls: bool,
    /// Whether list items may begin with a checkbox (GFM 5.3).
    pub tasks: bool,
    /// Whether there is math: spans between one or more dollars, and blocks between fences of two or more.
    pub math: bool,
    /// Whether the document may begin with front matter: lines between two lines of `---` or of `+++`. HTML leaves it out.
    pub front_matter: bool,
    /// What becomes of raw HTML.
    pub html: Html,
    /// Whether links and images may have any destination. Else one with a scheme that is not listed, as `javascript:`, is empty.
    pub any_link: bool,
    /// How line endings are written.
    pub line_ends: LineEnds,
    /// How many bytes references may expand to.
    pub limit: Limit,
}

impl Options {
    /// CommonMark 0.31.2, which is the default.
    #[must_use]
    pub fn commonmark() -> Options {
        Options::default()
    }

    /// Reads strikethrough, or not.
    #[must_use]
    pub fn strikethrough(mut self, strikethrough: bool) -> Options {
        self.strikethrough = strikethrough;
        self
    }

    /// Makes links of URLs and email addresses without angle brackets, or not.
    #[must_use]
    pub fn bare_urls(mut self, bare_urls: bool) -> Options {
        self.bare_urls = bare_urls;
        self
    }

    /// Reads checkboxes of task list items, or not.
    #[must_use]
    pub fn tasks(mut self, tasks: bool) -> Options {
        self.tasks = tasks;
        self
    }

    /// Reads math spans and math blocks, or not.
    #[must_use]
    pub fn math(mut self, math: bool) -> Options {
        self.math = math;
        self
    }

    /// Reads front matter, or not.
    #[must_use]
    pub fn front_matter(mut self, front_matter: bool) -> Options {
        self.front_matter = front_matter;
        self
    }

    /// Sets what becomes of raw HTML.
    #[must_use]
    pub fn html(mut self, html: Html) -> Options {
        self.html = html;
        self
    }

    /// Lets links and images have any destination, or only those with listed schemes.
    #[must_use]
    pub fn any_link(mut self, any_link: bool) -> Options {
        self.any_link = any_link;
        self
    }

    /// Sets how line endings are written.
    #[must_use]
    pub fn line_ends(mut self, line_ends: LineEnds) -> Options {
        self.line_ends = line_ends;
        self
    }

    /// Limits how many bytes references may expand to.
    #[must_use]
    pub fn limit(mut self, limit: impl Into<Limit>) -> Options {
        self.limit = limit.into();
        self
    }

    pub(crate) fn constructs(&self) -> Constructs {
        let constructs = [
            (self.strikethrough, Constructs::GFM_STRIKETHROUGH),
            (self.bare_urls, Constructs::GFM_AUTOLINK_LITERAL),
            (self.tasks, Constructs::GFM_TASK_LIST_ITEM),
            (self.math, Constructs::MATH),
        ];
        let asked = constructs.into_iter().filter(|(is_asked, _)| *is_asked);
        asked.fold(Constructs::COMMONMARK, |all, (_, construct)| {
            all | construct
        })
    }

    /// The blocks beside CommonMark's, as the calls of C take them.
    pub(crate) fn blocks(&self) -> u32 {
        let math = if self.math { BLOCKS_MATH } else { 0 };
        let front_matter = if self.front_matter {
            BLOCKS_FRONT_MATTER
        } else {
            0
        };
        math | front_matter
    }

    pub(crate) fn raw(&self) -> RawDocumentOptions {
        let html = HtmlOptions::default()
            .raw_html(self.html == Html::Raw)
            .any_link(self.any_link)
            .line_ends(self.line_ends);
        RawDocumentOptions {
            options: self.constructs().bits(),
            html: html.bits(),
            blocks: self.blocks(),
            limit: self.limit.raw(),
            ..RawDocumentOptions::default()
        }
    }
}

impl Limit {
    /// The limit as the calls of C take it.
    pub(crate) fn raw(self) -> usize {
        match self {
            Limit::Default => 0,
            Limit::Bytes(limit) => limit,
            Limit::None => NO_LIMIT,
        }
    }
}
