//! Renders events to HTML.

use crate::{CodeBlockKind, Event, Tag, TagEnd};
use std::borrow::Cow;

/// Appends the HTML of events, with a line feed for each line ending.
///
/// [`Event::Html`] and [`Event::InlineHtml`] are written as they are, and a link may have any destination: so check what you put there. In a document's events both
/// are already as its [`Options`](crate::Options) say.
///
/// Events of a document render to what [`to_html`](crate::to_html) returns with [`LineEnds::Lf`](crate::LineEnds::Lf). This is tested, and not proved.
///
/// ```
/// use markdown_inline::{html, parse, Event, Options, Tag};
/// # fn main() -> Result<(), markdown_inline::Refusal> {
/// let document = parse("# Title\n\nText", &Options::commonmark())?;
/// let events = document.events().map(|event| match event {
///     Event::Start(Tag::Heading { level, .. }) => Event::Start(Tag::Heading { level, id: Some("top".into()) }),
///     event => event,
/// });
/// let mut page = String::new();
/// html::push_html(&mut page, events);
/// assert_eq!(page, "<h1 id=\"top\">Title</h1>\n<p>Text</p>\n");
/// # Ok(())
/// # }
/// ```
pub fn push_html<'a>(html: &mut String, events: impl IntoIterator<Item = Event<'a>>) {
    let mut writer = Writer {
        html,
        is_in_line: false,
        is_in_metadata: false,
        images: Vec::new(),
    };
    events.into_iter().for_each(|event| writer.push(event));
}

struct Writer<'h, 'a> {
    html: &'h mut String,
    /// Whether the line goes on, so that a block has to begin another one.
    is_in_line: bool,
    /// Whether front matter is open, which is left out.
    is_in_metadata: bool,
    /// The titles of the images that are open.
    images: Vec<Option<Cow<'a, str>>>,
}

impl<'a> Writer<'_, 'a> {
    fn push(&mut self, event: Event<'a>) {
        match event {
            Event::Start(Tag::MetadataBlock(_)) => self.is_in_metadata = true,
            Event::End(TagEnd::MetadataBlock(_)) => self.is_in_metadata = false,
            _ if self.is_in_metadata => {}
            Event::Start(Tag::Image {
                dest_url, title, ..
            }) => self.start_image(&dest_url, title),
            Event::End(TagEnd::Image) => self.end_image(),
            event if !self.images.is_empty() => self.describe(&event),
            Event::Start(tag) => self.start(&tag),
            Event::End(tag) => self.end(tag),
            Event::Text(text) => push_escaped(self.in_line(), &text),
            Event::Code(text) => self.span("<code>", &text),
            Event::InlineMath(text) => {
                self.span("<code class=\"language-math math-inline\">", &text);
            }
            Event::DisplayMath(text) => {
                self.begin_block("<pre><code class=\"language-math math-display\">");
                push_escaped(self.html, &text);
                self.end_block("</code></pre>\n");
            }
            Event::Html(text) => {
                *self.html += &text;
                self.is_in_line = !self.html.ends_with('\n');
            }
            Event::InlineHtml(text) => *self.in_line() += &text,
            Event::SoftBreak => *self.in_line() += "\n",
            Event::HardBreak => *self.in_line() += "<br />\n",
            Event::Rule => self.begin_block("<hr />\n"),
            Event::TaskListMarker(is_checked) => {
                let checked = if is_checked { " checked=\"\"" } else { "" };
                *self.in_line() += "<input type=\"checkbox\" disabled=\"\"";
                *self.html += checked;
                *self.html += " />";
            }
        }
    }

    /// The HTML, for what goes on with its last line.
    fn in_line(&mut self) -> &mut String {
        self.is_in_line = true;
        self.html
    }

    /// Begins a block, on a line of its own.
    fn begin_block(&mut self, tag: &str) {
        if self.is_in_line {
            *self.html += "\n";
        }
        self.end_block(tag);
    }

    /// Ends a block, and its line.
    fn end_block(&mut self, tag: &str) {
        *self.html += tag;
        self.is_in_line = false;
    }

    fn start(&mut self, tag: &Tag) {
        match tag {
            Tag::Paragraph => self.begin_block("<p>"),
            Tag::Heading { level, id } => {
                self.begin_block(&format!("<h{level}"));
                self.attribute("id", id.as_deref());
                *self.html += ">";
            }
            Tag::BlockQuote => self.begin_block("<blockquote>\n"),
            Tag::CodeBlock(kind) => self.start_code(kind),
            Tag::HtmlBlock => self.begin_block(""),
            Tag::List(None) => self.begin_block("<ul>\n"),
            Tag::List(Some(1)) => self.begin_block("<ol>\n"),
            Tag::List(Some(start)) => self.begin_block(&format!("<ol start=\"{start}\">\n")),
            Tag::Item => *self.in_line() += "<li>",
            Tag::Emphasis => *self.in_line() += "<em>",
            Tag::Strong => *self.in_line() += "<strong>",
            Tag::Strikethrough => *self.in_line() += "<del>",
            Tag::Link {
                dest_url, title, ..
            } => {
                *self.in_line() += "<a href=\"";
                push_address(self.html, dest_url);
                *self.html += "\"";
                self.attribute("title", title.as_deref());
                *self.html += ">";
            }
            // They are written elsewhere.
            Tag::Image { .. } | Tag::MetadataBlock(_) => {}
        }
    }

    fn end(&mut self, tag: TagEnd) {
        match tag {
            TagEnd::Paragraph => self.end_block("</p>\n"),
            TagEnd::Heading(level) => self.end_block(&format!("</h{level}>\n")),
            TagEnd::BlockQuote => self.end_block("</blockquote>\n"),
            TagEnd::CodeBlock => self.end_block("</code></pre>\n"),
            TagEnd::HtmlBlock => self.end_block(""),
            TagEnd::List(false) => self.end_block("</ul>\n"),
            TagEnd::List(true) => self.end_block("</ol>\n"),
            TagEnd::Item => self.end_block("</li>\n"),
            TagEnd::Emphasis => *self.html += "</em>",
            TagEnd::Strong => *self.html += "</strong>",
            TagEnd::Strikethrough => *self.html += "</del>",
            TagEnd::Link => *self.html += "</a>",
            TagEnd::Image | TagEnd::MetadataBlock(_) => {}
        }
    }

    /// The first word of an info string names the language (CommonMark 4.5).
    fn start_code(&mut self, kind: &CodeBlockKind) {
        self.begin_block("<pre><code");
        if let CodeBlockKind::Fenced(info) = kind {
            let word = info.split_ascii_whitespace().next();
            let class = word.map(|word| format!("language-{word}"));
            self.attribute("class", class.as_deref());
        }
        *self.html += ">";
    }

    fn span(&mut self, tag: &str, text: &str) {
        *self.in_line() += tag;
        push_escaped(self.html, text);
        *self.html += "</code>";
    }

    fn attribute(&mut self, name: &str, value: Option<&str>) {
        if let Some(value) = value {
            *self.html += &format!(" {name}=\"");
            push_escaped(self.html, value);
            *self.html += "\"";
        }
    }

    fn start_image(&mut self, url: &str, title: Option<Cow<'a, str>>) {
        if self.images.is_empty() {
            *self.in_line() += "<img src=\"";
            push_address(self.html, url);
            *self.html += "\" alt=\"";
        }
        self.images.push(title);
    }

    fn end_image(&mut self) {
        let title = self.images.pop();
        if let Some(title) = title.filter(|_| self.images.is_empty()) {
            *self.html += "\"";
            self.attribute("title", title.as_deref());
            *self.html += " />";
        }
    }

    /// What is in an image describes it: its text is an attribute.
    fn describe(&mut self, event: &Event) {
        match event {
            Event::Text(text)
            | Event::Code(text)
            | Event::InlineMath(text)
            | Event::DisplayMath(text)
            | Event::Html(text)
            | Event::InlineHtml(text) => push_escaped(self.html, text),
            Event::SoftBreak | Event::HardBreak => *self.html += "\n",
            _ => {}
        }
    }
}

/// Appends a text, of which nothing becomes markup.
fn push_escaped(html: &mut String, text: &str) {
    let mut rest = text;
    while let Some(at) = rest.find(['&', '<', '>', '"', '\0']) {
        *html += &rest[..at];
        *html += match rest.as_bytes()[at] {
            b'&' => "&amp;",
            b'<' => "&lt;",
            b'>' => "&gt;",
            b'"' => "&quot;",
            _ => "\u{fffd}",
        };
        rest = &rest[at + 1..];
    }
    *html += rest;
}

/// Appends an address, with all percent-encoded that may not be in one.
fn push_address(html: &mut String, url: &str) {
    let bytes = url.as_bytes();
    for (at, byte) in bytes.iter().enumerate() {
        let next = bytes.get(at + 1..at + 3).unwrap_or_default();
        let is_encoded = next.len() == 2 && next.iter().all(u8::is_ascii_alphanumeric);
        match byte {
            b'&' => *html += "&amp;",
            0 => *html += "%EF%BF%BD",
            b'%' if is_encoded => html.push('%'),
            _ if byte.is_ascii_alphanumeric() || b"!#$'()*+,-./:;=?@_~".contains(byte) => {
                html.push(char::from(*byte));
            }
            _ => *html += &format!("%{byte:02X}"),
        }
    }
}
