//! Markdown: the HTML of a document, its nodes and its events, following CommonMark 0.31.2. This crate calls a proved library for C, and has no dependencies.
//!
//! ```
//! # fn main() -> Result<(), markdown_inline::Refusal> {
//! let html = markdown_inline::to_html("# a *b*\n\n- [c](/d)\n", &Default::default())?;
//! assert_eq!(html, "<h1>a <em>b</em></h1>\n<ul>\n<li><a href=\"/d\">c</a></li>\n</ul>\n");
//! # Ok(())
//! # }
//! ```
//!
//! [`parse`] returns a [`Document`]:
//!
//! ```
//! use markdown_inline::{html, parse, Event, Options};
//! # fn main() -> Result<(), markdown_inline::Refusal> {
//! let document = parse("# a\n\n[b](/c)\n", &Options::commonmark())?;
//! for link in document.links() {
//!     assert_eq!((link.node.line(), link.node.column(), link.url), (3, 1, "/c"));
//! }
//! let events = document.events().map(|event| match event {
//!     Event::Text(text) => Event::Text(text.to_uppercase().into()),
//!     event => event,
//! });
//! let mut page = String::new();
//! html::push_html(&mut page, events);
//! assert_eq!(page, "<h1>A</h1>\n<p><a href=\"/c\">B</a></p>\n");
//! # Ok(())
//! # }
//! ```
//!
//! [`to_html`] and the calls of the module [`inline`], which reads the text of one block, return what the proved library returns. Nodes and events are made of
//! that by this crate, which is tested and not proved.
//!
//! # Linking
//!
//! The build links the static library `libmarkdown_inline.a`, if the header `markdown_inline.h` describes the version of the interface that the crate calls. It
//! takes both from the first of these places that has them:
//!
//! 1. the folder that the variable `MARKDOWN_INLINE_LIB_DIR` names, and the folder `include` beside it;
//! 2. the crate's folder `native`, where a release packs them, and where `bindings/install PREFIX` leads to those of PREFIX;
//! 3. where `pkg-config` finds `markdown_inline`, as a package or `bindings/install PREFIX` leaves it: with `PKG_CONFIG_PATH=PREFIX/lib/pkgconfig`;
//! 4. where `bindings/build` leaves them in the repository.
#![warn(missing_docs)]

mod blocks;
mod document;
mod error;
mod event;
mod fill;
pub mod html;
pub mod inline;
mod node;
mod options;
mod raw;
mod rows;
mod tree;
mod version;

pub use blocks::{Block, BlockKind, Blocks};
pub use document::{parse, Document};
pub use error::{Error, Refusal};
pub use event::{
    CodeBlockKind, Event, Events, LinkType, MetadataBlockKind, OffsetIter, Tag, TagEnd,
};
pub use node::{Definition, Heading, Link, Node, NodeKind, Nodes};
pub use options::{Html, Limit, LineEnds, Options};

use fill::{number_of, text_by};
use raw::RawOutcome;

/// Renders a document to HTML, following CommonMark 0.31.2, with the constructs that the options add. A byte order mark at the front is no text.
///
/// # Errors
///
/// `TooLong`, `NotUtf8`, `References` or `NoMemory`. Where it is `NotUtf8`, `at` of the refusal is the first byte that is not UTF-8.
///
/// ```
/// use markdown_inline::{to_html, Error, Html, Options};
/// let options = Options::commonmark().html(Html::Raw);
/// assert_eq!(to_html("<b>\n\n[a](b:c)\n", &options).unwrap(), "<b>\n<p><a href=\"\">a</a></p>\n");
/// let within = |limit: usize| to_html("[a]\n\n[a]: /bc\n", &Options::commonmark().limit(limit));
/// assert_eq!(within(3).unwrap(), "<p><a href=\"/bc\">a</a></p>\n");
/// assert_eq!(within(2).unwrap_err().error, Error::References);
/// ```
pub fn to_html<D: AsRef<[u8]> + ?Sized>(
    document: &D,
    options: &Options,
) -> Result<String, Refusal> {
    let (document, asked, mut outcome) = (document.as_ref(), options.raw(), RawOutcome::default());
    // SAFETY: each pointer goes with the length of its array, and nothing is kept.
    let found = text_by(2 * document.len() + 128, |array, len, count| unsafe {
        let status = raw::markdown_inline_document_html(
            document.as_ptr(),
            document.len(),
            &asked,
            array,
            len,
            &mut outcome,
        );
        *count = outcome.count;
        status
    });
    found.map_err(|error| Refusal {
        error,
        at: number_of(outcome.blamed),
    })
}

/// Whether the library that is linked has the version of the interface that this crate is written for.
#[must_use]
pub fn is_right_version() -> bool {
    // SAFETY: the function takes nothing.
    unsafe { raw::markdown_inline_version() == version::VERSION }
}
