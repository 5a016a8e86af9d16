//! What is to be read, and the calls that read it.

use super::{
    Constructs, Events, HtmlOptions, Htmls, Leaves, Piece, ShortTexts, TextContent, Texts, NO_LIMIT,
};
use crate::fill::{fill, fill_many, fitted};
use crate::raw::{self, Call, RawContent, RawInput, RawRange, RawTarget, TextsCall};
use crate::{Error, Refusal};
use std::borrow::Cow;
use std::mem;

/// What is to be read: a document, and whatever is not left to the defaults.
///
/// Each part is given by a method that returns the input, for a chain of calls, or by one with `&mut self`, for a loop:
///
/// ```
/// use markdown_inline::inline::{HtmlOptions, Input, Piece};
/// # fn main() -> Result<(), markdown_inline::Error> {
/// let document = "a [b]\n\n[c]";
/// let mut input = Input::new(document);
/// for (label, address) in [("b", "/d"), ("c", "/e")] {
///     input.define_to(label, address, None);
/// }
/// let mut html = String::new();
/// let mut all = Vec::new();
/// for (start, end) in [(0, 5), (7, 10)] {
///     input.set_pieces([Piece { start, end, ..Piece::default() }]);
///     input.html_into(HtmlOptions::default(), &mut html)?;
///     all.push(html.clone());
/// }
/// assert_eq!(all, [r#"a <a href="/d">b</a>"#, r#"<a href="/e">c</a>"#]);
/// # Ok(())
/// # }
/// ```
#[derive(Clone, Debug)]
pub struct Input<'a> {
    document: &'a [u8],
    pieces: Cow<'a, [Piece]>,
    labels: Cow<'a, [u8]>,
    definitions: Cow<'a, [RawRange]>,
    targets: Cow<'a, [RawTarget]>,
    footnotes: Vec<RawRange>,
    options: Constructs,
    reference_limit: usize,
}

/// The limit by default where the document is not longer, which is cmark's.
const LEAST_DEFAULT_LIMIT: usize = 100_000;

impl<'a> Input<'a> {
    /// A whole document, read as CommonMark says, with nothing defined.
    pub fn new<D: AsRef<[u8]> + ?Sized>(document: &'a D) -> Input<'a> {
        let document = document.as_ref();
        let whole = Piece {
            end: document.len(),
            ..Piece::default()
        };
        Input {
            document,
            pieces: Cow::Owned(vec![whole]),
            labels: Cow::default(),
            definitions: Cow::default(),
            targets: Cow::default(),
            footnotes: Vec::new(),
            options: Constructs::default(),
            reference_limit: 0,
        }
    }

    /// These pieces of the document. Each but the last one ends just after a line ending, and the next one starts on the line after it.
    #[must_use]
    pub fn pieces(mut self, pieces: &'a [Piece]) -> Input<'a> {
        self.pieces = Cow::Borrowed(pieces);
        self
    }

    /// These options.
    #[must_use]
    pub fn options(mut self, options: Constructs) -> Input<'a> {
        self.options = options;
        self
    }

    /// One more definition, by its label as it is written. In HTML it leads to an empty address.
    #[must_use]
    pub fn definition(mut self, label: impl AsRef<[u8]>) -> Input<'a> {
        self.define(label);
        self
    }

    /// One more definition, by its label as it is written, with where it leads and perhaps a title: both with escapes and character references
    /// resolved.
    #[must_use]
    pub fn definition_to(
        mut self,
        label: impl AsRef<[u8]>,
        destination: impl AsRef<[u8]>,
        title: Option<&str>,
    ) -> Input<'a> {
        self.define_to(label, destination, title);
        self
    }

    /// More definitions, each by its label as it is written.
    #[must_use]
    pub fn definitions<L: AsRef<[u8]>>(mut self, labels: impl IntoIterator<Item = L>) -> Input<'a> {
        labels.into_iter().for_each(|label| self.define(label));
        self
    }

    /// More definitions, each a label as it is written, where it leads, and perhaps a title.
    #[must_use]
    pub fn definitions_to<'t, L: AsRef<[u8]>, D: AsRef<[u8]>>(
        mut self,
        definitions: impl IntoIterator<Item = (L, D, Option<&'t str>)>,
    ) -> Input<'a> {
        for (label, destination, title) in definitions {
            self.define_to(label, destination, title);
        }
        self
    }

    /// One more footnote definition, by its label as it is written.
    #[must_use]
    pub fn footnote(mut self, label: impl AsRef<[u8]>) -> Input<'a> {
        self.define_footnote(label);
        self
    }

    /// More footnote definitions, each by its label as it is written.
    #[must_use]
    pub fn footnotes<L: AsRef<[u8]>>(mut self, labels: impl IntoIterator<Item = L>) -> Input<'a> {
        labels
            .into_iter()
            .for_each(|label| self.define_footnote(label));
        self
    }

    /// How many bytes references may expand to in the text of `html`, or in all contents of `htmls` or of `links` together: those of the destination and of the title, for each link
    /// and image that refers to one. 0, the default, is the larger of 100,000 and the length of the document, and [`NO_LIMIT`] is no limit.
    #[must_use]
    pub fn reference_limit(mut self, limit: usize) -> Input<'a> {
        self.set_reference_limit(limit);
        self
    }

    /// Sets another limit, as `reference_limit` does.
    pub fn set_reference_limit(&mut self, limit: usize) {
        self.reference_limit = limit;
    }

    /// These definitions and no others: where their labels are, and where each leads.
    pub(crate) fn defined(
        mut self,
        labels: &'a [u8],
        definitions: &'a [RawRange],
        targets: &'a [RawTarget],
    ) -> Input<'a> {
        self.labels = Cow::Borrowed(labels);
        self.definitions = Cow::Borrowed(definitions);
        self.targets = Cow::Borrowed(targets);
        self
    }

    /// Sets other pieces, which are kept in the input.
    pub fn set_pieces(&mut self, pieces: impl IntoIterator<Item = Piece>) {
        let mut kept = match mem::take(&mut self.pieces) {
            Cow::Owned(kept) => kept,
            Cow::Borrowed(_) => Vec::new(),
        };
        kept.clear();
        kept.extend(pieces);
        self.pieces = Cow::Owned(kept);
    }

    /// Sets other options.
    pub fn set_options(&mut self, options: Constructs) {
        self.options = options;
    }

    /// Adds a definition, as `definition` does.
    pub fn define(&mut self, label: impl AsRef<[u8]>) {
        self.define_to(label, b"", None);
    }

    /// Adds a definition with where it leads, as `definition_to` does.
    pub fn define_to(
        &mut self,
        label: impl AsRef<[u8]>,
        destination: impl AsRef<[u8]>,
        title: Option<&str>,
    ) {
        let range = self.labelled(label.as_ref());
        self.definitions.to_mut().push(range);
        let target = RawTarget {
            destination: self.labelled(destination.as_ref()),
            title: self.labelled(title.unwrap_or("").as_bytes()),
            has_title: u32::from(title.is_some()),
            reserved: 0,
        };
        self.targets.to_mut().push(target);
    }

    /// Adds a footnote definition, as `footnote` does.
    pub fn define_footnote(&mut self, label: impl AsRef<[u8]>) {
        let range = self.labelled(label.as_ref());
        self.footnotes.push(range);
    }

    fn labelled(&mut self, label: &[u8]) -> RawRange {
        let start = self.labels.len();
        self.labels.to_mut().extend_from_slice(label);
        RawRange {
            start,
            end: self.labels.len(),
        }
    }

    /// Whether the pieces are a text of the document. `text` tests it itself.
    ///
    /// # Errors
    ///
    /// `TooLong`, `NotUtf8`, `NoContent` or `BlankLine` says why they are none; `NoMemory`.
    pub fn is_text(&self) -> Result<(), Error> {
        // SAFETY: each pointer goes with its slice's length, and nothing is kept.
        result_of(unsafe {
            raw::markdown_inline_is_text(
                self.document.as_ptr(),
                self.document.len(),
                self.pieces.as_ptr(),
                self.pieces.len(),
            )
        })
    }

    /// Whether the pieces are a content of the document. `string` tests it itself.
    ///
    /// # Errors
    ///
    /// `TooLong`, `NotUtf8` or `NoContent` says why they are none; `NoMemory`.
    pub fn is_content(&self) -> Result<(), Error> {
        // SAFETY: as above.
        result_of(unsafe {
            raw::markdown_inline_is_content(
                self.document.as_ptr(),
                self.document.len(),
                self.pieces.as_ptr(),
                self.pieces.len(),
            )
        })
    }

    /// The events of the pieces as a text.
    ///
    /// A call tests the whole document, passes all that is before the pieces, and puts the labels in order. So a call for each paragraph of one document takes
    /// time in proportion to its square: for many contents there is `texts`.
    ///
    /// # Errors
    ///
    /// Each [`Error`] but `NoReference`, `References` and `NoString`.
    pub fn text(&self) -> Result<Events, Error> {
        let mut events = Events::new();
        self.text_into(&mut events)?;
        events.raw = fitted(events.raw);
        Ok(events)
    }

    /// The events of the pieces as a string. Definitions are not looked at, and lines may be blank. A call tests the whole document, and passes all that is
    /// before the pieces.
    ///
    /// # Errors
    ///
    /// Those of `text` but `Definition` and `BlankLine`.
    pub fn string(&self) -> Result<Events, Error> {
        let mut events = Events::new();
        self.string_into(&mut events)?;
        events.raw = fitted(events.raw);
        Ok(events)
    }

    /// The events as a text in place of those given, in the memory of those.
    ///
    /// # Errors
    ///
    /// Those of `text`; then there are no events.
    pub fn text_into(&self, events: &mut Events) -> Result<(), Error> {
        let expected = many_of(self.len());
        self.fill(raw::markdown_inline_text, expected, &mut events.raw)
    }

    /// The events as a string in place of those given, in the memory of those.
    ///
    /// # Errors
    ///
    /// Those of `string`; then there are no events.
    pub fn string_into(&self, events: &mut Events) -> Result<(), Error> {
        let expected = many_of(self.len());
        self.fill(raw::markdown_inline_string, expected, &mut events.raw)
    }

    /// The leaves of the pieces as a text, each with its bytes. A call costs what `text` does: for many contents there is `texts`.
    ///
    /// # Errors
    ///
    /// Those of `text`.
    ///
    /// ```
    /// # fn main() -> Result<(), markdown_inline::Error> {
    /// let leaves = markdown_inline::inline::Input::new("a *b*").leaves()?;
    /// let bytes: Vec<_> = leaves.iter().map(|leaf| leaf.bytes).collect();
    /// assert_eq!(bytes, [&b"a "[..], b"*", b"b", b"*"]);
    /// # Ok(())
    /// # }
    /// ```
    pub fn leaves(&self) -> Result<Leaves<'a>, Error> {
        let mut leaves = Leaves::new();
        self.leaves_into(&mut leaves)?;
        leaves.raw = fitted(leaves.raw);
        Ok(leaves)
    }

    /// The leaves in place of those given, in the memory of those.
    ///
    /// # Errors
    ///
    /// Those of `text`; then there are no leaves.
    pub fn leaves_into(&self, leaves: &mut Leaves<'a>) -> Result<(), Error> {
        leaves.document = self.document;
        let expected = many_of(self.len()) / 2;
        self.fill(raw::markdown_inline_leaves, expected, &mut leaves.raw)
    }

    /// The events of many contents as texts, each of some of the pieces. The document is prepared once, and each content costs what it costs by
    /// itself, wherever it is. Whether a text is the first of a list item is said of each, and not by the options.
    ///
    /// # Errors
    ///
    /// Those of `text`; a content whose range is none of the pieces is `NoContent`. The refusal says which content or definition is to blame. `texts_into` keeps
    /// what was read before.
    ///
    /// Several threads may share the contents of one input. Each thread prepares the document for itself, so pass it many contents:
    ///
    /// ```
    /// use markdown_inline::inline::{Input, Piece, TextContent};
    /// use std::thread;
    /// # fn main() -> Result<(), markdown_inline::Refusal> {
    /// let places = [(0, 5), (7, 12), (14, 20), (22, 23)];
    /// let pieces = places.map(|(start, end)| Piece { start, end, ..Piece::default() });
    /// let contents: Vec<_> = (0..4).map(|at| TextContent { pieces: at..at + 1, ..TextContent::default() }).collect();
    /// let input = Input::new("a *b*\n\nc `d`\n\n[e](f)\n\ng").pieces(&pieces);
    /// let parts = thread::scope(|scope| {
    ///     let calls: Vec<_> = contents.chunks(2).map(|part| scope.spawn(|| input.texts(part))).collect();
    ///     calls.into_iter().map(|call| call.join().unwrap()).collect::<Result<Vec<_>, _>>()
    /// })?;
    /// let found = parts.iter().flat_map(|part| part.iter());
    /// assert!(found.flatten().eq(input.texts(&contents)?.iter().flatten()));
    /// # Ok(())
    /// # }
    /// ```
    pub fn texts(&self, contents: &[TextContent]) -> Result<Texts, Refusal> {
        let mut texts = Texts::new();
        self.texts_into(contents, &mut texts)?;
        texts.events = fitted(texts.events);
        Ok(texts)
    }

    /// The events of many contents in place of those given, in the memory of those.
    ///
    /// # Errors
    ///
    /// Those of `texts`. If a content is refused, the events of those before it stay, of as many as its number says; after another error there are none.
    ///
    /// ```
    /// use markdown_inline::inline::{Input, Piece, TextContent, Texts};
    /// use markdown_inline::Error;
    /// let pieces = [Piece::from(0..1), Piece::from(3..9)];
    /// let (input, mut texts) = (Input::new("a\n\nb").pieces(&pieces), Texts::new());
    /// let refusal = input.texts_into(&[TextContent::from(0..1), TextContent::from(1..2)], &mut texts).unwrap_err();
    /// assert_eq!((refusal.error, refusal.at, texts.len()), (Error::NoContent, Some(1), 1));
    /// ```
    pub fn texts_into(&self, contents: &[TextContent], texts: &mut Texts) -> Result<(), Refusal> {
        let call = raw::markdown_inline_texts;
        self.fill_texts(call, contents, &mut texts.events, &mut texts.ends)
    }

    /// The same events in 16 bytes each, with the definitions that links, images and footnote calls refer to, and the characters that character references
    /// stand for.
    ///
    /// # Errors
    ///
    /// Those of `texts`.
    ///
    /// ```
    /// use markdown_inline::inline::{Input, Name, TextContent};
    /// # fn main() -> Result<(), markdown_inline::Refusal> {
    /// let input = Input::new("[a](b) [c] [D]").definitions(["d", "c"]);
    /// let texts = input.short_texts(&[TextContent { pieces: 0..1, ..TextContent::default() }])?;
    /// let links = texts.get(0).unwrap().filter(|event| event.is_enter() && event.name == Name::Link);
    /// assert!(links.map(|link| link.definition).eq([None, Some(1), Some(0)]));
    /// # Ok(())
    /// # }
    /// ```
    pub fn short_texts(&self, contents: &[TextContent]) -> Result<ShortTexts, Refusal> {
        let mut texts = ShortTexts::new();
        self.short_texts_into(contents, &mut texts)?;
        texts.events = fitted(texts.events);
        Ok(texts)
    }

    /// The short events of many contents in place of those given, in the memory of those.
    ///
    /// # Errors
    ///
    /// Those of `texts_into`, and the same stays then.
    pub fn short_texts_into(
        &self,
        contents: &[TextContent],
        texts: &mut ShortTexts,
    ) -> Result<(), Refusal> {
        let call = raw::markdown_inline_short_texts;
        self.fill_texts(call, contents, &mut texts.events, &mut texts.ends)
    }

    fn fill_texts<T>(
        &self,
        call: TextsCall<T>,
        contents: &[TextContent],
        events: &mut Vec<T>,
        ends: &mut Vec<usize>,
    ) -> Result<(), Refusal> {
        events.clear();
        ends.clear();
        let (input, given) = (self.raw(), raw_contents(contents)?);
        let expected = many_of(self.len_of_all(contents)) + 8 * contents.len();
        // SAFETY: each pointer goes with the length of its array, and nothing is kept.
        fill_many(
            events,
            ends,
            given.len(),
            expected,
            true,
            |lent, outcome| unsafe {
                let contents = given.as_ptr().add(lent.from);
                call(
                    &input,
                    contents,
                    lent.ends_len,
                    lent.array,
                    lent.len,
                    lent.ends,
                    lent.ends_len,
                    outcome,
                )
            },
        )
    }

    /// The HTML of the pieces as a text. Each call numbers footnotes from 1 on. A call costs what `text` costs: for many contents there is `htmls`.
    ///
    /// # Errors
    ///
    /// Those of `text`, and `References` where references expand to more than `reference_limit` says.
    ///
    /// ```
    /// use markdown_inline::inline::{HtmlOptions, Input};
    /// # fn main() -> Result<(), markdown_inline::Error> {
    /// let input = Input::new("*a* [b]").definition_to("b", "/c", Some("d"));
    /// assert_eq!(input.html(HtmlOptions::default())?, r#"<em>a</em> <a href="/c" title="d">b</a>"#);
    /// # Ok(())
    /// # }
    /// ```
    pub fn html(&self, options: HtmlOptions) -> Result<String, Error> {
        let mut bytes = Vec::new();
        self.html_bytes(options, &mut bytes)?;
        String::from_utf8(fitted(bytes)).map_err(|_| Error::NotUtf8)
    }

    /// The HTML in place of what is given, in the memory of that.
    ///
    /// # Errors
    ///
    /// Those of `html`; then there is no HTML.
    pub fn html_into(&self, options: HtmlOptions, html: &mut String) -> Result<(), Error> {
        let mut bytes = mem::take(html).into_bytes();
        let filled = self.html_bytes(options, &mut bytes);
        *html = String::from_utf8(bytes).map_err(|_| Error::NotUtf8)?;
        filled
    }

    fn html_bytes(&self, options: HtmlOptions, bytes: &mut Vec<u8>) -> Result<(), Error> {
        let input = self.raw();
        let expected = 2 * self.len() + 128;
        // SAFETY: each pointer goes with the length of its array, and nothing is kept.
        fill(bytes, expected, |array, len, count| unsafe {
            raw::markdown_inline_html(
                &input,
                self.targets.as_ptr(),
                self.targets.len(),
                options.bits(),
                self.reference_limit,
                array,
                len,
                count,
            )
        })
    }

    /// The HTML of many contents as texts, each of some of the pieces. The document is prepared once, and each content costs what it costs by itself, wherever it
    /// is. Footnotes are numbered through all contents.
    ///
    /// # Errors
    ///
    /// Those of `texts`, and `References` where references expand to more than `reference_limit` says. The refusal says which content or definition is to blame.
    ///
    /// ```
    /// use markdown_inline::inline::{HtmlOptions, Input, Piece, TextContent};
    /// # fn main() -> Result<(), markdown_inline::Refusal> {
    /// let pieces = [(0, 3), (5, 8)].map(|(start, end)| Piece { start, end, ..Piece::default() });
    /// let contents = [0..1, 1..2].map(|pieces| TextContent { pieces, ..TextContent::default() });
    /// let input = Input::new("[a]\n\n*b*").pieces(&pieces).definition_to("a", "/c", None);
    /// let htmls = input.htmls(&contents, HtmlOptions::default())?;
    /// assert!(htmls.iter().eq([r#"<a href="/c">a</a>"#, "<em>b</em>"]));
    /// # Ok(())
    /// # }
    /// ```
    pub fn htmls(&self, contents: &[TextContent], options: HtmlOptions) -> Result<Htmls, Refusal> {
        let mut htmls = Htmls::new();
        self.htmls_into(contents, options, &mut htmls)?;
        Ok(htmls)
    }

    /// The HTML of many contents in place of what is given, in the memory of that.
    ///
    /// # Errors
    ///
    /// Those of `htmls`. If a content is refused, the HTML of those before it stays; after another error there is none.
    pub fn htmls_into(
        &self,
        contents: &[TextContent],
        options: HtmlOptions,
        htmls: &mut Htmls,
    ) -> Result<(), Refusal> {
        let mut bytes = mem::take(&mut htmls.html).into_bytes();
        let filled = self.htmls_bytes(contents, options, &mut bytes, &mut htmls.ends);
        htmls.html = String::from_utf8(bytes).map_err(|_| Error::NotUtf8)?;
        filled
    }

    // The bytes of the HTML of many contents, and where that of each ends. Where there are footnotes, which are numbered through all contents, a second call is for
    // all of them too.
    fn htmls_bytes(
        &self,
        contents: &[TextContent],
        options: HtmlOptions,
        bytes: &mut Vec<u8>,
        ends: &mut Vec<usize>,
    ) -> Result<(), Refusal> {
        bytes.clear();
        ends.clear();
        let (input, given) = (self.raw(), raw_contents(contents)?);
        let expected = 2 * self.len_of_all(contents) + 128;
        let goes_on = self.footnotes.is_empty();
        // SAFETY: each pointer goes with the length of its array, and nothing is kept.
        fill_many(
            bytes,
            ends,
            given.len(),
            expected,
            goes_on,
            |lent, outcome| unsafe {
                raw::markdown_inline_htmls(
                    &input,
                    self.targets.as_ptr(),
                    self.targets.len(),
                    given.as_ptr().add(lent.from),
                    lent.ends_len,
                    options.bits(),
                    self.reference_limit,
                    lent.array,
                    lent.len,
                    lent.ends,
                    lent.ends_len,
                    outcome,
                )
            },
        )
    }

    fn fill<T>(&self, call: Call<T>, expected: usize, found: &mut Vec<T>) -> Result<(), Error> {
        let input = self.raw();
        // SAFETY: each pointer of the input goes with its slice's length, that of the array with the room of the vector, and nothing is kept.
        fill(found, expected, |array, len, count| unsafe {
            call(&input, array, len, count)
        })
    }

    /// How many bytes are read, as far as the pieces are right: no more than the document has.
    fn len(&self) -> usize {
        len_of(&self.pieces).min(self.document.len())
    }

    /// How many bytes contents have, as far as their pieces are right: no more than the document has.
    fn len_of_all(&self, contents: &[TextContent]) -> usize {
        let pieces = |it: &TextContent| self.pieces.get(it.pieces.clone()).unwrap_or_default();
        let lens = contents.iter().map(|it| len_of(pieces(it)));
        lens.fold(0, usize::saturating_add).min(self.document.len())
    }

    pub(crate) fn document(&self) -> &[u8] {
        self.document
    }

    pub(crate) fn options_given(&self) -> Constructs {
        self.options
    }

    /// How many bytes references may expand to, if there is a limit.
    pub(crate) fn limit_given(&self) -> Option<usize> {
        match self.reference_limit {
            0 => Some(self.document.len().max(LEAST_DEFAULT_LIMIT)),
            NO_LIMIT => None,
            limit => Some(limit),
        }
    }

    /// Where the definition with this number leads.
    pub(crate) fn target(&self, definition: usize) -> RawTarget {
        self.targets[definition]
    }

    /// What is at a range of the labels.
    pub(crate) fn label(&self, range: RawRange) -> &[u8] {
        &self.labels[range.start..range.end]
    }

    fn raw(&self) -> RawInput {
        RawInput {
            bytes: self.document.as_ptr(),
            bytes_len: self.document.len(),
            pieces: self.pieces.as_ptr(),
            pieces_len: self.pieces.len(),
            labels: self.labels.as_ptr(),
            labels_len: self.labels.len(),
            definitions: self.definitions.as_ptr(),
            definitions_len: self.definitions.len(),
            footnotes: self.footnotes.as_ptr(),
            footnotes_len: self.footnotes.len(),
            options: self.options.bits(),
            reserved: 0,
        }
    }
}

fn raw_contents(contents: &[TextContent]) -> Result<Vec<RawContent>, Error> {
    let mut found = Vec::new();
    found
        .try_reserve_exact(contents.len())
        .map_err(|_| Error::NoMemory)?;
    found.extend(contents.iter().map(RawContent::of));
    Ok(found)
}

fn len_of(pieces: &[Piece]) -> usize {
    let lens = pieces.iter().map(|it| it.end.saturating_sub(it.start));
    lens.fold(0, usize::saturating_add)
}

/// How many events a text of so many bytes has at most, but for one of little else than constructs: two for each byte where it is short, one in a long
/// paragraph, and half of that in a text that is longer than any paragraph.
fn many_of(len: usize) -> usize {
    (2 * len).min(len + 256).min(len / 2 + 32_768) + 16
}

fn result_of(status: u32) -> Result<(), Error> {
    match status {
        raw::DONE => Ok(()),
        status => Err(Error::of(status)),
    }
}
