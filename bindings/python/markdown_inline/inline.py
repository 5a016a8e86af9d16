"""The calls for one text, such as the inside of a paragraph: events, links, HTML, a tree.

    >>> from markdown_inline.inline import Kind, Name, html, text
    >>> html('a *b*')
    'a <em>b</em>'
    >>> [str(event.name) for event in text('a *b*') if event.kind == Kind.Enter][:4]
    ['Data', 'Emphasis', 'EmphasisSequence', 'EmphasisText']
    >>> [event.index for event in text('a *b*') if event.name == Name.Emphasis]
    [2, 5]

Kinds and names are members of enumerations, and equal to no string; `str` of them is the text that the program mdinline prints. By default a text is read as
CommonMark 0.31.2 says, as in C and in Rust; `gfm=True` asks for what GitHub adds. `python -m markdown_inline.inline` prints the events of a paragraph.
"""
from types import MappingProxyType
from typing import Any, Iterable, List, Literal, Mapping, Optional, Sequence, Tuple, Union

from . import _arguments, _library, _links, _tables
from ._errors import DefinitionError, NoMemory, raised
from ._events import Characters, Event, Events, Leaf, Leaves, Link, ShortEvent, ShortEvents, ShortTexts, Texts
from ._lines import Lines
from ._links import Address
from ._names import Kind, Name
from ._tree import Node, Tree, tree_of
from ._types import Content, Html, Limit, LineEnds, Piece, Text

__all__ = [
    'Address', 'COMMONMARK', 'CRATE', 'Content', 'Event', 'Events', 'GFM', 'Kind', 'Leaf', 'Leaves', 'Link', 'MATH', 'Name', 'Node', 'OPTIONS', 'Piece',
    'ShortEvent', 'ShortEvents', 'ShortTexts', 'Texts', 'Tree', 'html', 'htmls', 'identifier', 'is_content', 'is_text', 'leaves', 'links', 'pieces_of_lines',
    'reference', 'short_texts', 'string', 'strings', 'text', 'texts', 'tree',
]

#: Each option by its name, as a bit of `options`. It cannot be changed.
OPTIONS: Mapping[str, int] = MappingProxyType(_tables.OPTIONS)
#: Bits of `options`: CommonMark 0.31.2.
COMMONMARK: int = _tables.COMMONMARK
#: Bits of `options`: CommonMark's constructs, by the rules of the crate `markdown`.
CRATE: int = _tables.CRATE
#: Bits of `options`: what GitHub adds.
GFM: int = _tables.GFM
#: Bits of `options`: math spans.
MATH: int = _tables.MATH


Pieces = Optional[Iterable[Sequence[int]]]
# A tuple of the same two serves as a Content too.
Contents = Iterable[Union[Content, Tuple[Sequence[Sequence[int]], bool]]]
Target = Union[Text, Tuple[Text, Optional[Text]]]
# The keys are texts. A mapping is invariant in its keys, so that a dict of `str` would not be one whose keys are any text.
Targets = Optional[Mapping[Any, Target]]
Rules = Literal['commonmark', 'crate']


def _characters(document: Text, bytes_given: bytes) -> Optional[Characters]:
    return Characters(bytes_given) if isinstance(document, str) else None


_SETS = {'commonmark': COMMONMARK, 'crate': CRATE}


def _bits(options: Optional[int], rules: Rules, gfm: bool = False, math: bool = False, task: bool = False) -> int:
    if options is not None:
        if not (gfm is math is task is False and rules == 'commonmark'):
            raise TypeError('options says all by bits, so no word can stand beside it')
        return _arguments.bits_of(options)
    bits = _arguments.one_of(rules, _SETS, 'rules')
    for given, what, its_bits in ((gfm, 'gfm', GFM), (math, 'math', MATH), (task, 'task', OPTIONS['first_of_item'])):
        if _arguments.flag_of(given, what):
            bits |= its_bits
    return bits


def _given(document: bytes, pieces: Pieces, options: int, definitions: Iterable[Text], footnotes: Iterable[Text]) -> _library.Given:
    return _library.Given(
        document, _arguments.pieces_of(pieces, len(document)), options, _arguments.labels_of(definitions, 'definitions'),
        _arguments.labels_of(footnotes, 'footnotes'))


def text(document: Text, pieces: Pieces = None, gfm: bool = False, math: bool = False, *, task: bool = False, rules: Rules = 'commonmark',
         options: Optional[int] = None, definitions: Iterable[Text] = (), footnotes: Iterable[Text] = ()) -> Events:
    """The events of a text: of a whole document, or of pieces of it. `gfm` switches on what GitHub adds to CommonMark, `math` math spans; `task` says
    that the text begins a list item. `rules` is 'commonmark', or 'crate' for those of the crate `markdown` where it departs from CommonMark 0.31.2.
    `options` says all of it by bits instead, as COMMONMARK | GFM.
    `definitions` and `footnotes` are labels as they are written.

    A call tests the whole document, passes all that is before the pieces, and sorts the labels. So calling it for each paragraph of one document takes quadratic
    time: for many contents there is `texts`.

    >>> print(*text('a'), sep='\\n')
    Enter Data 1 1 0 0
    Exit Data 1 2 1 0
    """
    bytes_given = _arguments.text_of(document, 'document')
    given = _given(bytes_given, pieces, _bits(options, rules, gfm, math, task), definitions, footnotes)
    status, raw = _library.events('markdown_inline_text', given)
    if status:
        raise raised(status)
    return Events(raw, _characters(document, bytes_given))


def tree(document: Text, pieces: Pieces = None, gfm: bool = False, math: bool = False, *, task: bool = False, rules: Rules = 'commonmark',
         options: Optional[int] = None, definitions: Iterable[Text] = (), footnotes: Iterable[Text] = ()) -> Tree:
    """The tree of a text, whose nodes are made when they are looked at. What is asked for is said as of `text`, and so is what a call costs.

    >>> [(node.enter.column, node.text) for node in tree('a *b* [*c*](d)').find(Name.Emphasis, Name.Link)]
    [(3, '*b*'), (7, '[*c*](d)'), (8, '*c*')]
    """
    events = text(document, pieces, gfm, math, task=task, rules=rules, options=options, definitions=definitions, footnotes=footnotes)
    return tree_of(events, _arguments.text_of(document, 'document'))


def string(document: Text, pieces: Pieces = None, *, rules: Rules = 'commonmark', options: Optional[int] = None) -> Events:
    """The events of a string: of escapes, character references and data. A call tests the whole document, and passes all that is before the pieces."""
    bytes_given = _arguments.text_of(document, 'document')
    given = _given(bytes_given, pieces, _bits(options, rules), (), ())
    status, raw = _library.events('markdown_inline_string', given)
    if status:
        raise raised(status)
    return Events(raw, _characters(document, bytes_given))


def leaves(document: Text, pieces: Pieces = None, gfm: bool = False, math: bool = False, *, task: bool = False, rules: Rules = 'commonmark',
           options: Optional[int] = None, definitions: Iterable[Text] = (), footnotes: Iterable[Text] = ()) -> Leaves:
    """The leaves of a text, in order: together they cover the pieces. What is asked for is said as of `text`, and so is what a call costs.

    >>> [leaf.content for leaf in leaves('a *b*')]
    [b'a ', b'*', b'b', b'*']
    """
    bytes_given = _arguments.text_of(document, 'document')
    given = _given(bytes_given, pieces, _bits(options, rules, gfm, math, task), definitions, footnotes)
    status, raw = _library.leaves(given)
    if status:
        raise raised(status)
    return Leaves(raw, _characters(document, bytes_given), bytes_given)


def texts(document: Text, contents: Contents, gfm: bool = False, math: bool = False, *, rules: Rules = 'commonmark', options: Optional[int] = None,
          definitions: Iterable[Text] = (), footnotes: Iterable[Text] = ()) -> Texts:
    """The events of many contents of a document as texts, of each alone. The document is prepared once, and each content costs what it costs alone, wherever it
    is. The keywords are those of `text` but for `task`, which each content says. If an error is about a content or a definition, its field `at` has the number
    of that."""
    bits = _bits(options, rules, gfm, math)
    return Texts(*_texts('markdown_inline_texts', _library.EVENT_SIZE, document, contents, bits, definitions, footnotes))


def short_texts(document: Text, contents: Contents, gfm: bool = False, math: bool = False, *, rules: Rules = 'commonmark', options: Optional[int] = None,
                definitions: Iterable[Text] = (), footnotes: Iterable[Text] = ()) -> ShortTexts:
    """The same events without their lines and columns, with the numbers of the definitions that links, images and footnote calls refer to, and the characters
    that character references stand for. The rest is that of `texts`.

    >>> events = short_texts('[a](b) [c]&copy;', [Content([(0, 16)])], definitions=['d', 'C'])[0]
    >>> [event.definition for event in events if event.kind == Kind.Enter and event.name == Name.Link]
    [None, 1]
    >>> [event.stands_for for event in events if event.stands_for]
    ['©']
    """
    bits = _bits(options, rules, gfm, math)
    return ShortTexts(*_texts('markdown_inline_short_texts', _library.SHORT_SIZE, document, contents, bits, definitions, footnotes))


def _texts(function: str, size: int, document: Text, contents: Contents, bits: int, definitions: Iterable[Text], footnotes: Iterable[Text]):
    """The bytes of events of this size, where those of each content end, and what counts characters."""
    bytes_given = _arguments.text_of(document, 'document')
    pieces, listed, count = _arguments.contents_of(contents)
    given = _library.Given(
        bytes_given, pieces, bits, _arguments.labels_of(definitions, 'definitions'), _arguments.labels_of(footnotes, 'footnotes'))
    status, raw, ends, blamed = _library.texts(function, size, given, listed, count)
    if status:
        raise raised(status, blamed)
    return raw, ends, _characters(document, bytes_given)


def links(document: Text, contents: Optional[Contents] = None, gfm: bool = False, math: bool = False, *, rules: Rules = 'commonmark',
          options: Optional[int] = None, definitions: Targets = None, footnotes: Iterable[Text] = ()) -> List[Address]:
    """The links, images, autolinks and bare URLs of many contents of a document, in the order in which they begin, and where each leads. Without contents the
    document is one text. `definitions` is that of `html`, and the other keywords are those of `texts`.

    >>> [(it.line, it.column, it.destination, it.title) for it in links('*é* [a](b "c")\\n<de:f> [g]', definitions={'G': '/h'})]
    [(1, 5, 'b', 'c'), (2, 1, 'de:f', None), (2, 8, '/h', None)]
    """
    given, bits = _arguments.text_of(document, 'document'), _bits(options, rules, gfm, math)
    labels, _, _ = _arguments.targets_of(definitions)
    listed = [Content([(0, len(given))], bool(bits & OPTIONS['first_of_item']))] if contents is None else contents
    found, parts = _links.found_in(short_texts(given, listed, options=bits & ~OPTIONS['first_of_item'], definitions=labels, footnotes=footnotes))
    return _links.addresses(Lines(given, _characters(document, given)), found, strings(given, parts, options=bits), _targets(definitions or {}))


def _targets(definitions: Mapping[Any, Target]) -> List[Tuple[str, Optional[str]]]:
    """Where definitions lead, as texts."""
    found: List[Tuple[str, Optional[str]]] = []
    for at, target in enumerate(definitions.values()):
        destination, title = _arguments.target_of(target)
        try:
            found.append((destination.decode(), None if title is None else title.decode()))
        except UnicodeDecodeError:
            raise raised(DefinitionError.status, at) from None
    return found


def html(document: Text, pieces: Pieces = None, gfm: bool = False, math: bool = False, *, task: bool = False, rules: Rules = 'commonmark',
         options: Optional[int] = None, definitions: Targets = None, footnotes: Iterable[Text] = (), html: Html = 'escape', any_link: bool = False,
         line_ends: LineEnds = None, limit: Limit = None) -> str:
    """The HTML of a text. `definitions` has for each label, as it is written, its destination, or the destination and a title, with escapes and
    character references resolved. `html`, `any_link` and `line_ends` are those of `markdown_inline.render`, and `limit` is that of `htmls`. The rest is said as of
    `text`, and so is what a call costs: for many contents there is `htmls`.

    >>> html('*a* [b]', definitions={'b': ('/c', 'd')})
    '<em>a</em> <a href="/c" title="d">b</a>'
    """
    bytes_given = _arguments.text_of(document, 'document')
    defined, targets, written = _arguments.targets_of(definitions)
    given = _library.Given(
        bytes_given, _arguments.pieces_of(pieces, len(bytes_given)), _bits(options, rules, gfm, math, task), defined,
        _arguments.labels_of(footnotes, 'footnotes'), written)
    status, found = _library.html(given, targets, len(defined), _arguments.shown_of(html, any_link, line_ends), _arguments.limit_of(limit))
    if status:
        raise raised(status)
    return str(found, 'utf-8')


def htmls(document: Text, contents: Contents, gfm: bool = False, math: bool = False, *, rules: Rules = 'commonmark', options: Optional[int] = None,
          definitions: Targets = None, footnotes: Iterable[Text] = (), html: Html = 'escape', any_link: bool = False, line_ends: LineEnds = None,
          limit: Limit = None) -> List[str]:
    """The HTML of many contents of a document as texts. The document is prepared once, and each content costs what it costs alone, wherever it is. Footnotes
    are numbered through all contents. The keywords are those of `html` but for `task`, which each content says.

    `limit` is how many bytes references may expand to in all contents together: those of the destination and of the title, for each link and image that refers to
    a definition. None is the length of the document, or 100,000 where that is more, as in cmark. `math.inf` is no limit. Beyond the limit References is
    raised.

    >>> htmls('a[^b]\\n\\n*c*', [Content([(0, 5)]), Content([(7, 10)])])
    ['a[^b]', '<em>c</em>']
    """
    bytes_given = _arguments.text_of(document, 'document')
    pieces, listed, count = _arguments.contents_of(contents)
    defined, targets, written = _arguments.targets_of(definitions)
    given = _library.Given(bytes_given, pieces, _bits(options, rules, gfm, math), defined, _arguments.labels_of(footnotes, 'footnotes'), written)
    shown = _arguments.shown_of(html, any_link, line_ends)
    status, found, ends, blamed = _library.htmls(given, targets, len(defined), listed, count, shown, _arguments.limit_of(limit))
    if status:
        raise raised(status, blamed)
    return _library.parted(found, ends)


def strings(
        document: Text, strings: Iterable[Iterable[Sequence[int]]], *, rules: Rules = 'commonmark', options: Optional[int] = None, line_feeds: bool = False,
        replaced_nul: bool = False) -> List[str]:
    """The texts of strings, such as titles and destinations, with escapes and character references resolved. A string is a list of parts, each a range
    of bytes of the document as (start, end), which are one text. In a paragraph they are what `Data` and `LineEnding` cover inside it.
    References are decoded as of `reference`, by the rules or the options with which the document is read. With `line_feeds` each line ending is written as a
    line feed, and with `replaced_nul` NUL as U+FFFD.

    >>> strings('[a](b\\\\*c "d &check; e")', [[(4, 8)], [(10, 21)]])
    ['b*c', 'd ✓ e']
    """
    bytes_given = _arguments.text_of(document, 'document')
    parts, listed, count = _arguments.strings_of(strings)
    how = _arguments.flag_of(line_feeds, 'line_feeds') | _arguments.flag_of(replaced_nul, 'replaced_nul') << 1
    status, found, ends, at = _library.strings(_bits(options, rules), how, bytes_given, parts, listed, count)
    if status:
        raise raised(status, at)
    return _library.parted(found, ends)


def pieces_of_lines(document: Text, starts: Iterable[int]) -> List[Piece]:
    """The pieces of a paragraph, made of where its lines begin: `starts` are the bytes at which the paragraph's part of each line begins, after the markers of
    quotes and items; spaces and tabs may follow. A piece begins at the first byte from its start on that is no space or tab, and ends just after its line's ending;
    the last one ends before the whitespace at its end.

    Each start but the first is on the line after that of the start before, or else NoContent is raised, as for one inside a character or after the end of
    the document. If a line has only spaces and tabs after its start, BlankLine is raised. The field `at` of both has the number of the first start that is
    rejected. A call reads these lines alone, but a document that is a `str` is encoded first: for many paragraphs pass bytes.

    >>> pieces_of_lines('> a *b\\n> c*', [1, 8])
    [Piece(start=2, end=7, start_vs=0, end_vs=0), Piece(start=9, end=11, start_vs=0, end_vs=0)]
    """
    bytes_given = _arguments.text_of(document, 'document')
    status, found, blamed = _library.pieces_of_lines(bytes_given, _arguments.starts_of(starts))
    if status:
        raise raised(status, blamed)
    return [Piece(*it) for it in zip(found[::4], found[2::4], found[1::4], found[3::4])]


def identifier(label: Text) -> str:
    """The identifier of a label, as labels are compared: its words joined by one space and case folded."""
    return _decoded('markdown_inline_identifier', _arguments.text_of(label, 'label'))


def reference(reference: Text, *, rules: Rules = 'commonmark', options: Optional[int] = None) -> str:
    """The text that a character reference stands for. It is the whole reference, with its `&` and its `;`. By CommonMark each name of HTML is known, and a
    number stands for a control or a noncharacter too. Of `options` the bit of `html_references` says the former, and that of `standard_rules` both.

    >>> reference('&amp;'), reference('&#x41;'), reference('&check;')
    ('&', 'A', '✓')
    """
    return _decoded('markdown_inline_reference', _arguments.text_of(reference, 'reference'), _bits(options, rules))


def _decoded(function: str, given: bytes, *before: int) -> str:
    status, found = _library.decoded(function, given, *before)
    if status:
        raise raised(status)
    return str(found, 'utf-8')


def is_text(document: Text, pieces: Pieces = None) -> bool:
    """Whether the pieces are a text of the document. If memory runs out, this is not known, and NoMemory is raised."""
    return _holds('markdown_inline_is_text', document, pieces)


def is_content(document: Text, pieces: Pieces = None) -> bool:
    """Whether the pieces are a content of the document. If memory runs out, this is not known, and NoMemory is raised."""
    return _holds('markdown_inline_is_content', document, pieces)


def _holds(function: str, document: Text, pieces: Pieces) -> bool:
    bytes_given = _arguments.text_of(document, 'document')
    status = _library.tested(function, bytes_given, _arguments.pieces_of(pieces, len(bytes_given)))
    if status == NoMemory.status:
        raise raised(status)
    return status == _library.DONE


if __name__ == '__main__':
    import sys

    from ._paragraph import main
    sys.exit(main(sys.argv[1:]))
