"""Documents: their blocks as rows and as nodes, and what is in their texts."""
import operator
import struct
from array import array
from bisect import bisect_left, bisect_right
from itertools import islice
from typing import Any, Dict, Iterator, List, NamedTuple, Optional, Sequence, Tuple, Union, overload

from . import _arguments, _blocks, _inlines, _library, _links, _mdast
from ._block import ROW, Block
from ._errors import NotUtf8, raised
from ._events import Characters, ShortTexts, Texts
from ._kinds import Kind
from ._lines import Lines
from ._links import Address
from ._names import Name
from ._nodes import Node, NodeKind, with_line_feeds
from ._types import Piece

_CONTENT = struct.Struct('=2QI4x')
_TARGET = struct.Struct('=4QI4x')
# How strings are written: with LF for each line ending, and with U+FFFD for NUL.
_WITH_LF, _WITHOUT_NUL = 1, 2
# The kinds that are looked at, as plain numbers, which are compared faster than members.
_BLANK_LINE, _HEADING, _PARAGRAPH, _ITEM = map(int, (Kind.BlankLine, Kind.Heading, Kind.Paragraph, Kind.Item))
# The bytes of rows, as a call wrote them.
_Raw = Union[bytes, memoryview]
# What definitions say, as it crosses: the texts of labels and targets, where the labels are among them, and where each leads.
_Defined = Tuple[bytes, 'array[int]', _Raw]


class Definition(NamedTuple):
    """A link reference definition of a document: its label as it is written, and where it leads, with escapes and character references resolved. `title` is
    None where it has none."""
    label: str
    destination: str
    title: Optional[str]


class Asked(NamedTuple):
    """How a document is read and written: the bits of options, of blocks and of HTML, and the limit."""
    options: int
    blocks: int
    shown: int
    limit: int


class Document(Sequence[Block]):
    """A document. As a sequence it has its blocks in order, as rows: `Block`s, each of which is made when it is looked at. `children`, `walk` and `find` return
    nodes. What the texts of headings and paragraphs hold is found by one call for all of them, when it is first asked for."""
    __slots__ = (
        '_bytes', '_characters', '_asked', '_rows', '_pieces', '_contents', '_numbers', '_positions', '_defined', '_listed', '_texts', '_short_texts', '_htmls', '_links', '_root', '_given_text')

    def __init__(self, document: bytes, characters: Optional[Characters], asked: Asked) -> None:
        self._bytes, self._characters, self._asked = document, characters, asked
        status, (self._rows, pieces) = _library.blocks(document, asked.blocks)
        if status:
            raise raised(status, _first_wrong(document) if status == NotUtf8.status else None)
        self._pieces = array('Q')
        self._pieces.frombytes(pieces)
        self._contents, self._numbers = _contents_of(self._rows)
        self._positions: Optional[Lines] = None
        self._defined: Optional[_Defined] = None
        self._listed: Optional[List[Definition]] = None
        self._texts: Optional[Texts] = None
        self._short_texts: Optional[ShortTexts] = None
        self._htmls: Optional[List[str]] = None
        self._links: Optional[Tuple[List[Address], List[int]]] = None
        self._root: Optional[Node] = None
        self._given_text: Optional[str] = None

    def __len__(self) -> int:
        return len(self._rows) // ROW.size

    @overload
    def __getitem__(self, at: int) -> Block: ...

    @overload
    def __getitem__(self, at: slice) -> List[Block]: ...

    def __getitem__(self, at: Any) -> Any:
        if isinstance(at, slice):
            return [self._block(it) for it in range(*at.indices(len(self)))]
        number = operator.index(at)
        if number < 0:
            number += len(self)
        if not 0 <= number < len(self):
            raise IndexError('there are %d blocks, and none has this number' % len(self))
        return self._block(number)

    def __iter__(self) -> Iterator[Block]:
        return map(self._block, range(len(self)))

    def _is_same(self, other: 'Document') -> bool:
        return self is other or (self._bytes, self._asked, not self._characters) == (other._bytes, other._asked, not other._characters)

    def __eq__(self, other: object) -> bool:
        if isinstance(other, Document) and self._is_same(other):
            return True
        if not isinstance(other, (list, Document)):
            return NotImplemented
        return len(self) == len(other) and all(map(operator.eq, self, other))

    __hash__ = None  # type: ignore[assignment]

    def __repr__(self) -> str:
        return repr(list(self))

    def __reduce__(self) -> Tuple[Any, ...]:
        return Document, (self._bytes, self._characters, self._asked)

    def _block(self, at: int) -> Block:
        row, content = ROW.unpack_from(self._rows, at * ROW.size), bisect_left(self._numbers, at)
        return Block(self, at, row, content if content < len(self._numbers) and self._numbers[content] == at else None)

    @property
    def raw(self) -> Union[str, bytes]:
        """The document as it was given. What a node is of it is between its `start` and its `end`."""
        if self._given_text is None and self._characters is not None:
            self._given_text = self._bytes.decode()
        return self._bytes if self._given_text is None else self._given_text

    @property
    def root(self) -> Node:
        """The node of the whole document."""
        if self._root is None:
            self._root = _blocks.Builder(self).build(list(ROW.iter_unpack(self._rows)))
        return self._root

    @property
    def children(self) -> Tuple[Node, ...]:
        """The nodes of the blocks that are in no other."""
        return self.root.children

    def walk(self) -> Iterator[Node]:
        """All nodes, in the order in which they begin."""
        return self.root.walk()

    def find(self, *kinds: NodeKind) -> Iterator[Node]:
        """The nodes of these kinds, in the order in which they begin.

        >>> from markdown_inline import parse
        >>> [(node.line, node.text) for node in parse('# *a*\\n\\n> ## `b`').find('heading')]
        [(1, 'a'), (3, 'b')]
        """
        return self.root.find(*kinds)

    @property
    def headings(self) -> List[Node]:
        """The headings, in order."""
        return list(self.find('heading'))

    @property
    def front_matter(self) -> Optional[Tuple[str, str]]:
        """The language and the text of the front matter, 'yaml' between lines of `---` and 'toml' between lines of `+++`; None where there is none.

        >>> from markdown_inline import parse
        >>> parse('---\\na: b\\n---\\n# c', front_matter=True).front_matter
        ('yaml', 'a: b\\n')
        """
        if not self or self[0].kind != Kind.FrontMatter:
            return None
        # Before its first fence at most a byte order mark stands.
        return 'toml' if b'+' in self._bytes[:4] else 'yaml', with_line_feeds(self[0].source)

    @property
    def text(self) -> str:
        """The text of all paragraphs, headings, code and math, without markup and raw HTML. A blank line separates two of them."""
        return self.root.text

    def to_text(self) -> str:
        """The plain text of the document: `text`."""
        return self.text

    def to_mdast(self) -> Dict[str, Any]:
        """The tree of mdast, as dictionaries with positions."""
        return _mdast.tree_of(self)

    def to_json(self) -> str:
        """The tree of mdast as JSON."""
        return _mdast.json_of(self)

    @property
    def definitions(self) -> List[Definition]:
        """The link reference definitions of the document, in order. Of several with one identifier the first counts."""
        if self._listed is None:
            texts, ranges, targets = self._definitions()
            self._listed = []
            for at, (start, end, title, title_end, has_title) in enumerate(_TARGET.iter_unpack(targets)):
                label, destination = _inlines.plain(texts[ranges[2 * at]:ranges[2 * at + 1]]), _inlines.plain(texts[start:end])
                self._listed.append(Definition(label, destination, _inlines.plain(texts[title:title_end]) if has_title else None))
        return self._listed

    @property
    def texts(self) -> Texts:
        """The events of the texts of all headings and paragraphs, in order."""
        if self._texts is None:
            self._texts = Texts(*self._events('markdown_inline_texts', _library.EVENT_SIZE))
        return self._texts

    @property
    def short_texts(self) -> ShortTexts:
        """The short events of the same texts. The number of a definition is that of it among `definitions`."""
        if self._short_texts is None:
            self._short_texts = ShortTexts(*self._events('markdown_inline_short_texts', _library.SHORT_SIZE))
        return self._short_texts

    @property
    def htmls(self) -> List[str]:
        """The HTML of the same texts."""
        if self._htmls is None:
            targets, many = self._definitions()[2], len(self._numbers)
            status, found, ends, blamed = _library.htmls(
                self._given(), bytes(targets), len(targets) // _TARGET.size, self._contents, many, self._asked.shown, self._asked.limit)
            if status:
                raise raised(status, blamed)
            self._htmls = _library.parted(found, ends)
        return self._htmls

    @property
    def links(self) -> List[Address]:
        """The links, images, autolinks and bare URLs of the same texts, in order. The number `content` of each is that of its text."""
        return self._all_links()[0]

    def _all_links(self) -> Tuple[List[Address], List[int]]:
        """The links, and the number of the text of each."""
        if self._links is None:
            found, parts = _links.found_in(self.short_texts)
            targets = [(it.destination, it.title) for it in self.definitions]
            listed = _links.addresses(self._lines, found, self._strings(self._bytes, parts), targets, _inlines.plain)
            self._links = listed, [it.content for it in listed]
        return self._links

    def _link(self, content: int, number: int) -> Address:
        """The link of this number in a text."""
        listed, contents = self._all_links()
        return listed[bisect_left(contents, content) + number]

    def _links_of(self, content: int) -> List[Address]:
        listed, contents = self._all_links()
        return listed[bisect_left(contents, content):bisect_right(contents, content)]

    def _content(self, row: int) -> int:
        """The number of the text of a heading or a paragraph."""
        return bisect_left(self._numbers, row)

    def _inlines(self, row: int) -> Tuple[Node, ...]:
        """The nodes of the text of a heading or a paragraph."""
        return _inlines.Builder(self, self._content(row)).build()

    def _check(self, row: int) -> Optional[bool]:
        """Whether the checkbox at the front of a paragraph is checked; None where there is none."""
        names = [name for _, name, _, _ in islice(self.short_texts[self._content(row)].flat(), 4)]
        if names[:1] != [Name.GfmTaskListItemCheck]:
            return None
        return names[3] == Name.GfmTaskListItemValueChecked

    def _written(self, content: int, start: int, end: int) -> str:
        """What is written from a byte to a byte of a text, without the markers of containers between its lines."""
        if self._lines.line(start) == self._lines.line(end):
            return _inlines.plain(self._bytes[start:end])
        first, after, *_ = ROW.unpack_from(self._rows, self._numbers[content] * ROW.size)
        starts = self._pieces[4 * first:4 * after:4]
        numbers = range(first + bisect_right(starts, start) - 1, first + bisect_left(starts, end))
        pieces = (self._piece(number) for number in numbers)
        return with_line_feeds(_inlines.plain(b''.join(self._bytes[max(start, it.start):min(end, it.end)] for it in pieces)))

    def _resolved(self, text: str) -> str:
        """A text with its escapes and character references resolved."""
        given = text.encode()
        return self._strings(given, [[(0, len(given))]])[0] if '\\' in text or '&' in text else _inlines.plain(given)

    def _definitions(self) -> _Defined:
        if self._defined is None:
            status, (texts, ranges, targets) = _library.definitions(self._bytes, self._asked.blocks)
            if status:
                raise raised(status)
            listed = array('Q')
            listed.frombytes(ranges)
            self._defined = bytes(texts), listed, targets
        return self._defined

    def _given(self) -> _library.Given:
        texts, ranges, _ = self._definitions()
        return _library.Given.defined(self._bytes, self._pieces, self._asked.options, texts, ranges, [])

    def _events(self, function: str, size: int) -> Tuple[_Raw, 'array[int]', Optional[Characters]]:
        status, raw, ends, blamed = _library.texts(function, size, self._given(), self._contents, len(self._numbers))
        if status:
            raise raised(status, blamed)
        return raw, ends, self._characters

    def _piece(self, at: int) -> Piece:
        start, start_vs, end, end_vs = self._pieces[4 * at:4 * at + 4]
        return Piece(start, end, start_vs, end_vs)

    @property
    def _lines(self) -> Lines:
        if self._positions is None:
            self._positions = Lines(self._bytes, self._characters)
        return self._positions

    def _cut(self, at: int) -> str:
        """What is in a piece. Of a tab in which it begins the remaining columns are spaces (CommonMark 2.2)."""
        start, end, columns, _ = self._piece(at)
        if not columns:
            return self._bytes[start:end].decode()
        column = len(self._bytes[self._lines.starts[self._lines.line(start) - 1]:start].expandtabs(4))
        return ' ' * (4 - column % 4 - columns) + self._bytes[start + 1:end].decode()

    def _strings(self, document: bytes, strings: List[List[Tuple[int, int]]]) -> List[str]:
        status, found, ends, blamed = _library.strings(self._asked.options, _WITH_LF | _WITHOUT_NUL, document, *_arguments.strings_of(strings))
        if status:
            raise raised(status, blamed)
        return _library.parted(found, ends)


def _first_wrong(document: bytes) -> Optional[int]:
    """The first byte that is not UTF-8."""
    try:
        document.decode()
        return None
    except UnicodeDecodeError as error:
        return error.start


def _contents_of(raw: _Raw) -> Tuple[bytes, 'array[int]']:
    """The texts of headings and paragraphs as contents, as they cross, and the numbers of the blocks that have them. A paragraph is the first of an item where
    only blank lines and definitions are before it in the item."""
    contents, numbers, first_in = [], array('Q'), -1
    for at, (first, after, depth, _, _, kind, _, _) in enumerate(ROW.iter_unpack(raw)):
        if kind == _ITEM:
            first_in = depth + 1
            continue
        is_paragraph = kind == _PARAGRAPH
        if is_paragraph or kind == _HEADING:
            contents.append(_CONTENT.pack(first, after, is_paragraph and depth == first_in))
            numbers.append(at)
        if depth != first_in or not (kind == _BLANK_LINE or is_paragraph and first == after):
            first_in = -1
    return b''.join(contents), numbers
