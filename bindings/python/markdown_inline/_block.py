"""A block of a document, as a row of what the library returns."""
import struct
from typing import TYPE_CHECKING, List, Optional, Tuple

from ._events import Events, ShortEvents
from ._kinds import Kind
from ._links import Address
from ._types import Piece

if TYPE_CHECKING:
    from ._document import Document

ROW = struct.Struct('=5Q3B5x')
_KINDS = tuple(Kind)
_BEGINS_LIST, _ENDS_LIST, _IS_LOOSE = 1, 2, 4


class Block:
    """A block of a document. `depth` is how many containers are round it: what a quote or an item holds comes after it, one deeper.

    `line` is the line on which it begins, from 1: fenced code begins with its fence, and a text with the definitions at its front.
    `number` is the level of a heading, the number of an item of an ordered list, or the kind of HTML, and else 0. `marker` is the character of an item's
    marker, of a fence, which is '$' of math, or None. Of an item, `begins_list` and `ends_list` say where it is in its list, and `is_loose` whether that is
    loose. `content` is the number of the block's text among those of `Document.texts`, or None: headings and paragraphs have a text, of which a paragraph of
    definitions alone has nothing."""
    __slots__ = ('kind', 'depth', 'number', 'line', 'marker', 'begins_list', 'ends_list', 'is_loose', 'content', '_document', '_at', '_first', '_after')
    kind: Kind
    depth: int
    number: int
    line: int
    marker: Optional[str]
    begins_list: bool
    ends_list: bool
    is_loose: bool
    content: Optional[int]

    def __init__(self, document: 'Document', at: int, row: Tuple[int, ...], content: Optional[int]) -> None:
        self._document, self._at, self.content = document, at, content
        self._first, self._after, self.depth, self.number, self.line, kind, marker, flags = row
        self.kind, self.marker = _KINDS[kind], chr(marker) if marker else None
        self.begins_list, self.ends_list, self.is_loose = flags & _BEGINS_LIST > 0, flags & _ENDS_LIST > 0, flags & _IS_LOOSE > 0

    @property
    def pieces(self) -> List[Piece]:
        """The pieces of a heading's or a paragraph's text; of code, HTML and front matter its lines, one piece each. Of fenced code the first piece is the info
        string."""
        return [self._document._piece(at) for at in range(self._first, self._after)]

    @property
    def lines(self) -> List[str]:
        """The lines of a text, of code, of HTML or of front matter, each with its line ending, if it has one. Of a tab that a container cuts, the remaining
        columns are spaces. The blank lines after indented code are among them, which HTML leaves out."""
        found = [self._document._cut(at) for at in range(self._first + (self.kind == Kind.FencedCode), self._after)]
        # What has no codes is a line of code, but none of HTML.
        return [it for it in found if it] if self.kind == Kind.Html else found

    def _code_lines(self) -> List[str]:
        """The lines of code or HTML that are shown, without the blank lines after indented code."""
        lines = self.lines
        while self.kind == Kind.IndentedCode and not lines[-1].strip(' \t\r\n'):
            lines.pop()
        return lines

    @property
    def source(self) -> str:
        """The text of code, HTML or front matter, as HTML has it before it is escaped: each line ends with its line feed, or with one where it has none."""
        lines = (it if it.endswith('\n') else it.rstrip('\r') + '\n' for it in self._code_lines())
        return ''.join(lines).replace('\0', '\ufffd')

    @property
    def info(self) -> Optional[str]:
        """The info string of fenced code, with escapes and character references resolved; None of other blocks. Its first word names the language."""
        if self.kind != Kind.FencedCode:
            return None
        return self._document._resolved(self._document._cut(self._first))

    @property
    def events(self) -> Events:
        """The events of its text, none where it has none."""
        return Events(b'', None) if self.content is None else self._document.texts[self.content]

    @property
    def short_events(self) -> ShortEvents:
        """The short events of its text, none where it has none."""
        return ShortEvents(b'', None) if self.content is None else self._document.short_texts[self.content]

    @property
    def html(self) -> str:
        """The HTML of its text, without a tag of the block itself; empty where it has no text."""
        return '' if self.content is None else self._document.htmls[self.content]

    @property
    def links(self) -> List[Address]:
        """The links, images, autolinks and bare URLs of its text."""
        return [] if self.content is None else self._document._links_of(self.content)

    def __eq__(self, other: object) -> bool:
        return isinstance(other, Block) and self._at == other._at and self._document._is_same(other._document)

    def __hash__(self) -> int:
        return hash((self._document._bytes, self._at))

    def __repr__(self) -> str:
        return 'Block(%s, depth=%d, number=%d, line=%d)' % (self.kind, self.depth, self.number, self.line)
