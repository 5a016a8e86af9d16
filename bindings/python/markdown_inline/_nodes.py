"""The nodes of a document."""
import re
from typing import TYPE_CHECKING, Any, Callable, FrozenSet, Generic, Iterator, Literal, Optional, Tuple, TypeVar, Union, get_args, overload

if TYPE_CHECKING:
    from ._document import Block, Document
    from ._links import Address

NodeKind = Literal[
    'root', 'blockquote', 'list', 'list_item', 'paragraph', 'heading', 'code', 'math', 'html', 'thematic_break', 'definition', 'front_matter',
    'text', 'emphasis', 'strong', 'delete', 'inline_code', 'inline_math', 'break', 'link', 'link_reference', 'image', 'image_reference']
Reference = Literal['full', 'collapsed', 'shortcut']
_T = TypeVar('_T')
# A word of an info string.
_WORD = re.compile('[^ \t\n\f\r]+')
#: The kinds of nodes, and of these the ones that are in a text, and those that lead somewhere. Raw HTML is a block, or it is in a text.
KINDS: Tuple[NodeKind, ...] = get_args(NodeKind)
INLINES = frozenset(KINDS[KINDS.index('text'):]) | {'html'}
ADDRESSES: Tuple[NodeKind, ...] = ('link', 'link_reference', 'image', 'image_reference')
# The kinds that hold blocks, those that hold text, and those whose text is their lines.
_CONTAINERS, _TEXTS, SOURCES = frozenset(KINDS[:4]), frozenset(KINDS[4:6]), frozenset(('code', 'math', 'html', 'front_matter'))


class _Own(Generic[_T]):
    """A property of the nodes of some kinds. Others do not have it, so that AttributeError is raised."""

    def __init__(self, kinds: FrozenSet[NodeKind], read: 'Callable[[Node], _T]') -> None:
        self._kinds, self._read, self.__doc__ = kinds, read, read.__doc__

    @overload
    def __get__(self, node: None, owner: Any) -> '_Own[_T]': ...

    @overload
    def __get__(self, node: 'Node', owner: Any) -> _T: ...

    def __get__(self, node: 'Optional[Node]', owner: Any) -> 'Union[_Own[_T], _T]':
        if node is None:
            return self
        if node.kind not in self._kinds:
            raise AttributeError('%r has no %s' % (node, self._read.__name__))
        return self._read(node)


def _of(*kinds: NodeKind) -> 'Callable[[Callable[[Node], _T]], _Own[_T]]':
    return lambda read: _Own(frozenset(kinds), read)


class Node:
    """A node of a document. Its `kind` is one of mdast's, in snake case: root, blockquote, list, list_item, paragraph, heading, code, math, html,
    thematic_break, definition, front_matter; and in a text text, emphasis, strong, delete, inline_code, inline_math, break, html, link, link_reference, image,
    image_reference.

    `start` and `end` are indexes of the document as it was given: of characters in a `str`, of bytes in bytes. Lines and columns count from 1, and a column
    counts as the indexes do."""
    __slots__ = ('kind', '_document', '_first', '_after', '_children', '_own')
    kind: NodeKind

    def __init__(self, document: 'Document', kind: NodeKind, first: int, own: Any = None, after: int = 0) -> None:
        """`first` and `after` are bytes. `own` is what only some kinds have: of a block the number of its row or of its definition, of a leaf of a text what
        it says, of a link where it leads."""
        self._document, self.kind, self._first, self._after, self._own = document, kind, first, after, own
        # Those of a paragraph or a heading are made when they are asked for.
        self._children: Optional[Tuple[Node, ...]] = None if kind in _TEXTS else ()

    @property
    def start(self) -> int:
        return self._document._lines.offset(self._first)

    @property
    def end(self) -> int:
        return self._document._lines.offset(self._after)

    @property
    def line(self) -> int:
        return self._document._lines.line(self._first)

    @property
    def column(self) -> int:
        return self._document._lines.column(self._first)

    @property
    def end_line(self) -> int:
        return self._document._lines.line(self._after)

    @property
    def end_column(self) -> int:
        return self._document._lines.column(self._after)

    @property
    def children(self) -> 'Tuple[Node, ...]':
        """The nodes directly in this one. What is in an image is its description."""
        if self._children is None:
            self._children = self._document._inlines(self._own)
        return self._children

    def walk(self) -> 'Iterator[Node]':
        """All nodes in this one, in the order in which they begin."""
        return self._walk(True)

    def _walk(self, has_inlines: bool) -> 'Iterator[Node]':
        opened = [iter(self.children)]
        while opened:
            node = next(opened[-1], None)
            if node is None:
                opened.pop()
                continue
            yield node
            if has_inlines or node.kind in _CONTAINERS:
                opened.append(iter(node.children))

    def find(self, *kinds: NodeKind) -> 'Iterator[Node]':
        """The nodes in this one that are of one of these kinds."""
        for kind in kinds:
            if kind not in KINDS:
                raise ValueError('%r is no kind of a node' % kind)
        has_inlines = self.kind not in _CONTAINERS or not INLINES.isdisjoint(kinds)
        return (it for it in self._walk(has_inlines) if it.kind in kinds)

    @property
    def text(self) -> str:
        """What it says, without markup: of code, math, front matter and raw HTML its source, and of other nodes the text inside without raw HTML. Blocks are
        separated by a blank line. Each line ending is a line feed."""
        if self.kind in SOURCES and isinstance(self._own, int):
            return with_line_feeds(self._block.source)
        if self.kind in _CONTAINERS:
            found = (it.text for it in self._walk(False) if it.kind in ('paragraph', 'heading', 'code', 'math'))
            return '\n\n'.join(filter(None, map(without_ending, found)))
        if isinstance(self._own, str):
            return self._own
        return ''.join(it._own for it in self.walk() if isinstance(it._own, str) and it.kind != 'html')

    @property
    def _block(self) -> 'Block':
        return self._document[self._own]

    @property
    def _address(self) -> 'Address':
        return self._document._link(self._own.content, self._own.number)

    @_of('heading')
    def level(self) -> int:
        """The level of a heading, from 1 to 6."""
        return self._block.number

    @_of('list')
    def ordered(self) -> bool:
        """Whether the items of a list are numbered."""
        return self._block.marker in ('.', ')')

    @_of('list')
    def start_number(self) -> Optional[int]:
        """The number of the first item; None of a bullet list."""
        return self._block.number if self.ordered else None

    @_of('list')
    def tight(self) -> bool:
        """Whether a list is tight (CommonMark 5.3): paragraphs in its items have no tags in HTML."""
        return not self._block.is_loose

    @_of('list', 'list_item')
    def spread(self) -> bool:
        """Whether a blank line separates two of the nodes directly in this one."""
        return any(after.line > before.end_line + 1 for before, after in zip(self.children, self.children[1:]))

    @_of('list_item')
    def checked(self) -> Optional[bool]:
        """Whether the checkbox of an item is checked; None of an item without a checkbox."""
        first = next((it for it in self.children if it.kind != 'definition'), None)
        return self._document._check(first._own) if first is not None and first.kind == 'paragraph' else None

    @_of('code', 'math')
    def info(self) -> Optional[str]:
        """The info string of fenced code or math, with escapes and character references resolved; None of indented code."""
        return self._block.info

    @_of('code', 'front_matter')
    def lang(self) -> Optional[str]:
        """The first word of the info string, which names the language; of front matter 'yaml' or 'toml'."""
        if self.kind == 'front_matter':
            matter = self._document.front_matter
            return matter[0] if matter else None
        found = _WORD.search(self.info or '')
        return found[0] if found else None

    @_of(*ADDRESSES, 'definition')
    def url(self) -> str:
        """Where a link or an image leads, with escapes and character references resolved; also of one that refers to a definition."""
        return (self._document.definitions[self._own] if self.kind == 'definition' else self._address).destination

    @_of(*ADDRESSES, 'definition')
    def title(self) -> Optional[str]:
        """The title, with escapes and character references resolved; None where there is none."""
        return (self._document.definitions[self._own] if self.kind == 'definition' else self._address).title

    @_of('image', 'image_reference')
    def alt(self) -> str:
        """The description of an image, without markup."""
        return self.text

    @_of('definition', 'link_reference', 'image_reference')
    def label(self) -> str:
        """The label as it is written."""
        if self.kind == 'definition':
            return self._document.definitions[self._own].label
        return self._document._written(self._own.content, *self._own.label)

    @_of('link_reference', 'image_reference')
    def reference(self) -> Reference:
        """How a reference is written: 'full' is `[a][b]`, 'collapsed' `[a][]`, 'shortcut' `[a]`."""
        found: Reference = self._own.reference
        return found

    def __repr__(self) -> str:
        return 'Node(%s, %d, %d)' % (self.kind, self.start, self.end)


def with_line_feeds(text: str) -> str:
    """A text with a line feed for each line ending."""
    return text.replace('\r\n', '\n').replace('\r', '\n')


def without_ending(text: str) -> str:
    """A text without its last line feed."""
    return text[:-1] if text.endswith('\n') else text
