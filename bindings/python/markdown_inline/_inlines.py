"""Makes the nodes of the text of a paragraph or a heading, of its short events."""
import re
from typing import TYPE_CHECKING, Callable, Dict, List, Optional, Tuple

from ._names import Name
from ._nodes import Node, NodeKind, Reference

if TYPE_CHECKING:
    from ._document import Document

_ENDING = re.compile(b'\r\n|\n|\r')
_NONE = 2 ** 32 - 1
_ANCHORS, _IMAGES = ('link', 'link_reference'), ('image', 'image_reference')
_REFERENCES: Dict[NodeKind, NodeKind] = {'link': 'link_reference', 'image': 'image_reference'}


class _Target:
    """Of a link or an image the number of its text, and its number among the links there; and how its reference and its label are written."""
    __slots__ = ('content', 'number', 'reference', 'label')

    def __init__(self, content: int, number: int, byte: int) -> None:
        self.content, self.number, self.label = content, number, (byte, byte)
        self.reference: Reference = 'shortcut'


def plain(text: bytes) -> str:
    """A text as it is shown, without NUL (CommonMark 2.3)."""
    return text.decode().replace('\0', '\ufffd')


def _code(parts: bytes) -> str:
    """The text of a code span, of what is between its markers (CommonMark 6.1)."""
    text = plain(_ENDING.sub(b' ', parts))
    return text[1:-1] if text[:1] == text[-1:] == ' ' and text.strip(' ') else text


class Builder:
    """Makes nodes, event by event."""

    def __init__(self, document: 'Document', content: int, line_end: Optional[bytes] = b'\n') -> None:
        """`line_end` is what texts have for each line ending: None is the line ending itself. In images it is a line feed."""
        self.document, self.bytes, self.content, self.line_end = document, document._bytes, content, line_end
        # How many links and images began, how many of both are open, and whether the last bare URL is a link.
        self.links, self.anchors, self.images, self.is_bare = 0, 0, 0, False
        # The nodes that are open, each with those in it so far, and the text that is last among the innermost ones.
        self.opened: List[Tuple[Node, List[Node]]] = []
        self.nodes: List[Node] = []
        self.words: List[str] = []
        # What is covered between markers, where that is no text; and a break whose line ending comes next.
        self.parts: Optional[List[bytes]] = None
        self.broken: Optional[Node] = None
        self.begun = self.special = self.code = self.told = 0

    def build(self) -> Tuple[Node, ...]:
        for is_exit, name, told, byte in self.document.short_texts[self.content].flat():
            handle = (_ENTERS, _EXITS)[is_exit][name]
            if handle is not None:
                self.told = told
                handle(self, byte)
        self.end_text()
        return tuple(self.nodes)

    def add(self, kind: NodeKind, byte: int) -> Node:
        self.end_text()
        self.nodes.append(Node(self.document, kind, byte))
        return self.nodes[-1]

    def end_text(self) -> None:
        if self.words:
            self.nodes[-1]._own, self.words = ''.join(self.words), []

    def open(self, kind: NodeKind, byte: int) -> Node:
        node = self.add(kind, byte)
        self.opened.append((node, self.nodes))
        self.nodes = []
        return node

    def close(self, byte: int) -> None:
        self.end_text()
        node, around = self.opened.pop()
        node._children, node._after, self.nodes = tuple(self.nodes), byte, around
        self.anchors -= node.kind in _ANCHORS
        self.images -= node.kind in _IMAGES

    def say(self, first: int, byte: int, words: str) -> None:
        """Puts words into the text that is last, or into a new one."""
        if not self.words:
            self.add('text', first)
        self.words.append(words)
        self.nodes[-1]._after = byte

    def begin(self, byte: int) -> None:
        self.begun = byte

    def data(self, byte: int) -> None:
        self.cover(byte, self.bytes[self.begun:byte])

    def cover(self, byte: int, covered: bytes) -> None:
        if self.parts is None:
            self.say(self.begun, byte, plain(covered))
        else:
            self.parts.append(covered)

    def blank(self, byte: int) -> None:
        if self.parts is not None:
            self.data(byte)

    def line(self, byte: int) -> None:
        ending = b'\n' if self.images else self.bytes[self.begun:byte] if self.line_end is None else self.line_end
        if self.broken is None:
            return self.cover(byte, ending)
        self.broken._own, self.broken._after, self.broken = ending.decode(), byte, None

    def begin_special(self, byte: int) -> None:
        # What an escape or a character reference has inside begins later.
        self.special, self.code = byte, self.told

    def escape(self, byte: int) -> None:
        if self.parts is None:
            self.say(self.special, byte, self.bytes[self.special + 1:byte].decode())

    def refer(self, byte: int) -> None:
        if self.parts is None:
            code = self.code
            self.say(self.special, byte, chr(code) if code != _NONE else self.document._resolved(self.bytes[self.special:byte].decode()))

    def break_line(self, byte: int) -> None:
        self.broken = self.add('break', byte)

    def begin_span(self, kind: NodeKind, byte: int) -> None:
        self.add(kind, byte)
        self.parts = []

    def end_span(self, shown: Callable[[bytes], str], byte: int) -> None:
        self.nodes[-1]._own, self.nodes[-1]._after, self.parts = shown(b''.join(self.parts or ())), byte, None

    def open_link(self, kind: NodeKind, byte: int) -> None:
        node = self.open(kind if self.told == _NONE else _REFERENCES[kind], byte)
        node._own = _Target(self.content, self.links, byte)
        self.links += 1
        self.anchors += node.kind in _ANCHORS
        self.images += node.kind in _IMAGES

    def literal(self, byte: int) -> None:
        """A bare URL. It is text where it is in a link."""
        self.is_bare, self.begun = not self.anchors, byte
        if self.is_bare:
            self.open_link('link', byte)
        else:
            self.links += 1

    def end_literal(self, byte: int) -> None:
        self.data(byte)
        if self.is_bare:
            self.close(byte)

    @property
    def target(self) -> _Target:
        found: _Target = self.opened[-1][0]._own
        return found

    def label(self, byte: int) -> None:
        self.target.label = (byte, byte)

    def end_label(self, byte: int) -> None:
        self.target.label = (self.target.label[0], byte)

    def begin_reference(self, byte: int) -> None:
        self.target.reference, self.parts = 'collapsed', []

    def full_label(self, byte: int) -> None:
        self.target.reference = 'full'
        self.label(byte)

    def silence(self, byte: int) -> None:
        self.parts = []

    def unsilence(self, byte: int) -> None:
        self.parts = None


_Handler = Callable[[Builder, int], None]


def _opening(kind: NodeKind) -> _Handler:
    def handle(it: Builder, byte: int) -> None:
        it.open(kind, byte)
    return handle


def _link(kind: NodeKind) -> _Handler:
    return lambda it, byte: it.open_link(kind, byte)


def _span(kind: NodeKind) -> _Handler:
    return lambda it, byte: it.begin_span(kind, byte)


def _ends(shown: Callable[[bytes], str]) -> _Handler:
    return lambda it, byte: it.end_span(shown, byte)


_LITERALS = (
    Name.GfmAutolinkLiteralEmail, Name.GfmAutolinkLiteralMailto, Name.GfmAutolinkLiteralProtocol, Name.GfmAutolinkLiteralWww, Name.GfmAutolinkLiteralXmpp)
# What is done where something begins, and where it ends.
_PAIRS: Dict[Name, Tuple[Optional[_Handler], Optional[_Handler]]] = {
    **dict.fromkeys((Name.Data, Name.CodeTextData, Name.MathTextData, Name.HtmlTextData, Name.AutolinkProtocol, Name.AutolinkEmail), (Builder.begin, Builder.data)),
    **dict.fromkeys(_LITERALS, (Builder.literal, Builder.end_literal)),
    Name.LineEnding: (Builder.begin, Builder.line), Name.SpaceOrTab: (Builder.begin, Builder.blank),
    Name.CharacterEscape: (Builder.begin_special, Builder.escape), Name.CharacterReference: (Builder.begin_special, Builder.refer),
    Name.HardBreakEscape: (Builder.break_line, None), Name.HardBreakTrailing: (Builder.break_line, None),
    Name.Emphasis: (_opening('emphasis'), Builder.close), Name.Strong: (_opening('strong'), Builder.close), Name.GfmStrikethrough: (_opening('delete'), Builder.close),
    Name.CodeText: (_span('inline_code'), _ends(_code)), Name.MathText: (_span('inline_math'), _ends(_code)), Name.HtmlText: (_span('html'), _ends(plain)),
    Name.Link: (_link('link'), Builder.close), Name.Image: (_link('image'), Builder.close), Name.Autolink: (_link('link'), Builder.close),
    Name.LabelText: (Builder.label, Builder.end_label), Name.Reference: (Builder.begin_reference, Builder.unsilence),
    Name.ReferenceString: (Builder.full_label, Builder.end_label), Name.Resource: (Builder.silence, Builder.unsilence),
}
_ENTERS, _EXITS = ([_PAIRS.get(name, (None, None))[at] for name in Name] for at in (0, 1))
