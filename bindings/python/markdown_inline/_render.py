"""Renders the nodes of a document to HTML, where a caller's hooks say what becomes of some kinds."""
import math
import re
from itertools import accumulate
from typing import TYPE_CHECKING, Any, Callable, Dict, List, Mapping, Optional, Sequence

from . import _inlines
from ._nodes import ADDRESSES, INLINES, KINDS, SOURCES, Node, NodeKind

if TYPE_CHECKING:
    from ._document import Document

Hook = Callable[[Node, str], Optional[str]]
# The keys are kinds. A mapping is invariant in its keys, so that a dict of `str` would not be one whose keys are kinds.
Hooks = Mapping[Any, Hook]
_SIGNS, _SIGN, _ENDING = {'&': '&amp;', '<': '&lt;', '>': '&gt;', '"': '&quot;'}, re.compile('[&<>"]'), re.compile('\r\n|\n|\r')
_TAGS = {'emphasis': 'em', 'strong': 'strong', 'delete': 'del'}
_LANGUAGES = {'inline_math': ' class="language-math math-inline"', 'inline_code': ''}
# What is rendered of its children.
_PARENTS = {'root', 'blockquote', 'list', 'list_item', 'emphasis', 'strong', 'delete', 'link', 'link_reference'}
_BOXES = {None: '', False: '<input type="checkbox" disabled="" />', True: '<input type="checkbox" disabled="" checked="" />'}


def _escaped(text: str) -> str:
    return _SIGN.sub(lambda it: _SIGNS[it[0]], text)


def _language(code: Node) -> str:
    """The attribute of code, or of math, that names its language."""
    if code.kind == 'math':
        return ' class="language-math math-display"'
    return ' class="language-%s"' % _escaped(code.lang.replace('\0', '\ufffd')) if code.lang else ''


class _Open:
    """A node whose children are being rendered, and their HTML so far."""
    __slots__ = ('node', 'left', 'parts', 'is_tight', 'in_line', 'box')

    def __init__(self, node: Node, children: Sequence[Node], is_tight: bool = False, box: str = '') -> None:
        # In an item of a tight list paragraphs are bare, and what is no such paragraph begins on a line of its own.
        self.node, self.left, self.is_tight, self.in_line = node, iter(children), is_tight, node.kind == 'list_item'
        self.parts = [box]


class Renderer:
    """Renders one document. What the hooks do not render is rendered as by the library."""

    def __init__(self, document: 'Document', hooks: Hooks) -> None:
        # If references expand to more than the limit, this raises References.
        self.document, self.hooks, self.htmls = document, hooks, document.htmls
        self.inlines: List[NodeKind] = [it for it in hooks if it in INLINES]
        self.is_raw, self.any_link = bool(document._asked.shown & 1), bool(document._asked.shown & 2)
        self.line_end = {0x20: b'\n', 0x40: b'\r\n'}.get(document._asked.shown & 0x60)
        self.end = (self.line_end or b'\n').decode()
        # The opening tags of links, and the tags of images, in the text that is being rendered; and its leaves with the line endings that HTML has.
        self.tags: Dict[Node, str] = {}
        self.leaves: Dict[Node, str] = {}

    def render(self) -> str:
        """The HTML of the document. No call goes deeper than another, so deep nesting does not exhaust the stack."""
        opened = [_Open(self.document.root, self.document.children)]
        while True:
            around = opened[-1]
            node = next(around.left, None)
            if node is None:
                opened.pop()
                html = self.html(around.node, ''.join(around.parts), bool(opened) and opened[-1].is_tight)
                if not opened:
                    return html
                self.push(opened[-1], around.node, html)
            elif self.is_parent(node):
                opened.append(self.opened(node, around))
            else:
                self.push(around, node, self.html(node, self.inner(node), around.is_tight))

    def is_parent(self, node: Node) -> bool:
        """Whether a node is rendered of its children. A text without nodes of the hooks' kinds is rendered by the library."""
        if node.kind in ('paragraph', 'heading'):
            return bool(self.inlines) and any(node.find(*self.inlines))
        return node.kind in _PARENTS

    def opened(self, node: Node, around: _Open) -> _Open:
        if node.kind not in ('paragraph', 'heading'):
            return _Open(node, node.children, node.kind == 'list_item' and around.node.tight)
        self.tags = self.tags_of(list(node.find(*ADDRESSES)))
        written = _inlines.Builder(self.document, self.document._content(node._own), self.line_end).build()
        walked = (it for child in written for it in (child, *child.walk()))
        self.leaves = {it: other.text for it, other in zip(node.walk(), walked) if isinstance(it._own, str)}
        return _Open(node, node.children, False, _BOXES[self.document._check(node._own)])

    def push(self, around: _Open, node: Node, html: str) -> None:
        is_bare = around.is_tight and node.kind == 'paragraph'
        if html and around.in_line and not is_bare:
            around.parts.append(self.end)
        around.parts.append(html)
        if html:
            around.in_line = is_bare

    def tags_of(self, nodes: List[Node]) -> Dict[Node, str]:
        """The tags of links and images as the library renders them, which leaves out destinations that are not safe."""
        # It is a program too, which a package does not import beforehand.
        from .inline import Content, htmls
        words = ['%s[%d]' % ('!' if node.kind.startswith('image') else '', number) for number, node in enumerate(nodes)]
        ends = list(accumulate(map(len, words)))
        contents = [Content([(end - len(it), end)]) for it, end in zip(words, ends)]
        definitions = {str(number): (node.url, node.title) for number, node in enumerate(nodes)}
        found = htmls(''.join(words), contents, definitions=definitions, any_link=self.any_link, limit=math.inf)
        return {node: html[:html.index('>') + 1] for node, html in zip(nodes, found)}

    def inner(self, node: Node) -> str:
        """The HTML inside a node that has no children here."""
        if node.kind in ('paragraph', 'heading'):
            return self.htmls[self.document._content(node._own)]
        text = self.source(node) if isinstance(node._own, int) else self.leaves.get(node, node.text)
        return text if node.kind == 'html' and self.is_raw else _escaped(text)

    def source(self, node: Node) -> str:
        """The source of a block, with the line endings that HTML has."""
        if node.kind not in SOURCES:
            return ''
        source = node._block.source
        return source if self.line_end is None else _ENDING.sub(self.end, source)

    def html(self, node: Node, inner: str, is_tight: bool) -> str:
        hook = self.hooks.get(node.kind)
        found = None if hook is None else hook(node, inner)
        if found is None:
            return self.usual(node, inner, is_tight)
        if not isinstance(found, str):
            raise TypeError('a hook returns a str or None, and not a %s' % type(found).__name__)
        return found

    def usual(self, node: Node, inner: str, is_tight: bool) -> str:
        """The HTML of a node by CommonMark."""
        kind = node.kind
        if kind in _TAGS:
            return '<%s>%s</%s>' % (_TAGS[kind], inner, _TAGS[kind])
        if kind in _LANGUAGES:
            return '<code%s>%s</code>' % (_LANGUAGES[kind], inner)
        if kind in ADDRESSES:
            return self.usual_link(node, inner)
        if kind == 'break':
            return '<br />' + inner
        if kind in ('root', 'text', 'html') or kind == 'paragraph' and is_tight:
            return inner
        return self.usual_block(node, inner)

    def usual_link(self, node: Node, inner: str) -> str:
        tag = self.tags[node]
        return re.sub(' alt="[0-9]*"', lambda _: ' alt="%s"' % inner, tag, count=1) if node.kind.startswith('image') else tag + inner + '</a>'

    def usual_block(self, node: Node, inner: str) -> str:
        kind, end = node.kind, self.end
        if kind == 'paragraph':
            return '<p>%s</p>%s' % (inner, end)
        if kind == 'heading':
            return '<h%d>%s</h%d>%s' % (node.level, inner, node.level, end)
        if kind in ('code', 'math'):
            return '<pre><code%s>%s</code></pre>%s' % (_language(node), inner, end)
        if kind == 'blockquote':
            return '<blockquote>%s%s</blockquote>%s' % (end, inner, end)
        if kind == 'list_item':
            return '<li>%s</li>%s' % (inner, end)
        if kind == 'list':
            tag, start = ('ol', '' if node.start_number == 1 else ' start="%d"' % (node.start_number or 0)) if node.ordered else ('ul', '')
            return '<%s%s>%s%s</%s>%s' % (tag, start, end, inner, tag, end)
        return '<hr />' + end if kind == 'thematic_break' else ''


def hooks_of(given: Hooks) -> Hooks:
    """Hooks that a caller passes."""
    if not isinstance(given, Mapping):
        raise TypeError('hooks is a mapping from kinds to functions, and not a %s' % type(given).__name__)
    for kind, hook in given.items():
        if kind not in KINDS:
            raise ValueError('%r is no kind of a node' % (kind,))
        if not callable(hook):
            raise TypeError('the hook of %s is a function, and not a %s' % (kind, type(hook).__name__))
    return given
