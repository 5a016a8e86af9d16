"""Makes the nodes of the blocks of a document."""
from typing import TYPE_CHECKING, Dict, List, Optional, Tuple

from ._fronts import Container, Front, definitions
from ._kinds import Kind
from ._nodes import Node, NodeKind

if TYPE_CHECKING:
    from ._document import Document

_NAMES: Dict[int, NodeKind] = {
    Kind.ThematicBreak: 'thematic_break', Kind.IndentedCode: 'code', Kind.FencedCode: 'code', Kind.Html: 'html', Kind.FrontMatter: 'front_matter'}
_DOLLAR = ord('$')
# The first, the number after the last of its pieces, the depth, the number, the line, the kind, the marker, and the flags.
Row = Tuple[int, int, int, int, int, int, int, int]
_BEGINS_LIST = 1


class _Open:
    """A container that is open: its node, the nodes in it so far, the list of items that is last among these, and where the last block in it ends."""
    __slots__ = ('node', 'children', 'items', 'width', 'after')

    def __init__(self, node: Node, width: Container = None, after: int = 0) -> None:
        self.node, self.width, self.after = node, width, after
        self.children: List[Node] = []
        self.items: Optional[List[Node]] = None


class Builder:
    """Makes the nodes of rows, one after the other."""

    def __init__(self, document: 'Document') -> None:
        self.document, self.lines, self.pieces = document, document._lines, document._pieces
        self.opened = [_Open(Node(document, 'root', 0, None, len(document._bytes)))]
        # The front of the line on which the last row begins, and how many definitions came.
        self.line, self.front, self.defined = 0, Front(self.lines, 1), 0

    def build(self, rows: List[Row]) -> Node:
        lasts = [row[4] - 1 for row in rows[1:]] + [self.lines.last]
        for number, (row, last) in enumerate(zip(rows, lasts)):
            self.close(row[2], row[4] - 1)
            if row[5] != Kind.BlankLine:
                self.push(number, row, last)
        self.close(0, self.lines.last)
        root, = self.opened
        self.end_list(root)
        root.node._children = tuple(root.children)
        return root.node

    def close(self, depth: int, last: int) -> None:
        """Closes the containers that are deeper. A quote ends with this line, and an item with the last block in it."""
        while len(self.opened) > depth + 1:
            it = self.opened.pop()
            self.end_list(it)
            it.node._children = tuple(it.children)
            it.node._after = self.lines.end(last) if it.width is None else it.after
            self.opened[-1].after = it.node._after

    def end_list(self, it: _Open) -> None:
        """Closes the list that is last in a container, if it is open."""
        if it.items is not None:
            it.children[-1]._children, it.children[-1]._after, it.items = tuple(it.items), it.items[-1]._after, None

    def add(self, node: Node) -> None:
        """Puts a node into the innermost container."""
        around = self.opened[-1]
        self.end_list(around)
        around.children.append(node)
        around.after = node._after

    def push(self, number: int, row: Row, last: int) -> None:
        """Makes the node of a row. If it is a leaf, its last line is this."""
        kind, line = row[5], row[4]
        if line != self.line:
            self.line, self.front = line, Front(self.lines, line)
            self.front.pass_containers([it.width for it in self.opened[1:]])
        if kind == Kind.Quote:
            self.add(Node(self.document, 'blockquote', self.front.at))
            self.opened.append(_Open(self.opened[-1].children[-1]))
            self.front.pass_quote()
        elif kind == Kind.Item:
            self.item(number, row)
        elif kind in (Kind.Paragraph, Kind.Heading):
            self.text(number, row, last)
        else:
            self.leaf(number, row, last)

    def item(self, number: int, row: Row) -> None:
        around, node = self.opened[-1], Node(self.document, 'list_item', self.front.at, number)
        if row[7] & _BEGINS_LIST or around.items is None:
            self.add(Node(self.document, 'list', self.front.at, number))
            around.items = []
        around.items.append(node)
        after, width = self.front.pass_marker()
        self.opened.append(_Open(node, width, after))

    def leaf(self, number: int, row: Row, last: int) -> None:
        kind = row[5]
        # Spaces and tabs at the front are part of HTML, and make code.
        start = self.front.inside if kind in (Kind.IndentedCode, Kind.Html) else self.front.at
        if kind == Kind.IndentedCode:
            # Blank lines after it are none of it.
            last = row[4] + len(self.document[number]._code_lines()) - 1
        self.add(Node(self.document, 'math' if row[6] == _DOLLAR else _NAMES[kind], start, number, self.lines.end(last)))

    def text(self, number: int, row: Row, last: int) -> None:
        """A paragraph or a heading, after the definitions at its front."""
        first, after, kind, line = row[0], row[1], row[5], row[4]
        is_heading, start = kind == Kind.Heading, self.front.at
        has_text = first < after
        text_line = self.lines.line(self.pieces[4 * first]) if has_text else line if is_heading else last + 1
        if text_line > line:
            for begin, end in definitions(self.lines, [it.width for it in self.opened[1:]], start, text_line):
                self.add(Node(self.document, 'definition', begin, self.defined, end))
                self.defined += 1
            start = self.pieces[4 * first] if has_text else start
        if is_heading:
            self.add(Node(self.document, 'heading', start, number, self.lines.end(last)))
        elif has_text:
            self.add(Node(self.document, 'paragraph', start, number, self.pieces[4 * after - 2]))
