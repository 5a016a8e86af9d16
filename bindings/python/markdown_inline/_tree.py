"""The tree of a text, as nodes that are made when they are looked at."""
from typing import Iterator, List, Tuple

from ._events import Event, Events
from ._names import Name


class Tree:
    """The tree of a text. It has the nodes that are in no other as `children`."""
    __slots__ = ('_spans', '_events', '_document', '_first', '_after')

    def __init__(self, spans: List[Tuple[int, int, int, int]], events: Events, document: bytes, first: int, after: int) -> None:
        """`spans` has for each node, in the order in which they begin, its name, the numbers of the events of its beginning and its end, and the number of the
        first node after it. Inside this one are those from `first` to `after`."""
        self._spans, self._events, self._document, self._first, self._after = spans, events, document, first, after

    def _node(self, at: int) -> 'Node':
        return Node(self._spans, self._events, self._document, at + 1, self._spans[at][3])

    @property
    def children(self) -> 'List[Node]':
        """The nodes directly in this one."""
        found, at = [], self._first
        while at < self._after:
            found.append(self._node(at))
            at = self._spans[at][3]
        return found

    @property
    def text(self) -> str:
        """Its source, without what a block has between its pieces."""
        own = isinstance(self, Node)
        leaves = (self._spans[at] for at in range(self._first - own, self._after) if self._spans[at][3] == at + 1)
        return b''.join(self._document[self._events[enter].index:self._events[leave].index] for _, enter, leave, _ in leaves).decode()

    def walk(self) -> 'Iterator[Node]':
        """All nodes inside this one, in the order in which they begin."""
        return map(self._node, range(self._first, self._after))

    def find(self, *names: Name) -> 'Iterator[Node]':
        """The nodes inside this one that have one of these names."""
        return (self._node(at) for at in range(self._first, self._after) if self._spans[at][0] in names)


class Node(Tree):
    """Something that begins and ends in a text."""
    __slots__ = ()

    @property
    def name(self) -> Name:
        return Name(self._spans[self._first - 1][0])

    @property
    def enter(self) -> Event:
        """The event by which it begins, which has its line, its column and its byte."""
        return self._events[self._spans[self._first - 1][1]]

    @property
    def exit(self) -> Event:
        """The event by which it ends."""
        return self._events[self._spans[self._first - 1][2]]

    def __repr__(self) -> str:
        return 'Node(%s, %d, %d)' % (self.name, self.enter.index, self.exit.index)


def tree_of(events: Events, document: bytes) -> Tree:
    """The tree of a text's events."""
    spans: List[Tuple[int, int, int, int]] = []
    opened: List[int] = []
    for number, (kind, name, _) in enumerate(events.flat()):
        if kind == 0:
            opened.append(len(spans))
            spans.append((name, number, number, 0))
        else:
            at = opened.pop()
            spans[at] = (name, spans[at][1], number, len(spans))
    return Tree(spans, events, document, 0, len(spans))
