"""The front of lines: spaces, tabs and markers of containers; and the link reference definitions at the front of texts. The library returns
the line on which a block begins, and here these are read again for where it begins there."""
import re
from bisect import bisect_right
from itertools import accumulate
from typing import Iterator, List, Optional, Sequence, Tuple

from ._lines import Lines

_BLANKS, _MARKER, _BLANK = re.compile(rb'[ \t]*'), re.compile(rb'[-+*]|[0-9]+[.)]'), re.compile(rb'[\r\n]|\Z')
_MARK = b'\xef\xbb\xbf'
# A definition (CommonMark 4.7), in a text that is known to have nothing else. Its first group ends where the definition does.
_DEFINITION = re.compile(
    rb'(\[[^\\\]]*(?:\\.[^\\\]]*)*\]:[ \t]*\n?[ \t]*(?:<[^\\>]*(?:\\.[^\\>]*)*>|[^ \t\n]+)'
    rb'(?:(?:[ \t]+\n?|\n)[ \t]*(?:"[^\\"]*(?:\\.[^\\"]*)*"|' rb"'[^\\']*(?:\\.[^\\']*)*'" rb'|\([^\\)]*(?:\\.[^\\)]*)*\))(?=[ \t]*(?:\n|\Z)))?)'
    rb'[ \t]*(?:\n|\Z)', re.S)

#: A container: how many columns what an item holds is indented; None of a quote.
Container = Optional[int]


class Front:
    """The front of a line. `at` is its first byte after the containers that are passed and the spaces and tabs there."""
    __slots__ = ('_lines', '_column', '_reached', '_blanks', 'at')

    def __init__(self, lines: Lines, line: int) -> None:
        start = lines.starts[line - 1]
        # A byte order mark is no text, but has columns.
        self._lines, self._column = lines, 3 * (start == 0 and lines.document.startswith(_MARK))
        self._pass(start + self._column)

    def _pass(self, at: int) -> None:
        """Passes spaces and tabs. Before them what the containers hold begins, at `_column`; `_reached` is the column after them."""
        match = _BLANKS.match(self._lines.document, at)
        assert match
        self.at, self._blanks, before = match.end(), (at, self._column), self._column % 4
        self._reached = self._column - before + len((b' ' * before + match[0]).expandtabs(4))

    @property
    def _indent(self) -> int:
        return self._reached - self._column

    @property
    def inside(self) -> int:
        """The byte at which the line begins inside the containers, or the tab of which they have a part."""
        at, column = self._blanks
        while column < self._column:
            column += 4 - column % 4 if self._lines.document[at] == 9 else 1
            at += column <= self._column
        return at

    def pass_quote(self) -> None:
        """Passes `>`, and one column of spaces and tabs (CommonMark 5.1)."""
        self._column = self._reached + 1
        self._pass(self.at + 1)
        self._column += self._indent > 0

    def pass_marker(self) -> Tuple[int, int]:
        """Passes the marker of an item. Returns where the marker ends, and by how many columns what the item holds is indented (CommonMark 5.2)."""
        match, before = _MARKER.match(self._lines.document, self.at), self._column
        assert match
        self._column = self._reached + len(match[0])
        self._pass(match.end())
        self._column += 1 if self._indent > 4 or _BLANK.match(self._lines.document, self.at) else self._indent
        return match.end(), self._column - before

    def pass_containers(self, containers: Sequence[Container]) -> None:
        """Passes containers, as far as the line continues them: a lazy line does not continue all."""
        for width in containers:
            if width is None:
                if self._indent > 3 or self._lines.document[self.at:self.at + 1] != b'>':
                    return
                self.pass_quote()
            elif self._indent < width:
                return
            else:
                self._column += width


def definitions(lines: Lines, containers: Sequence[Container], start: int, after: int) -> Iterator[Tuple[int, int]]:
    """Where the definitions begin and end that make up the lines of a text, from a byte to before a line."""
    first, starts = lines.line(start), [start]
    for line in range(first + 1, after):
        front = Front(lines, line)
        front.pass_containers(containers)
        starts.append(front.at)
    texts = [lines.document[start:lines.end(line)] for line, start in enumerate(starts, first)]
    before = list(accumulate((len(it) + 1 for it in texts), initial=0))
    text, at = b'\n'.join(texts), 0

    def byte(index: int) -> int:
        line = bisect_right(before, index) - 1
        return starts[line] + index - before[line]

    while at < len(text):
        match = _DEFINITION.match(text, at)
        assert match
        yield byte(at), byte(match.end(1))
        at = match.end()
