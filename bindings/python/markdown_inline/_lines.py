"""The lines of a document, and places in it."""
import re
from bisect import bisect_right
from typing import Optional, Sequence

from ._events import Characters

_ENDING = re.compile(b'\r\n|\n|\r')


class Lines:
    """The lines of a document, and where its bytes are in what the caller passed: by characters if that is a `str`, else by bytes."""
    __slots__ = ('document', 'starts', 'offset')

    def __init__(self, document: bytes, characters: Optional[Characters] = None) -> None:
        self.document, self.offset = document, characters.before if characters else int
        # The bytes at which lines begin. After a line ending at the end of the document no line begins, but in an empty document one does.
        self.starts: Sequence[int] = [0, *(it.end() for it in _ENDING.finditer(document))]

    @property
    def last(self) -> int:
        """The number of the last line."""
        return len(self.starts) - (self.starts[-1] == len(self.document) > 0)

    def line(self, byte: int) -> int:
        """The line of a byte, from 1."""
        return bisect_right(self.starts, byte)

    def column(self, byte: int) -> int:
        """The column of a byte, from 1."""
        return self.offset(byte) - self.offset(self.starts[self.line(byte) - 1]) + 1

    def end(self, line: int) -> int:
        """The byte at which a line ends, before its line ending."""
        end = self.starts[line] if line < len(self.starts) else len(self.document)
        ending = self.document[max(self.starts[line - 1], end - 2):end]
        return end - (2 if ending == b'\r\n' else ending[-1:] in (b'\n', b'\r'))
