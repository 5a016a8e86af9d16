"""What callers may pass, as type hints say it."""
from typing import Literal, NamedTuple, Optional, Sequence, Union

Text = Union[str, bytes, bytearray, memoryview]
Html = Literal['escape', 'raw']
LineEnds = Optional[Literal['\n', '\r\n']]
# A number of bytes, or `math.inf`.
Limit = Union[None, int, float]


class Piece(NamedTuple):
    """A piece of a document, from a byte to a byte of its UTF-8. `start_vs` and `end_vs` count the columns of a tab there that come before."""
    start: int
    end: int
    start_vs: int = 0
    end_vs: int = 0


class Content(NamedTuple):
    """One of many contents of a document: its pieces, and whether it is the first of a list item."""
    pieces: Sequence[Sequence[int]]
    first_of_item: bool = False
