"""What the calls return: events and leaves, which are made of the library's bytes when they are looked at."""
import operator
import struct
from array import array
from itertools import accumulate, islice
from typing import Any, Iterator, List, NamedTuple, Optional, Sequence, Tuple, Type, TypeVar, Union, overload

from ._names import Kind, Name

EVENT = struct.Struct('=BBB5x6Q')
SHORT = struct.Struct('=BBBBIQ')
LEAF = struct.Struct('=B7x11Q')
_FLAT = struct.Struct('=BB22xQ24x')
_FLAT_SHORT = struct.Struct('=BB2xIQ')
_NONE, _NO_DEFINITION = 2 ** 64 - 1, 2 ** 32 - 1
_KINDS, _NAMES = tuple(Kind), tuple(Name)
_CONTENTS = (None, 'String', 'Text')
# Bytes that go on with a character, in UTF-8.
_CONTINUED = bytes(range(0x80, 0xc0))
_STRIDE = 1024
_new = tuple.__new__
# The bytes of rows, as a call wrote them.
_Raw = Union[bytes, memoryview]
_Row = TypeVar('_Row')
_Rows_ = TypeVar('_Rows_', bound='_Rows[Any]')
_Contents_ = TypeVar('_Contents_', bound='_Contents[Any]')


class Link(NamedTuple):
    """A chain of what is to be read again, as 'String' or as 'Text': the numbers of the events before and after."""
    content: str
    previous: Optional[int]
    next: Optional[int]


class Event(NamedTuple):
    """The beginning or the end of something. `line` and `column` count from 1; `index` is the byte, from 0, and `vs` how many columns of the tab
    there come before. `character` is the index in the document's characters where it was given as a `str`."""
    kind: Kind
    name: Name
    line: int
    column: int
    index: int
    vs: int
    link: Optional[Link]
    character: Optional[int]

    def __str__(self) -> str:
        """The line that the program `mdinline` prints."""
        line = '%s %s %d %d %d %d' % self[:6]
        if self.link is not None:
            line += ' link %s %s %s' % (self.link.content, *('-' if number is None else number for number in self.link[1:]))
        return line


class ShortEvent(NamedTuple):
    """The beginning or the end of something, without its line and column. `link` is 'String' or 'Text' where it is to be read again. `definition` is the number of
    the definition that a link or an image refers to where it begins, in the order in which they were given, or that of the footnote where a footnote call
    begins; else it is None. Of several with one identifier it is the first. `stands_for` is the character that a character reference stands for where it
    begins; it is None where it stands for two, and for all else."""
    kind: Kind
    name: Name
    index: int
    vs: int
    link: Optional[str]
    definition: Optional[int]
    character: Optional[int]
    stands_for: Optional[str]


class Leaf(NamedTuple):
    """An event with no other inside it, from where it begins to where it ends, and what stands there: `content`, in bytes of the document, between
    `before` and `after` virtual spaces of tabs. `character` and `end_character` are the indexes in the document's characters where it was given as a
    `str`. A leaf may have no content, as the text between the brackets of `[](b)`."""
    name: Name
    line: int
    column: int
    index: int
    vs: int
    end_line: int
    end_column: int
    end_index: int
    end_vs: int
    before: int
    content: bytes
    after: int
    character: Optional[int]
    end_character: Optional[int]


class Characters:
    """Counts the characters of a document before its bytes. It goes on from the last byte that it was asked for, where that is near, and else from the last
    mark: how many come before every so many bytes is counted once, at the first such need. Each step is one assignment, so several threads may ask."""
    __slots__ = ('_document', '_is_ascii', '_last', '_marks')

    def __init__(self, document: bytes) -> None:
        self._document, self._is_ascii, self._last = document, document.isascii(), (0, 0)
        self._marks: Optional[List[int]] = None

    def __reduce__(self) -> Tuple[Any, ...]:
        return Characters, (self._document,)

    def _marked(self) -> List[int]:
        if self._marks is None:
            document = self._document
            counts = (len(document[at:at + _STRIDE].translate(None, _CONTINUED)) for at in range(0, len(document), _STRIDE))
            self._marks = list(accumulate(counts, initial=0))
        return self._marks

    def before(self, index: int) -> int:
        if self._is_ascii:
            return index
        start, count = self._last
        if not start <= index <= start + _STRIDE:
            start, count = index - index % _STRIDE, self._marked()[index // _STRIDE]
        count += len(self._document[start:index].translate(None, _CONTINUED))
        self._last = index, count
        return count


class _Rows(Sequence[_Row]):
    """Rows of the library's bytes, each of which is made into what it says when it is looked at."""
    __slots__ = ('_raw', '_characters', '_document')
    _ROW = EVENT

    def __init__(self, raw: _Raw, characters: Optional[Characters], document: bytes = b'') -> None:
        """`characters` counts those of the document, if it was given as a `str`. Leaves need its bytes too."""
        self._raw, self._characters, self._document = raw, characters, document

    def _made(self, row: Tuple[Any, ...]) -> _Row:
        raise NotImplementedError

    def __len__(self) -> int:
        return len(self._raw) // self._ROW.size

    @overload
    def __getitem__(self, at: int) -> _Row: ...

    @overload
    def __getitem__(self: _Rows_, at: slice) -> _Rows_: ...

    def __getitem__(self, at: Any) -> Any:
        size = self._ROW.size
        if isinstance(at, slice):
            raw = b''.join([self._raw[it * size:(it + 1) * size] for it in range(*at.indices(len(self)))])
            return type(self)(raw, self._characters, self._document)
        number = operator.index(at)
        if number < 0:
            number += len(self)
        if not 0 <= number < len(self):
            raise IndexError('there are %d, and none has this number' % len(self))
        return self._made(self._ROW.unpack_from(self._raw, number * size))

    def __iter__(self) -> Iterator[_Row]:
        return map(self._made, self._ROW.iter_unpack(self._raw))

    def __eq__(self, other: object) -> bool:
        if isinstance(other, type(self)) and self._raw == other._raw and self._characters is other._characters and self._document == other._document:
            return True
        if not isinstance(other, (list, _Rows)):
            return NotImplemented
        return len(self) == len(other) and all(map(operator.eq, self, other))

    __hash__ = None  # type: ignore[assignment]

    def __repr__(self) -> str:
        return repr(list(self))

    def __reduce__(self) -> Tuple[Any, ...]:
        return type(self), (bytes(self._raw), self._characters, self._document)


class Events(_Rows[Event]):
    """The events of a text or of a string: a sequence of `Event`s, each of which is made when it is looked at. It is equal to a list of the same
    events, and cannot be changed. Numbers in an event's link count in the whole sequence, and not in a slice of it.

    >>> events = text('a *b*')
    >>> len(events), str(events[2])
    (12, 'Enter Emphasis 1 3 2 0')
    """
    __slots__ = ()

    def _made(self, row: Tuple[Any, ...]) -> Event:
        kind, name, link, line, column, index, vs, previous, after = row
        chain = None
        if link:
            chain = Link(_CONTENTS[link], None if previous == _NONE else previous, None if after == _NONE else after)
        characters = self._characters
        place = None if characters is None else characters.before(index)
        return _new(Event, (_KINDS[kind], _NAMES[name], line, column, index, vs, chain, place))

    def flat(self) -> Iterator[Tuple[int, int, int]]:
        """The kind, the name and the byte of each event, as plain numbers: much faster than events. `Kind` and `Name` have what the numbers mean.

        >>> list(text('a').flat()) == [(Kind.Enter, Name.Data, 0), (Kind.Exit, Name.Data, 1)]
        True
        """
        return _FLAT.iter_unpack(self._raw)

    def spans(self) -> Iterator[Tuple[int, int, int, int]]:
        """The name of each thing that begins and ends here, the byte at which it begins, the byte before which it ends, and how many others it
        stands in, as plain numbers, in the order in which they begin. A slice in which something only begins or only ends has no spans: ValueError.

        >>> [(str(Name(name)), start, end, depth) for name, start, end, depth in text('a *b*').spans()][:2]
        [('Data', 0, 2, 0), ('Emphasis', 2, 5, 0)]
        """
        spans: List[Tuple[int, int, int, int]] = []
        opened: List[int] = []
        for kind, name, byte in _FLAT.iter_unpack(self._raw):
            if kind == 0:
                opened.append(len(spans))
                spans.append((name, byte, byte, len(opened) - 1))
            elif opened:
                at = opened.pop()
                spans[at] = (name, spans[at][1], byte, len(opened))
            else:
                raise ValueError('something ends here that does not begin here')
        if opened:
            raise ValueError('something begins here that does not end here')
        return iter(spans)


class ShortEvents(_Rows[ShortEvent]):
    """The short events of a text: a sequence of `ShortEvent`s, each of which is made when it is looked at. It is equal to a list of the same events, and cannot
    be changed."""
    __slots__ = ()
    _ROW = SHORT

    def _made(self, row: Tuple[Any, ...]) -> ShortEvent:
        kind, name, link, vs, told, index = row
        characters = self._characters
        place = None if characters is None else characters.before(index)
        definition = character = None
        if told != _NO_DEFINITION:
            if name == Name.CharacterReference:
                character = chr(told)
            else:
                definition = told
        return _new(ShortEvent, (_KINDS[kind], _NAMES[name], index, vs, _CONTENTS[link], definition, place, character))

    def flat(self) -> Iterator[Tuple[int, int, int, int]]:
        """The kind, the name, the definition and the byte of each event, as plain numbers: much faster than events. Of a character reference the code point of
        its character stands in the definition's place. The number of no definition and of no character is 4,294,967,295."""
        return _FLAT_SHORT.iter_unpack(self._raw)


class Leaves(_Rows[Leaf]):
    """The leaves of a text: a sequence of `Leaf`s, each of which is made when it is looked at. It is equal to a list of the same leaves, and cannot
    be changed."""
    __slots__ = ()
    _ROW = LEAF

    def _made(self, row: Tuple[Any, ...]) -> Leaf:
        name, line, column, index, vs, end_line, end_column, end, end_vs, before, length, after = row
        first, characters = index + (vs > 0), self._characters
        places = (None, None) if characters is None else (characters.before(index), characters.before(end))
        content = self._document[first:first + length]
        return _new(Leaf, (_NAMES[name], line, column, index, vs, end_line, end_column, end, end_vs, before, content, after, *places))


def _columns(raw: _Raw, size: int, *columns: Tuple[int, str]) -> Iterator[Tuple[int, ...]]:
    """Plain numbers of rows of this size. Each column is told by its place in a row, which its size divides, and by its format. For many rows this is faster than
    to unpack them."""
    if not raw:
        return iter(())
    views: List[Sequence[int]] = []
    for place, form in columns:
        width = struct.calcsize(form)
        views.append(raw[place::size] if width == 1 else memoryview(raw).cast(form)[place // width::size // width])
    return zip(*views)


class _Contents(Sequence[_Row]):
    """What is found in many contents: a sequence with the rows of each, which are made when they are looked at."""
    __slots__ = ('_raw', '_ends', '_characters')
    _ROWS: Type[_Rows[Any]] = _Rows
    _COLUMNS: Tuple[Tuple[int, str], ...] = ()

    def __init__(self, raw: _Raw, ends: 'array[int]', characters: Optional[Characters]) -> None:
        """`ends` has for each content how many rows end with it."""
        self._raw, self._ends, self._characters = raw, ends, characters

    def __len__(self) -> int:
        return len(self._ends)

    def _part(self, number: int) -> _Raw:
        size = self._ROWS._ROW.size
        return self._raw[(self._ends[number - 1] if number else 0) * size:self._ends[number] * size]

    @overload
    def __getitem__(self, at: int) -> _Row: ...

    @overload
    def __getitem__(self: _Contents_, at: slice) -> _Contents_: ...

    def __getitem__(self, at: Any) -> Any:
        if isinstance(at, slice):
            parts, size = [self._part(it) for it in range(*at.indices(len(self)))], self._ROWS._ROW.size
            return type(self)(b''.join(parts), array('Q', accumulate(len(it) // size for it in parts)), self._characters)
        number = operator.index(at)
        if number < 0:
            number += len(self)
        if not 0 <= number < len(self):
            raise IndexError('there are %d contents, and none has this number' % len(self))
        return self._ROWS(self._part(number), self._characters)

    def __iter__(self) -> Iterator[Any]:
        rows, raw, characters, size, start = self._ROWS, self._raw, self._characters, self._ROWS._ROW.size, 0
        for end in self._ends:
            yield rows(raw[start * size:end * size], characters)
            start = end

    def flat(self) -> Iterator[Iterator[Tuple[int, ...]]]:
        """For each content an iterator with what `flat` of its events gives. They are parts of one iterator over all events, which is faster still. So walk a
        content before you ask for the next one, which begins where that ends.

        >>> found = texts('a\\n\\nb', [Content([(0, 1)]), Content([(3, 4)])])
        >>> [[byte for kind, name, byte in content] for content in found.flat()]
        [[0, 1], [3, 4]]
        """
        rows, start = _columns(self._raw, self._ROWS._ROW.size, *self._COLUMNS), 0
        for end in self._ends:
            content = islice(rows, end - start)
            yield content
            for _ in content:
                # What was not walked.
                pass
            start = end

    def __eq__(self, other: object) -> bool:
        if not isinstance(other, (list, type(self))):
            return NotImplemented
        return len(self) == len(other) and all(map(operator.eq, self, other))

    __hash__ = None  # type: ignore[assignment]

    def __repr__(self) -> str:
        return repr(list(self))

    def __reduce__(self) -> Tuple[Any, ...]:
        return type(self), (bytes(self._raw), self._ends, self._characters)


class Texts(_Contents[Events]):
    """The events of many contents: a sequence with the `Events` of each, which are made when they are looked at. It is equal to a list of such
    lists, and cannot be changed."""
    __slots__ = ()
    _ROWS, _COLUMNS = Events, ((0, 'B'), (1, 'B'), (24, 'Q'))


class ShortTexts(_Contents[ShortEvents]):
    """The short events of many contents: a sequence with the `ShortEvents` of each, which are made when they are looked at. It is equal to a list of such
    lists, and cannot be changed."""
    __slots__ = ()
    _ROWS, _COLUMNS = ShortEvents, ((0, 'B'), (1, 'B'), (4, 'I'), (8, 'Q'))
