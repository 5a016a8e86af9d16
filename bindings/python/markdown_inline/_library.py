"""The shared library, and what crosses to it."""
import ctypes
import ctypes.util
import os
from array import array
from itertools import chain

from . import _arguments
from ._events import EVENT, LEAF, SHORT

VERSION = 1
DONE, TOO_SMALL = 0, 6
#: The number of nothing.
NONE = 2 ** 64 - 1
EVENT_SIZE, SHORT_SIZE, LEAF_SIZE = EVENT.size, SHORT.size, LEAF.size
_BLOCK_SIZE, _PIECE_SIZE, _RANGE_SIZE, _TARGET_SIZE = 48, 32, 16, 40
# No name of a module, which one that ends in `.so` would be.
SHARED = 'libmarkdown_inline.so.1'
#: How many bytes an array has that is lent again, and how many such arrays are kept for all threads together.
KEPT_SIZE, KEPT = 1 << 18, 8

_size = ctypes.c_size_t


class Input(ctypes.Structure):
    """What a call reads. Behind the addresses of numbers stand arrays, which whoever makes the input keeps until the call ends."""
    _fields_ = [
        ('bytes', ctypes.c_char_p), ('bytes_len', _size), ('pieces', ctypes.c_void_p), ('pieces_len', _size), ('labels', ctypes.c_char_p),
        ('labels_len', _size), ('definitions', ctypes.c_void_p), ('definitions_len', _size), ('footnotes', ctypes.c_void_p), ('footnotes_len', _size),
        ('options', ctypes.c_uint32),
    ]


class Outcome(ctypes.Structure):
    """How far a call comes."""
    _fields_ = [('done', _size), ('count', _size), ('blamed', _size)]

    def at(self):
        """The number of what is to blame, or None."""
        return None if self.blamed == NONE else self.blamed


class DocumentOptions(ctypes.Structure):
    """How a document is read and written. The reserved words are 0."""
    _fields_ = [
        ('options', ctypes.c_uint32), ('html', ctypes.c_uint32), ('blocks', ctypes.c_uint32), ('reserved', ctypes.c_uint32), ('limit', _size),
        ('reserved_words', 13 * _size),
    ]


class Given:
    """An input with the arrays that it points to. The bytes of the targets stand first among its labels."""
    __slots__ = ('input', 'bytes', 'pieces', 'ranges')

    def __init__(self, document, pieces, options, defined, noted, targets=b''):
        definitions, _ = _arguments.ranges_of(defined, len(targets))
        self._put(document, pieces, options, b''.join([targets] + defined), definitions, noted)

    @classmethod
    def defined(cls, document, pieces, options, labels, definitions, noted):
        """An input whose definitions stand at these ranges of the labels."""
        given = cls.__new__(cls)
        given._put(document, pieces, options, labels, definitions, noted)
        return given

    def _put(self, document, pieces, options, labels, definitions, noted):
        footnotes, _ = _arguments.ranges_of(noted, len(labels))
        labels = b''.join([labels] + noted)
        self.bytes, self.pieces, self.ranges = document, pieces, (definitions, footnotes)
        self.input = Input(
            document, len(document), pieces.buffer_info()[0], len(pieces) // 4, labels, len(labels), definitions.buffer_info()[0], len(definitions) // 2,
            footnotes.buffer_info()[0], len(noted), options)

    def covered(self):
        """How many bytes the pieces have; where they are no pieces of the document, some number up to the document's length."""
        if len(self.pieces) == 4:
            return max(0, min(len(self.bytes), self.pieces[2] - self.pieces[0]))
        return max(0, min(len(self.bytes), sum(self.pieces[2::4]) - sum(self.pieces[::4])))


def _places():
    """Where the library may stand: as the environment says, beside this file, or where the system looks."""
    told = os.environ.get('MARKDOWN_INLINE_LIBRARY')
    if told:
        yield told
        return
    beside = os.path.join(os.path.dirname(os.path.abspath(__file__)), SHARED)
    if os.path.exists(beside):
        yield beside
    yield ctypes.util.find_library('markdown_inline') or SHARED


def _load():
    library = ctypes.CDLL(next(_places()))
    library.markdown_inline_version.restype = ctypes.c_uint32
    library.markdown_inline_version.argtypes = []
    found = library.markdown_inline_version()
    if found != VERSION:
        raise ImportError('the library has version %d of the interface, and this package wants %d' % (found, VERSION))
    text, numbers, lent = [ctypes.c_char_p, _size], [ctypes.c_void_p, _size], [ctypes.c_void_p, _size, ctypes.POINTER(_size)]
    read = text + [ctypes.c_uint32]
    given, outcome, counts = [ctypes.POINTER(Input)], [ctypes.POINTER(Outcome)], [ctypes.POINTER(_size)]
    for name, arguments in (
        ('is_content', text + numbers), ('is_text', text + numbers), ('pieces_of_lines', text + 2 * numbers + outcome), ('string', given + lent), ('text', given + lent), ('leaves', given + lent),
        ('document_html', text + [ctypes.POINTER(DocumentOptions)] + numbers + outcome), ('blocks', read + 2 * numbers + counts), ('definitions', read + 3 * numbers + counts), ('identifier', text + lent), ('reference', [ctypes.c_uint32] + text + lent), ('texts', given + 3 * numbers + outcome), ('short_texts', given + 3 * numbers + outcome),
        ('html', given + numbers + [ctypes.c_uint32, _size] + lent), ('htmls', given + 2 * numbers + [ctypes.c_uint32, _size] + 2 * numbers + outcome),
        ('strings', 2 * [ctypes.c_uint32] + text + 4 * numbers + outcome),
    ):
        function = getattr(library, 'markdown_inline_' + name)
        function.restype, function.argtypes = ctypes.c_uint32, arguments
    return library


LIBRARY = _load()

# Arrays of KEPT_SIZE that no call uses. A call takes its array out, so that no other call writes to it: not one of another thread, and not one that a
# signal handler or the collector makes meanwhile. To take one out and to put one back are one step each.
_free = []


def _lend(size):
    """An array of at least so many bytes, which belongs to the caller."""
    if size <= KEPT_SIZE:
        try:
            return _free.pop()
        except IndexError:
            size = KEPT_SIZE
    return ctypes.create_string_buffer(size)


def _give_back(lent):
    """Keeps an array for another call, if it is not large."""
    if len(lent) == KEPT_SIZE:
        _free.append(lent)
        del _free[KEPT:]


def _written(lent, length):
    """The bytes that a call wrote to the front of an array, which is given back. A large array that is full for the most part is not copied: it is
    returned itself."""
    # Not ctypes.string_at, which has a limit of 2 GB.
    written = memoryview(lent).cast('B')[:length]
    if len(lent) > KEPT_SIZE and length > len(lent) // 2:
        return written.toreadonly()
    found = written.tobytes()
    written.release()
    _give_back(lent)
    return found


def filled(call, size, room):
    """The status of a call that is lent an array, its length in elements of this size, and a count, and the bytes that it wrote. The array has this
    room in bytes at first, or more; it is another, as large as the call wants it, where that is too small."""
    count = _size()
    for _ in range(2):
        lent = _lend(room)
        status = call(lent, len(lent) // size, count)
        if status != TOO_SMALL:
            return status, _written(lent, count.value * size if status == DONE else 0)
        _give_back(lent)
        room = count.value * size
        del lent
    raise RuntimeError('the library wants other room for the same input')


def _filled_each(function, document, block_options, *arrays):
    """The status of a call that is lent several arrays, and two counts, and the bytes that it wrote to each. An array is told by the size of its elements, the
    number of their count, and the room that it has in elements at first. The call tells how many they are where one of them is too small."""
    counts = (_size * 2)()
    rooms = [room for _, _, room in arrays]
    for _ in range(2):
        lent = [_lend(size * room) for (size, _, _), room in zip(arrays, rooms)]
        status = function(document, len(document), block_options, *chain.from_iterable((it, len(it) // size) for it, (size, _, _) in zip(lent, arrays)), counts)
        rooms = [counts[at] for _, at, _ in arrays]
        if status != TOO_SMALL:
            return status, [_written(it, size * room if status == DONE else 0) for it, (size, _, _), room in zip(lent, arrays, rooms)]
        for it in lent:
            _give_back(it)
        del lent
    raise RuntimeError('the library wants other room for the same input')


def filled_many(call, size, room, many, goes_on=True):
    """The status of a call for so many, the bytes that it wrote, where those of each end, counted in elements of this size, and the number of what is to blame,
    if one of several is. The call is lent the number of the first that it reads, an array with its length, an array for ends with its length, and an outcome.
    The array has this room in bytes at first, or more. Where that is too small, a second call goes on behind those that had room; or it is for all again,
    where calls cannot go on."""
    ends, outcome, kept, at = array('Q', bytes(8 * many)), Outcome(), b'', 0
    for _ in range(2):
        lent = _lend(room)
        if kept:
            memoryview(lent).cast('B')[:len(kept)] = kept
        before, kept = len(kept), b''
        status = call(at, ctypes.byref(lent, before), (len(lent) - before) // size, ends.buffer_info()[0] + at * ends.itemsize, many - at, ctypes.byref(outcome))
        done = at + outcome.done if status == DONE or status == TOO_SMALL and goes_on else at
        if before:
            ends[at:done] = array('Q', [end + before // size for end in ends[at:done]])
        written = ends[done - 1] * size if done else 0
        found = _written(lent, written)
        del lent
        if status != TOO_SMALL:
            return status, found, ends, outcome.at()
        room, at, kept = before + outcome.count * size, done, found
        del found
    raise RuntimeError('the library wants other room for the same input')


def _events_room(given, size):
    # Prose has an event for every five bytes.
    return (given.covered() // 4 + 64) * size


def events(name, given):
    """Calls a function over an input: its status, and the bytes of the events that it found."""
    function, at = getattr(LIBRARY, name), ctypes.byref(given.input)
    return filled(lambda *lent: function(at, *lent), EVENT_SIZE, _events_room(given, EVENT_SIZE))


def leaves(given):
    """Calls for leaves: the status, and their bytes."""
    at = ctypes.byref(given.input)
    return filled(lambda *lent: LIBRARY.markdown_inline_leaves(at, *lent), LEAF_SIZE, (given.covered() // 8 + 64) * LEAF_SIZE)


def decoded(name, text, *before):
    """Calls a function over bytes, with these arguments before them: its status, and the bytes that stand for them."""
    function = getattr(LIBRARY, name)
    return filled(lambda *lent: function(*before, text, len(text), *lent), 1, len(text))


def document_html(document, options, block_options, html_options, limit):
    """Calls for the HTML of a document: the status, its bytes, and the first byte that is not UTF-8, if one is not."""
    asked, outcome = DocumentOptions(options=options, html=html_options, blocks=block_options, limit=limit), Outcome()

    def call(lent, room, count):
        status = LIBRARY.markdown_inline_document_html(document, len(document), asked, lent, room, outcome)
        count.value = outcome.count
        return status

    return (*filled(call, 1, 2 * len(document)), outcome.at())


def blocks(document, block_options):
    """Calls for the blocks of a document: the status, and the bytes of the blocks and of their pieces."""
    # Prose has a block and a piece for each line.
    room = len(document) // 16 + 64
    return _filled_each(LIBRARY.markdown_inline_blocks, document, block_options, (_BLOCK_SIZE, 0, room), (_PIECE_SIZE, 1, room))


def definitions(document, block_options):
    """Calls for the definitions of a document: the status, the texts of labels and targets, and the bytes of where the labels stand and of the targets."""
    return _filled_each(LIBRARY.markdown_inline_definitions, document, block_options, (1, 1, 0), (_RANGE_SIZE, 0, 0), (_TARGET_SIZE, 0, 0))


def texts(name, size, given, contents, count):
    """Calls a function for this many contents, as they cross: the status, the bytes of events of this size, where those of each content end, and what is to
    blame."""
    function, at = getattr(LIBRARY, name), ctypes.byref(given.input)
    contents_at = ctypes.create_string_buffer(contents, len(contents))
    each = len(contents) // count if count else 0

    def call(start, lent, room, ends, many, outcome):
        return function(at, ctypes.byref(contents_at, start * each), many, lent, room, ends, many, outcome)

    return filled_many(call, size, _events_room(given, size), count)


def html(given, targets, count, options, limit):
    """Calls for HTML, with this many targets as they cross: the status, and its bytes."""
    at = ctypes.byref(given.input)
    return filled(lambda *lent: LIBRARY.markdown_inline_html(at, targets, count, options, limit, *lent), 1, 2 * given.covered())


def htmls(given, targets, count, contents, many, options, limit):
    """Calls for the HTML of this many contents, with targets, both as they cross: the status, the bytes of all, where those of each end, and what is to blame.
    Where there are footnotes, they are numbered through all contents, so that a second call is for all."""
    at, contents_at = ctypes.byref(given.input), ctypes.create_string_buffer(contents, len(contents))
    each = len(contents) // many if many else 0

    def call(start, lent, room, ends, left, outcome):
        return LIBRARY.markdown_inline_htmls(
            at, targets, count, ctypes.byref(contents_at, start * each), left, options, limit, lent, room, ends, left, outcome)

    return filled_many(call, 1, 2 * given.covered(), many, not given.input.footnotes_len)


def parted(found, ends):
    """The texts of bytes that end there."""
    return [str(found[start:end], 'utf-8') for start, end in zip(chain((0,), ends), ends)]


def tested(name, document, pieces):
    """Calls a test of pieces: its status."""
    return getattr(LIBRARY, name)(document, len(document), pieces.buffer_info()[0], len(pieces) // 4)


def pieces_of_lines(document, starts):
    """Calls for the pieces of lines: the status, the numbers of the pieces, and what is to blame."""
    pieces, outcome = array('Q', bytes(32 * len(starts))), Outcome()
    status = LIBRARY.markdown_inline_pieces_of_lines(
        document, len(document), starts.buffer_info()[0], len(starts), pieces.buffer_info()[0], len(starts), ctypes.byref(outcome))
    return status, pieces, outcome.at()


def strings(options, string_options, document, parts, listed, count):
    """Calls for the texts of this many strings by options, as they cross, of these parts: the status, the texts' bytes, where each ends, and what is to blame."""

    def call(start, lent, room, ends, many, outcome):
        strings_at = listed.buffer_info()[0] + 2 * start * listed.itemsize
        return LIBRARY.markdown_inline_strings(
            options, string_options, document, len(document), parts.buffer_info()[0], len(parts) // 2, strings_at, many, lent, room, ends, many, outcome)

    return filled_many(call, 1, len(document), count)
