"""What callers hand over, as the library takes it. What is no text, no piece and no option is refused with a TypeError, a ValueError or an
OverflowError that names it; so nothing of it reaches a call."""
import math
import operator
import struct
from array import array
from bisect import bisect_right
from collections.abc import Mapping, Sequence
from itertools import accumulate

_TARGET = struct.Struct('=4QI4x')
_CONTENT = struct.Struct('=2QI4x')
_NO_NUMBERS = array('Q')
BUFFERS = (bytes, bytearray, memoryview)
# Whether raw HTML is escaped, and how line endings are written, as bits of HTML.
_HTML = {'escape': 0, 'raw': 1}
_LINE_ENDS = {'\n': 0x20, '\r\n': 0x40}
_NO_PIECES = (str, range) + BUFFERS


def _kind(given):
    return type(given).__name__


def text_of(given, what):
    """The bytes of a text: the UTF-8 of a `str`, or what an object of bytes holds. Surrogates stay, as bytes that are no UTF-8."""
    if type(given) is bytes:
        return given
    if isinstance(given, str):
        return str.encode(given, 'utf-8', 'surrogatepass')
    try:
        view = memoryview(given)
    except TypeError:
        view = None
    if view is None or view.itemsize != 1:
        raise TypeError('%s is a str or bytes, and not a %s' % (what, _kind(given)))
    return view.tobytes()


def flag_of(given, what):
    """Whether something is asked for."""
    if given is True or given is False:
        return given
    if not isinstance(given, int):
        raise TypeError('%s is True or False, and not a %s' % (what, _kind(given)))
    if given not in (0, 1):
        raise ValueError('%s is True or False, and not another number' % what)
    return bool(given)


def one_of(given, known, what):
    """What one of the known words stands for."""
    if not isinstance(given, str):
        raise TypeError('%s is a str, and not a %s' % (what, _kind(given)))
    if given not in known:
        raise ValueError('%s is %s, and not %r' % (what, ' or '.join(map(repr, known)), given))
    return known[given]


def bits_of(given):
    """The bits of options, which the library tests for those that it does not know."""
    if isinstance(given, bool):
        raise TypeError('options is a number of bits, and not a bool')
    try:
        bits = operator.index(given)
    except TypeError:
        raise TypeError('options is a number of bits, and not a %s' % _kind(given)) from None
    if not 0 <= bits < 2 ** 32:
        raise OverflowError('options is below 0 or has more than 32 bits')
    return bits


def shown_of(html, any_link, line_ends):
    """What HTML may contain and how it is written, as bits. If `line_ends` is None, line endings stay as they are."""
    shown = one_of(html, _HTML, 'html') | flag_of(any_link, 'any_link') << 1
    return shown if line_ends is None else shown | one_of(line_ends, _LINE_ENDS, 'line_ends')


def limit_of(given):
    """A limit on bytes as the library takes it. None is its default, and `math.inf` is none."""
    if given is None:
        return 0
    if isinstance(given, float) and given == math.inf:
        return 2 ** 64 - 1
    if isinstance(given, bool):
        raise TypeError('limit is a number of bytes, and not a bool')
    try:
        limit = operator.index(given)
    except TypeError:
        raise TypeError('limit is a number of bytes, and not a %s' % _kind(given)) from None
    if not 0 <= limit < 2 ** 64:
        raise OverflowError('limit is below 0 or has more than 64 bits')
    if limit == 0:
        raise ValueError('limit is from 1 on, and math.inf for none')
    return limit


def _several(given, what, one):
    """An iterator of several things. One of them, handed over by itself, is refused."""
    if isinstance(given, (str,) + BUFFERS):
        raise TypeError('%s is a list, and not a %s; write [%s] for one' % (what, _kind(given), one))
    try:
        return iter(given)
    except TypeError:
        raise TypeError('%s is a list, and not a %s' % (what, _kind(given))) from None


def labels_of(given, what):
    """The bytes of each label."""
    if type(given) is tuple and not given:
        return []
    return [text_of(it, 'a label of ' + what) for it in _several(given, what, 'label')]


def _numbers(piece, what):
    """The numbers of a piece in the order in which they cross, or why it is no piece."""
    if isinstance(piece, _NO_PIECES) or not isinstance(piece, Sequence):
        raise TypeError('%s is a piece, as (start, end) or (start, end, start_vs, end_vs), and not a %s' % (what, _kind(piece)))
    if not 2 <= len(piece) <= 4:
        raise ValueError('%s has %d numbers, and a piece has 2 to 4' % (what, len(piece)))
    start, end, start_vs, end_vs = (tuple(piece) + (0, 0))[:4]
    for number, name in ((start, 'start'), (end, 'end'), (start_vs, 'start_vs'), (end_vs, 'end_vs')):
        try:
            is_index = 0 <= operator.index(number) < 2 ** 64
        except TypeError:
            raise TypeError('the %s of %s is a number, and not a %s' % (name, what, _kind(number))) from None
        if not is_index:
            raise OverflowError('the %s of %s is below 0 or has more than 64 bits' % (name, what))
    return start, start_vs, end, end_vs


def _push_pieces(found, given, name, *names):
    """Puts the numbers of pieces behind others, in the order in which they cross. `_crossing` sees where a number of a tuple is none. What the pieces are called
    is put together only where one is no tuple, as few are."""
    for at, piece in enumerate(given if type(given) is list else _several(given, name % names, 'piece')):
        if isinstance(piece, tuple) and len(piece) == 2:
            found += piece[0], 0, piece[1], 0
        elif isinstance(piece, tuple) and len(piece) == 4:
            found += piece[0], piece[2], piece[1], piece[3]
        else:
            found += _numbers(piece, '%s[%d]' % (name % names, at))


def _crossing(found, name_of):
    """The numbers of pieces as they cross. Where one is none, `name_of` tells what a piece is called, by its number among all."""
    try:
        return array('Q', map(operator.index, found))
    except (TypeError, OverflowError):
        for at in range(0, len(found), 4):
            start, start_vs, end, end_vs = found[at:at + 4]
            _numbers((start, end, start_vs, end_vs), name_of(at // 4))
        raise


def pieces_of(given, length):
    """The pieces as they cross, four numbers each. None is the whole of a document of this length."""
    if given is None:
        return array('Q', (0, 0, length, 0))
    found = []
    _push_pieces(found, given, 'pieces')
    return _crossing(found, lambda number: 'pieces[%d]' % number)


def contents_of(given):
    """The pieces of all contents as they cross, the contents as they cross, and how many contents there are."""
    found, ends, firsts = [], [], []

    def name_of(number):
        at = bisect_right(ends, number)
        return 'the pieces of contents[%d][%d]' % (at, number - (ends[at - 1] if at else 0))

    for at, it in enumerate(_several(given, 'contents', 'content')):
        try:
            pieces, is_first = it
        except (TypeError, ValueError):
            raise TypeError('contents[%d] is no Content: that has pieces, and whether it is the first of a list item' % at) from None
        firsts.append(is_first if is_first is False else flag_of(is_first, 'first_of_item of contents[%d]' % at))
        _push_pieces(found, pieces, 'the pieces of contents[%d]', at)
        ends.append(len(found) // 4)
    return _crossing(found, name_of), b''.join(map(_CONTENT.pack, [0] + ends[:-1], ends, firsts)), len(ends)


def strings_of(given):
    """The parts of all strings as they cross, two numbers each, the strings as they cross, and how many strings there are."""
    parts, strings = array('Q'), array('Q')
    for at, it in enumerate(_several(given, 'strings', 'string')):
        start = len(parts) // 2
        for number, part in enumerate(_several(it, 'strings[%d]' % at, 'part')):
            first, _, end, _ = _numbers(part, 'part %d of strings[%d]' % (number, at))
            if len(part) != 2:
                raise ValueError('part %d of strings[%d] has %d numbers, and a part has 2' % (number, at, len(part)))
            parts.extend((operator.index(first), operator.index(end)))
        strings.extend((start, len(parts) // 2))
    return parts, strings, len(strings) // 2


def starts_of(given):
    """The starts of lines as they cross."""
    listed = list(_several(given, 'starts', 'start'))
    try:
        return array('Q', map(operator.index, listed))
    except TypeError:
        raise TypeError('starts are numbers of bytes, and not all of these are: %r' % listed[:9]) from None
    except OverflowError:
        raise OverflowError('a start is below 0 or has more than 64 bits') from None


def ranges_of(labels, start):
    """Where each label stands, of labels that follow one another from an index, and where the last one ends."""
    if not labels:
        return _NO_NUMBERS, start
    ends = list(accumulate(map(len, labels), initial=start))
    numbers = array('Q', bytes(16 * len(labels)))
    numbers[::2], numbers[1::2] = array('Q', ends[:-1]), array('Q', ends[1:])
    return numbers, ends[-1]


def target_of(given):
    """The bytes of a destination, and of its title, which may be None."""
    if isinstance(given, (tuple, list)):
        if len(given) != 2:
            raise ValueError('a target has a destination and a title, and not %d texts' % len(given))
        destination, title = given
        return text_of(destination, 'a destination'), None if title is None else text_of(title, 'a title')
    return text_of(given, 'a target without a title'), None


def targets_of(definitions):
    """The labels of definitions, where they lead as it crosses, and the texts of that one behind another."""
    if definitions is None:
        return [], b'', b''
    if not isinstance(definitions, Mapping):
        raise TypeError('definitions is a mapping from labels to where they lead, and not a %s' % _kind(definitions))
    labels, targets, texts, at = [], [], [], 0
    for label, target in definitions.items():
        labels.append(text_of(label, 'a label of definitions'))
        destination, title = target_of(target)
        behind = at + len(destination)
        end = behind + len(title or b'')
        targets.append(_TARGET.pack(at, behind, behind, end, title is not None))
        texts += destination, title or b''
        at = end
    return labels, b''.join(targets), b''.join(texts)
