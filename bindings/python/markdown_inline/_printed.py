"""Lines that the programs print: of a tree, and of links."""
import json
import re
from typing import Iterable, Iterator, List, Optional, Tuple

from ._events import Event, Events
from ._links import Address
from ._names import Kind

# How many levels are indented. A level below has its number instead, so that n levels are not n * n bytes.
_DEEPEST = 32
_CONTROL = re.compile('[\0-\x1f\x7f-\x9f]')


def tree(events: Events, document: bytes) -> List[str]:
    """A line for each thing that begins, below what it stands in: its name, where it begins and ends, and, where nothing stands in it, its text as JSON writes
    it. The paragraph is the whole document."""
    found: List[str] = []
    opened: List[Tuple[int, Event]] = []
    for event in events:
        if event.kind == Kind.Enter:
            opened.append((len(found), event))
            found.append('')
            continue
        at, enter = opened.pop()
        depth = len(opened)
        margin = '  ' * depth if depth <= _DEEPEST else '%s%d: ' % ('  ' * _DEEPEST, depth)
        words = ' ' + json.dumps(document[enter.index:event.index].decode(), ensure_ascii=False) if at + 1 == len(found) else ''
        found[at] = '%s%s %d:%d-%d:%d%s' % (margin, event.name, enter.line, enter.column, event.line, event.column, words)
    return found


def shown(text: str) -> str:
    """A text without control characters, which a terminal would obey."""
    return _CONTROL.sub(lambda it: '\\u%04x' % ord(it[0]), text)


def quoted(text: str) -> str:
    """A text as a string of JSON."""
    return '"%s"' % shown(text.replace('\\', '\\\\').replace('"', '\\"'))


def links(found: Iterable[Address], file: Optional[str] = None, is_json: bool = False) -> Iterator[str]:
    """A line for each link, image, autolink and bare URL, as mdhtml prints them of standard input or of a named file."""
    for it in found:
        if is_json:
            place = ('"file":%s,' % quoted(file) if file is not None else '') + '"line":%d,"column":%d,"kind":"%s"' % (it.line, it.column, it.kind)
            yield '{%s,"destination":%s,"title":%s}' % (place, quoted(it.destination), quoted(it.title or ''))
        elif file is not None:
            yield '%s:%d:%d: %s' % (shown(file), it.line, it.column, shown(it.destination))
        else:
            yield '%d\t%d\t%s\t%s\t%s' % (it.line, it.column, it.kind, shown(it.destination), shown(it.title or ''))
