"""Where links lead: the links, images, autolinks and bare URLs of many contents, by their short events."""
from typing import Callable, Dict, List, NamedTuple, Optional, Sequence, Tuple

from ._events import ShortTexts
from ._lines import Lines
from ._names import Name

_KINDS = {
    Name.Link: 'link', Name.Image: 'image', Name.Autolink: 'autolink', Name.GfmAutolinkLiteralEmail: 'literal', Name.GfmAutolinkLiteralMailto: 'literal',
    Name.GfmAutolinkLiteralProtocol: 'literal', Name.GfmAutolinkLiteralWww: 'literal', Name.GfmAutolinkLiteralXmpp: 'literal',
}
# What precedes an address that is no URL yet.
_SCHEMES = {
    Name.AutolinkEmail: 'mailto:', Name.AutolinkProtocol: '', Name.GfmAutolinkLiteralEmail: 'mailto:', Name.GfmAutolinkLiteralMailto: '',
    Name.GfmAutolinkLiteralProtocol: '', Name.GfmAutolinkLiteralWww: 'http://', Name.GfmAutolinkLiteralXmpp: '',
}
_STRINGS = (Name.ResourceDestinationString, Name.ResourceTitleString)
# What an event says that is looked at, by its name, as plain numbers, which are looked up faster than members.
_PART, _KIND, _ADDRESS, _STRING, _TITLE = 1, 2, 4, 8, 16
_SAYS = [
    _PART * (name in (Name.Data, Name.LineEnding)) | _KIND * (name in _KINDS) | _ADDRESS * (name in _SCHEMES) | _STRING * (name in _STRINGS)
    | _TITLE * (name == Name.ResourceTitle) for name in Name]
_NO_DEFINITION = 2 ** 32 - 1


class Address(NamedTuple):
    """A link, an image, an autolink or a bare URL, and where it leads. `kind` is 'link', 'image', 'autolink' or 'literal', which is a bare URL. `start` and `end`
    are indexes of the document as it was given: of characters in a `str`, of bytes in bytes. `line` and `column` count from 1, and a column counts as the
    indexes do. `title` is None where it has none. `definition` is the number of the definition that it refers to, or None; and `content` the number of its
    content."""
    kind: str
    line: int
    column: int
    start: int
    end: int
    destination: str
    title: Optional[str]
    definition: Optional[int]
    content: int


class Found:
    """What begins at `start`, and what is known of where it leads: a definition, an address as it is written, or the numbers of strings."""
    __slots__ = ('name', 'content', 'start', 'end', 'definition', 'scheme', 'address', 'strings', 'has_title')

    def __init__(self, name: int, content: int, start: int, definition: int) -> None:
        self.name, self.content, self.start, self.end, self.has_title = name, content, start, start, False
        self.definition = None if definition == _NO_DEFINITION else definition
        self.scheme, self.address = '', (start, start)
        self.strings: Dict[int, int] = {}


def found_in(events: ShortTexts) -> Tuple[List[Found], List[List[Tuple[int, int]]]]:
    """All that leads somewhere, in the order in which it begins, and the parts of the strings that say where."""
    found: List[Found] = []
    strings: List[List[Tuple[int, int]]] = []
    for content, flat in enumerate(events.flat()):
        opened: List[Found] = []
        is_string, begun = False, 0
        for is_exit, name, definition, byte in flat:
            says = _SAYS[name]
            if not says:
                continue
            if says == _PART:
                if is_exit and is_string:
                    strings[-1].append((begun, byte))
                begun = byte
                continue
            if says & _KIND and not is_exit:
                opened.append(Found(name, content, byte, definition))
                found.append(opened[-1])
            if says & _ADDRESS:
                opened[-1].scheme, opened[-1].address = _SCHEMES[Name(name)], (opened[-1].address[1], byte)
            elif says == _STRING:
                is_string = not is_exit
                if is_string:
                    opened[-1].strings[name] = len(strings)
                    strings.append([])
            elif says == _TITLE:
                opened[-1].has_title = True
            if says & _KIND and is_exit:
                opened.pop().end = byte
    return found, strings


def addresses(
        lines: Lines, found: List[Found], strings: List[str], targets: Sequence[Tuple[str, Optional[str]]], decoded: Callable[[bytes], str] = bytes.decode) -> List[Address]:
    """Where all leads: by its strings, by the targets of definitions, or as it is written, which is `decoded`."""
    listed = []
    for it in found:
        if it.definition is not None:
            destination, title = targets[it.definition]
        elif it.name in (Name.Link, Name.Image):
            destination, title = (strings[it.strings[name]] if name in it.strings else '' for name in _STRINGS)
            title = title if it.has_title else None
        else:
            destination, title = it.scheme + decoded(lines.document[slice(*it.address)]), None
        place = lines.line(it.start), lines.column(it.start), lines.offset(it.start), lines.offset(it.end)
        listed.append(Address(_KINDS[Name(it.name)], *place, destination, title, it.definition, it.content))
    return listed
