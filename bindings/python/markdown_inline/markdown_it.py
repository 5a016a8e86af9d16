"""A plugin for markdown-it-py: blocks are read by markdown-it, and what stands in them by this package.

    from markdown_it import MarkdownIt
    from markdown_inline.markdown_it import plugin

    md = MarkdownIt('commonmark').use(plugin)
    print(md.render('a *b*'))

One call reads all contents of a document. The tokens are those of markdown-it's own inline parser, so its renderer and the rules that come behind go on
as ever. The links of the document are those of its references, and `validateLink`, `normalizeLink` and `normalizeLinkText` are asked as ever. A content
that the library cannot read as markdown-it would is read by markdown-it's own parser.
"""
import re
from functools import partial
from typing import Any, Callable, Dict, Iterator, List, Mapping, MutableMapping, Optional, Pattern, Sequence, Tuple

from markdown_it import MarkdownIt
from markdown_it.common.entities import entities
from markdown_it.common.utils import fromCodePoint, isValidEntityCode, normalizeReference, unescapeAll
from markdown_it.parser_inline import ParserInline
from markdown_it.ruler import Ruler
from markdown_it.rules_core import StateCore
from markdown_it.token import Token

from ._errors import BlankLine
from ._events import Characters
from .inline import OPTIONS, Name, Piece, identifier, texts

__all__ = ['pieces_of', 'plugin']

# What each rule of markdown-it's inline parser reads. The others have no bit: they read what is always read, or join what the rules have read.
_BITS: Dict[str, int] = {
    'emphasis': OPTIONS['attention'], 'strikethrough': OPTIONS['gfm_strikethrough'], 'backticks': OPTIONS['code_text'],
    'escape': OPTIONS['character_escape'] | OPTIONS['hard_break_escape'], 'link': OPTIONS['label_start_link'] | OPTIONS['label_end'],
    'image': OPTIONS['label_start_image'] | OPTIONS['label_end'], 'autolink': OPTIONS['autolink'], 'html_inline': OPTIONS['html_text'],
    'entity': OPTIONS['character_reference'], 'newline': OPTIONS['hard_break_trailing'],
}
# What stands in a content in which a rule of another plugin can find something: regular expressions, by the names of the rules.
_SIGNS: Dict[str, str] = {
    'attr': r'\{', 'footnote_inline': r'\^\[', 'footnote_ref': r'\[\^', 'math_inline': r'\$|``|\\\(', 'math_inline_double': r'\$', 'math_single': r'\$',
    'myst_role': r'\{', 'span': r'\{', 'substitution_inline': r'\{\{',
}
# Where the library and markdown-it read blanks in two ways: at the ends of a content, in a blank line, and a tab at the end of a line.
_BLANKS, _BLANK = (' ', '\t', '\n', '\r'), r'\n[ \t]*[\r\n]|\r[ \t]*[\r\n]|\t *\n'
# A backslash and the character behind it, which is not ASCII where further bytes follow.
_BACKSLASH = re.compile(r'\\[^\n\x80-\xbf][\x80-\xbf]*')
_ALL, _LINE_ENDING = re.compile(''), re.compile('\r\n|\n|\r')
# An address that normalizeLink leaves as it is.
_SAFE = r"(?:[A-Za-z0-9;/?%s@&=+$,\-_.!~*'()#]|%%[0-9A-Fa-f]{2})*"
_NORMAL = re.compile('(?!//)' + _SAFE % '' + r'|https?://[a-z0-9-]{1,63}(?:\.[a-z0-9-]{1,63}){0,3}(?![^/?#])' + _SAFE % ':')
# Names as plain numbers, which are looked up and compared faster than members.
_DATA, _CODE = Name.Data.value, Name.CodeText.value
_HTML, _AUTOLINK, _RESOURCE, _REFERENCE = Name.HtmlText.value, Name.Autolink.value, Name.Resource.value, Name.Reference.value
_LABEL, _DESTINATION, _TITLE = Name.ReferenceString.value, Name.ResourceDestinationString.value, Name.ResourceTitleString.value
_WHOLE = Name.ResourceDestination.value
_STRINGS = {_LABEL, _DESTINATION, _TITLE, _WHOLE}
_ADDRESSES = {Name.AutolinkProtocol.value: '', Name.AutolinkEmail.value: 'mailto:'}
# The kind, the name and the byte of each event.
_Flat = Iterator[Tuple[int, int, int]]


class _Refused(Exception):
    """markdown-it refuses where a link leads, and reads the content in another way."""


def _decoded(reference: str) -> str:
    """What a character reference stands for, by markdown-it's rule."""
    if reference[1] != '#':
        return entities[reference[1:-1]]
    code = int(reference[3:-1], 16) if reference[2] in 'xX' else int(reference[2:-1])
    return fromCodePoint(code if isValidEntityCode(code) else 0xfffd)


class _Opened:
    """A link or an image whose end is still to come."""
    __slots__ = ('token', 'place', 'level', 'label', 'label_end', 'is_resource', 'strings')

    def __init__(self, token: Token, place: int, level: int) -> None:
        self.token, self.place, self.level, self.label, self.label_end, self.is_resource = token, place, level, 0, 0, False
        # Where the strings of its resource or of its reference stand, by their names.
        self.strings: Dict[int, Tuple[int, int]] = {}


class _Builder:
    """Makes the tokens of the contents of one document."""

    def __init__(self, md: MarkdownIt, env: MutableMapping[str, Any], document: bytes, has_places: bool) -> None:
        self.md, self.references = md, env.get('references') or {}
        # How many images may stand inside each other: the renderer calls itself for what stands in an image.
        self.deepest = md.options.get('maxNesting', 20)
        # A character for each byte, so that bytes can be cut out; what is not ASCII is decoded then.
        self.source = document.decode('latin-1')
        self.identifiers: Optional[Dict[str, Any]] = None
        # Where markdown-it joins texts later, escapes and references are tokens of their own until then.
        self.has_specials = 'text_join' in md.core.ruler.get_active_rules()
        self.has_backslashes = self.has_specials and 'escape' in md.inline.ruler.get_active_rules()
        self.is_usual = getattr(md.normalizeLink, '__func__', None) is MarkdownIt.normalizeLink
        self.characters = Characters(document).before if has_places else None
        # What is done where something begins, and where something ends. What is not here needs nothing, or is read by what it stands in.
        enters: Dict[Name, Callable[[int], None]] = {
            Name.CharacterEscapeValue: self.begin, Name.CharacterReference: self.begin, Name.LineEnding: self.line,
            Name.CodeText: self.code, Name.HtmlText: self.raw, Name.Autolink: self.autolink, Name.HardBreakEscape: self.hard_break,
            Name.HardBreakTrailing: self.hard_break, Name.LabelText: self.label, Name.Link: self.link, Name.Image: self.image,
            Name.Resource: self.strings, Name.Reference: self.strings,
            Name.Emphasis: partial(self.open, 'em', 1), Name.Strong: partial(self.open, 'strong', 2), Name.GfmStrikethrough: partial(self.open, 's', 2),
        }
        exits: Dict[Name, Callable[[int], None]] = {
            Name.CharacterEscapeValue: self.value, Name.CharacterReference: self.reference, Name.LabelText: self.label_ends,
            Name.Link: self.link_ends, Name.Image: self.image_ends,
            Name.Emphasis: partial(self.close, 'em', 1), Name.Strong: partial(self.close, 'strong', 2), Name.GfmStrikethrough: partial(self.close, 's', 2),
        }
        self.handlers: Tuple[List[Optional[Callable[[int], None]]], ...] = tuple([table.get(name) for name in Name] for table in (enters, exits))

    def build(self, events: _Flat, first: int) -> List[Token]:
        """The tokens of a content that begins at a byte."""
        self.events, self.first = events, first
        self.tokens: List[Token] = []
        self.level, self.is_broken, self.text_start, self.text_end = 0, False, 0, 0
        self.text: List[str] = []
        self.opened: List[_Opened] = []
        self.outer: List[List[Token]] = []
        # The opening tokens of emphasis whose ends are still to come, with their bytes.
        self.marks: List[Tuple[Token, int]] = []
        (enters, exits), start, source, text = self.handlers, 0, self.source, self.text
        for kind, name, place in events:
            if name == _DATA:
                # Most events are of data, which is said without a call.
                if kind:
                    found = source[start:place]
                    if self.has_backslashes and '\\' in found:
                        self.backslashes(start, place)
                        continue
                    if not text:
                        self.text_start = start
                    text.append(found if found.isascii() else self.cut(start, place))
                    self.text_end = place
                else:
                    start = place
                continue
            handle = exits[name] if kind else enters[name]
            if handle is not None:
                handle(place)
        if self.text:
            self.flush()
        return self.tokens

    def say(self, words: str, start: int, end: int) -> None:
        """Puts words behind the text that has come."""
        if not self.text:
            self.text_start = start
        self.text.append(words)
        self.text_end = end

    def put(self, token: Token, start: int, end: int) -> None:
        """Says from where to where a token stands, in characters of its content."""
        if self.characters is not None:
            first = self.characters(self.first)
            token.meta['markdown_inline'] = {'start': self.characters(start) - first, 'end': self.characters(end) - first}

    def cut(self, start: int, end: int) -> str:
        found = self.source[start:end]
        return found if found.isascii() else found.encode('latin-1').decode()

    def flush(self) -> None:
        """Makes a token of the text that has come."""
        token = Token('text', '', 0)
        token.content, token.level = ''.join(self.text), self.level
        self.put(token, self.text_start, self.text_end)
        self.text.clear()
        self.tokens.append(token)

    def push(self, kind: str, tag: str, nesting: int) -> Token:
        if self.text:
            self.flush()
        token = Token(kind, tag, nesting)
        if nesting < 0:
            self.level -= 1
        token.level = self.level
        if nesting > 0:
            self.level += 1
        self.tokens.append(token)
        return token

    # What is plain.

    def begin(self, place: int) -> None:
        self.start = place

    def value(self, place: int) -> None:
        value = self.cut(self.start, place)
        self.special(value, '\\' + value, 'escape', self.start - 1, place)

    def reference(self, place: int) -> None:
        reference = self.cut(self.start, place)
        self.special(_decoded(reference), reference, 'entity', self.start, place)

    def special(self, words: str, markup: str, info: str, start: int, end: int) -> None:
        """What an escape or a reference stands for."""
        if not self.has_specials:
            return self.say(words, start, end)
        token = self.push('text_special', '', 0)
        token.content, token.markup, token.info = words, markup, info
        self.put(token, start, end)

    def backslashes(self, start: int, end: int) -> None:
        """Text with backslashes that escape nothing. Each of them makes a token with the character behind it, which is a text in the end."""
        for found in _BACKSLASH.finditer(self.source, start, end):
            if start < found.start():
                self.say(self.cut(start, found.start()), start, found.start())
            start, words = found.end(), self.cut(*found.span())
            self.special(words, words, 'escape', *found.span())
        if start < end:
            self.say(self.cut(start, end), start, end)

    def hard_break(self, place: int) -> None:
        self.push('hardbreak', 'br', 0)
        self.is_broken, self.start = True, place

    def line(self, place: int) -> None:
        if not self.is_broken:
            self.push('softbreak', 'br', 0)
            self.start = place
        self.put(self.tokens[-1], self.start, place + 1)
        self.is_broken = False

    def open(self, tag: str, width: int, place: int) -> None:
        token = self.push(tag + '_open', tag, 1)
        token.markup = self.source[place] * width
        self.marks.append((token, place))

    def close(self, tag: str, width: int, place: int) -> None:
        token, (opening, start) = self.push(tag + '_close', tag, -1), self.marks.pop()
        token.markup = opening.markup
        self.put(opening, start, place)
        self.put(token, start, place)

    # What is read to its end at once.

    def code(self, place: int) -> None:
        token, begun = self.push('code_inline', 'code', 0), place
        for _, name, end in self.events:
            if name == _CODE:
                break
        while self.source[begun] == '`':
            begun += 1
        content = self.cut(begun, end - (begun - place)).replace('\n', ' ')
        if content[0] == ' ' == content[-1] and content.strip(' '):
            content = content[1:-1]
        token.content, token.markup = content, self.source[place:begun]
        self.put(token, place, end)

    def raw(self, place: int) -> None:
        end = next(byte for _, name, byte in self.events if name == _HTML)
        token = self.push('html_inline', '', 0)
        token.content = self.cut(place, end)
        self.put(token, place, end)

    def autolink(self, place: int) -> None:
        begun, end, scheme = place + 1, place, ''
        for kind, name, byte in self.events:
            if name == _AUTOLINK:
                break
            if kind and name in _ADDRESSES:
                end, scheme = byte, _ADDRESSES[name]
        address = self.cut(begun, end)
        opening = self.push('link_open', 'a', 1)
        opening.attrs = {'href': self.href(scheme + address)}
        self.say(self.md.normalizeLinkText(address), begun, end)
        for token in (opening, self.push('link_close', 'a', -1)):
            token.markup, token.info = 'autolink', 'auto'
            self.put(token, place, end + 1)

    # Links and images.

    def href(self, address: str) -> str:
        """An address as markdown-it writes it, if it does not refuse it."""
        href: str = address if self.is_usual and _NORMAL.fullmatch(address) else self.md.normalizeLink(address)
        if not self.md.validateLink(href):
            raise _Refused
        return href

    def link(self, place: int) -> None:
        self.opened.append(_Opened(self.push('link_open', 'a', 1), place, 0))

    def image(self, place: int) -> None:
        if len(self.outer) >= self.deepest:
            raise _Refused
        self.opened.append(_Opened(self.push('image', 'img', 0), place, self.level))
        self.outer.append(self.tokens)
        self.tokens, self.level = [], 0

    def label(self, place: int) -> None:
        if self.opened:
            self.opened[-1].label = place

    def label_ends(self, place: int) -> None:
        if self.opened:
            self.opened[-1].label_end = place

    def strings(self, place: int) -> None:
        opened = self.opened[-1]
        opened.is_resource = self.source[place] == '('
        for kind, name, byte in self.events:
            if name == _RESOURCE or name == _REFERENCE:
                break
            if name in _STRINGS:
                opened.strings[name] = (opened.strings[name][0] if kind else byte), byte

    def string(self, opened: _Opened, name: int) -> str:
        """A string of a link as it is written; no text where it has none."""
        found = opened.strings.get(name)
        return self.cut(*found) if found else ''

    def target(self, opened: _Opened) -> Tuple[str, str, Optional[str]]:
        """Where a link leads, its title, and the label of the reference by which it does."""
        if opened.is_resource:
            title = unescapeAll(self.string(opened, _TITLE))
            if _WHOLE not in opened.strings:
                return '', title, None
            return self.href(unescapeAll(self.string(opened, _DESTINATION))), title, None
        written = self.string(opened, _LABEL) or self.cut(opened.label, opened.label_end)
        label = normalizeReference(written)
        found = self.references.get(label) or self.by_identifier(written)
        return found['href'], found['title'], label

    def by_identifier(self, label: str) -> Any:
        """The reference of a label that markdown-it and the library fold in two ways."""
        if self.identifiers is None:
            self.identifiers = {identifier(it): found for it, found in reversed(list(self.references.items()))}
        return self.identifiers[identifier(label)]

    def finish(self, token: Token, title: str, label: Optional[str]) -> None:
        if title:
            token.attrSet('title', title)
        if label and self.md.options.get('store_labels', False):
            token.meta['label'] = label

    def link_ends(self, place: int) -> None:
        opened = self.opened.pop()
        href, title, label = self.target(opened)
        opened.token.attrs = {'href': href}
        self.finish(opened.token, title, label)
        for token in (opened.token, self.push('link_close', 'a', -1)):
            self.put(token, opened.place, place)

    def image_ends(self, place: int) -> None:
        if self.text:
            self.flush()
        opened = self.opened.pop()
        href, title, label = self.target(opened)
        opened.token.children, opened.token.content = self.tokens or None, self.cut(opened.label, opened.label_end)
        opened.token.attrs = {'src': href, 'alt': ''}
        self.finish(opened.token, title, label)
        self.put(opened.token, opened.place, place)
        self.tokens, self.level = self.outer.pop(), opened.level


def _rules(ruler: Ruler) -> Dict[str, Any]:
    """The functions of the rules that are active, by their names."""
    return dict(zip(ruler.get_active_rules(), ruler.getRules('')))


_OWN, _OWN_BEHIND = _rules(ParserInline().ruler), _rules(ParserInline().ruler2)


def _asked(md: MarkdownIt, signs: Mapping[str, str]) -> Tuple[int, Pattern[str]]:
    """The bits for the rules that are active, and what stands in the contents that markdown-it's own parser reads."""
    rules, behind = _rules(md.inline.ruler), _rules(md.inline.ruler2)
    bits = OPTIONS['standard_rules']
    given = [_BLANK, *(sign for sign, is_on in (
        (r'\\', 'escape' not in rules), ('~~~', 'strikethrough' in rules), ('://', 'linkify' in rules and md.options.get('linkify'))) if is_on)]
    for own, found in ((_OWN, rules), (_OWN_BEHIND, behind)):
        for name, function in found.items():
            if function is own.get(name):
                bits |= _BITS.get(name, 0)
            elif name in signs:
                given.append(signs[name])
            else:
                return bits, _ALL
    # What the library reads always, or together.
    is_whole = {'text', 'newline'} <= set(rules) and ('link' in rules) == ('image' in rules) and all(
        (it in behind) == (it in rules or it not in _OWN) for it in _OWN_BEHIND)
    return bits if md.options.get('html') else bits & ~OPTIONS['html_text'], re.compile('|'.join(given)) if is_whole else _ALL


def _encoded(content: str, given: Pattern[str]) -> Optional[bytes]:
    """The bytes of a content; none of one that markdown-it's own parser reads. Surrogates have none."""
    if content.startswith(_BLANKS) or content.endswith(_BLANKS) or given.search(content):
        return None
    try:
        return content.encode()
    except UnicodeEncodeError:
        return None


def _read(contents: List[bytes], options: int, references: Mapping[str, Any]) -> Tuple[bytes, List[int], Optional[Iterator[Any]]]:
    """The contents as one document, where each begins, and their events; none where one of them is no text."""
    firsts, at = [], 0
    for it in contents:
        firsts.append(at)
        at += len(it) + 2
    document = b'\n\n'.join(contents)
    try:
        pieces = [([(first, first + len(it))], False) for first, it in zip(firsts, contents)]
        return document, firsts, texts(document, pieces, options=options, definitions=references).flat()
    except BlankLine:
        return document, firsts, None


def _inline(signs: Mapping[str, str], has_places: bool, state: StateCore) -> None:
    """Reads the contents of all inline tokens."""
    md, env = state.md, state.env
    options, given = _asked(md, signs)
    tokens = [it for it in state.tokens if it.type == 'inline']
    encoded = [_encoded(it.content, given) for it in tokens]
    document, firsts, found = _read([it for it in encoded if it is not None], options, env.get('references') or {})
    builder, places = _Builder(md, env, document, has_places), iter(firsts)
    for token, part in zip(tokens, encoded):
        children = token.children = [] if token.children is None else token.children
        try:
            if part is None or found is None:
                raise _Refused
            children += builder.build(next(found), next(places))
        except _Refused:
            md.inline.parse(token.content, md, env, children)


def _widen(state: StateCore) -> None:
    """Says of the texts that are joined next where the last of them ends."""
    for token in state.tokens:
        first: Optional[Dict[str, int]] = None
        for it in token.children or ():
            place = it.meta.get('markdown_inline') if it.type in ('text', 'text_special') else None
            if first and place:
                first['end'] = place['end']
            else:
                first = place


def plugin(md: MarkdownIt, signs: Optional[Mapping[str, str]] = None, places: bool = False) -> None:
    """Puts the library into the place of markdown-it's inline parser: `MarkdownIt().use(plugin)`.

    A rule of another plugin is known by `signs`: for its name a regular expression, which is found in each content in which the rule can find something. Such
    contents are read by markdown-it's own parser; and all contents are, where a rule is not known, or where a rule of markdown-it is replaced. The rules of
    mdit-py-plugins are known. `places` says in `token.meta['markdown_inline']` from where to where each token stands, as `start` and `end`, in characters of
    the content."""
    md.core.ruler.at('inline', partial(_inline, {**_SIGNS, **(signs or {})}, places))
    if places and 'text_join' in md.core.ruler.get_all_rules():
        md.core.ruler.before('text_join', 'markdown_inline_places', _widen)


def _pieces(token: Token, has_signs: bool, lines: List[Tuple[str, str, int, int]], cells: Optional[Dict[int, int]]) -> Optional[List[Piece]]:
    """The pieces of an inline token, which is a heading between signs where it has some. `lines` has each line, as markdown-it reads it and as it is, where it
    begins, and where its ending ends; `cells` has for each line where its last cell ends, if this token is a cell."""
    found: List[Piece] = []
    parts = token.content.split('\n') if token.content else []
    for row, part in enumerate(parts, token.map[0] if token.map else len(lines)):
        if row >= len(lines):
            return None
        line, written, start, end = lines[row]
        part = part.lstrip(' \t')
        if cells is not None:
            at = line.find(part, cells.get(row, 0))
            cells[row] = at + len(part)
        else:
            line = re.sub('[ \t]#+[ \t]*$', '', line) if has_signs else line
            at = len(line) - len(part) if line.endswith(part) else line.rfind(part)
        if at < 0:
            return None
        begin, stop = (start + len(written[:it].encode('utf-8', 'surrogatepass')) for it in (at, at + len(part)))
        found.append(Piece(begin, stop if len(found) + 1 == len(parts) else end))
    return found


def pieces_of(tokens: Sequence[Token], document: str) -> List[Optional[List[Piece]]]:
    """For each inline token among the tokens of a document, in order, the pieces of the document that it is made of, as `Content` takes them; or None where they
    cannot be told, as of a cell with an escaped `|`. So `links` and `texts` tell places in the document."""
    lines, begin, at = [], 0, 0
    for it in [*_LINE_ENDING.finditer(document), None]:
        line = document[at:it.start()] if it else document[at:]
        at, start = it.end() if it else at, begin
        begin += len(line.encode('utf-8', 'surrogatepass')) + (len(it[0]) if it else 0)
        lines.append((line.replace('\0', '\ufffd').rstrip(' \t'), line, start, begin))
    found: List[Optional[List[Piece]]] = []
    cells: Dict[int, int] = {}
    for before, token in zip([None, *tokens], tokens):
        if token.type == 'inline':
            is_cell = before is not None and before.tag in ('th', 'td')
            has_signs = before is not None and before.type == 'heading_open' and before.markup.startswith('#')
            found.append(_pieces(token, has_signs, lines, cells if is_cell else None))
    return found
