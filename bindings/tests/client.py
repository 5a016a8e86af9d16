"""A small client, which typed.py hands to mypy."""
from math import inf
from typing import Any, Dict, List, Optional, Tuple

from markdown_inline import Address, Block, Definition, Document, Error, Kind as BlockKind, Node as BlockNode, __version__, links as document_links, parse, render, slugger
from markdown_inline.inline import (
    COMMONMARK, GFM, OPTIONS, Content, Event, Events, Kind, Leaf, Leaves, Name, Node, Piece, ShortEvent, ShortTexts, Texts, Tree, html, htmls, identifier, is_text,
    leaves, links, pieces_of_lines, reference, short_texts, string, strings, text, texts, tree)


def lines(document: str, defined: Dict[str, str]) -> List[int]:
    events: Events = text(document, gfm=True, definitions=defined)
    first: Event = events[0]
    part: Events = events[1:3]
    names: List[Name] = [it.name for it in part if it.kind == Kind.Enter]
    leaf: Leaf = leaves(document)[0]
    some: Leaves = leaves(document)[:1]
    spans: List[Tuple[int, int, int, int]] = list(string(document).spans())
    return [first.line, len(names), len(leaf.content), len(some), len(spans), *(byte for _, _, byte in events.flat())]


def many(document: bytes) -> int:
    lines: List[Piece] = pieces_of_lines(document, [0])
    found: Texts = texts(document, [Content([Piece(0, 1)]), ([(0, 1)], False), Content(lines)], rules='crate')
    shorts: ShortTexts = short_texts(document, [Content([(0, 1)])], options=COMMONMARK | GFM | OPTIONS['math_text'])
    short: ShortEvent = shorts[0][0]
    definition: Optional[int] = short.definition
    return found[0][0].index + sum(number for content in found.flat() for event in content for number in event) + (definition or 0)


def headings(document: str) -> List[Tuple[int, int, str]]:
    found: Document = parse(document, strikethrough=True, html='raw', line_ends='\n', limit=1000)
    defined: List[Definition] = found.definitions
    places: List[int] = [event.line for block in found for event in block.events] + [it.line for it in document_links(document, tasks=True)]
    some: List[Block] = [it for it in found[:9] if it.kind == BlockKind.Heading and len(defined) + len(places) + len(it.pieces) > 0]
    return [(it.number, it.line, it.html + (it.info or '') + (it.marker or '')) for it in some]


def outline(document: str) -> List[str]:
    found: Document = parse(document, tasks=True)
    titles: List[str] = ['%d %s' % (it.level, it.text) for it in found.headings]
    nodes: List[BlockNode] = [it for it in found.walk() if it.kind == 'list_item' and it.checked]
    urls: List[str] = [it.url + (it.title or '') for it in found.find('link', 'link_reference') if it.line < 9]
    tree: Dict[str, Any] = found.to_mdast()
    slug = slugger()

    def heading(node: BlockNode, inner: str) -> Optional[str]:
        return '<h%d id="%s">%s</h%d>' % (node.level, slug(node.text), inner, node.level) if inner else None

    hooks = {'heading': heading}
    urls.append(render(document, hooks=hooks) + render('', hooks={'code': lambda node, inner: node.text}))
    matter: Optional[Tuple[str, str]] = parse(document, front_matter=True, math=True).front_matter
    if matter is not None:
        urls += [matter[0], matter[1]]
    urls += [it.info or '' for it in found.find('math')]
    return titles + urls + [it.text for it in nodes] + [it.lang or '' for it in found.find('code')] + [str(tree['type']), found.to_json(), found.to_text()]


def words(document: str, defined: Dict[str, str]) -> List[str]:
    titled: Dict[str, Tuple[str, str]] = {'a': ('b', 'c')}
    addresses: List[Address] = links(document, definitions=titled)
    root: Tree = tree(document)
    nodes: List[Node] = [it for it in root.find(Name.Link, Name.Image) for it in it.children]
    try:
        found = [html(document, definitions=defined), render(document, html='raw', strikethrough=True, tasks=True, line_ends='\n', limit=inf), *htmls(document, [], definitions=titled), *strings(document, [[(0, 1)]], rules='crate')]
    except Error as error:
        found = ['%d %s' % (error.status, error.at)]
    return found + [it.text for it in nodes] + [it.title or it.destination for it in addresses] + [identifier('A'), reference('&amp;'), str(is_text('a')), __version__]
